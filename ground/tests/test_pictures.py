"""Pictures looked at by their content: rings where the stars are, marks where the library says,
words for the pixel asked about.
"""

import io
from dataclasses import replace

import matplotlib.colors
import numpy as np
import pytest
from conftest import BRIGHT, HERE, three_stars
from matplotlib.image import imread
from matplotlib.patches import Circle

from mnemathor import alarms, library, pictures, solving, trials
from mnemathor.attitude import Pointing
from mnemathor.simulation import Weather, simulate

EXAMPLE, CAMERA = HERE / "data" / "example.fits", HERE / "data" / "camera.toml"
WEATHER = Weather(hot=4, false=2, jitter=0.03)


@pytest.fixture(scope="module")
def orion(settings, catalogue):
    return simulate(settings, catalogue, 6, WEATHER, Pointing(83.5, -1, 350))


def drawn(figure):
    """The figure's pixels, and a way from column and row of the frame to them."""
    image = imread(io.BytesIO(pictures.png(figure)))[..., :3]
    place = figure.axes[0].transData

    def at(column, row):
        x, y = place.transform((column, row))
        return round(y), round(x)

    return image[::-1], at


def has_colour(image, centre, radius, colour):
    """Whether a pixel of about that colour lies on the circle."""
    angles = np.linspace(0, 2 * np.pi, 90)
    wanted = matplotlib.colors.to_rgb(colour)
    for angle in angles:
        row, column = round(centre[0] + radius * np.sin(angle)), round(
            centre[1] + radius * np.cos(angle)
        )
        part = image[max(row - 1, 0) : row + 2, max(column - 1, 0) : column + 2].reshape(-1, 3)
        if len(part) and (abs(part - wanted).sum(axis=1) < 0.35).any():
            return True
    return False


def test_rings_are_where_the_stars_are(settings, catalogue, orion):
    figure = pictures.picture(settings, orion.samples, catalogue)
    solution = solving.solve(settings, orion.samples, catalogue)
    image, at = drawn(figure)
    radius = at(pictures.ring(settings), 0)[1] - at(0, 0)[1]
    assert radius > 10
    for star in solution.stars:
        colour, other = (
            (pictures.NAMED, pictures.UNNAMED)
            if star.identity is not None
            else (pictures.UNNAMED, pictures.NAMED)
        )
        assert has_colour(image, at(star.column, star.row), radius, colour)
        assert star.identity is None or not has_colour(
            image, at(star.column, star.row), radius, other
        )
    assert not has_colour(image, at(20, 100), radius, pictures.NAMED)
    # The frame itself shows: a star's middle is bright, the sky is dark.
    bright = image[at(orion.stars[0].column, orion.stars[0].row)]
    assert image[at(20, 100)].max() < 0.4 and bright.max() > 0.5


def test_the_drawing_has_every_mark(settings, catalogue, orion):
    figure = pictures.picture(settings, orion.samples, catalogue)
    axes = figure.axes[0]
    report = library.list_stars(orion.samples, settings)
    marks = pictures.bright_pixels(orion.samples, settings, report)
    assert {kind: len(found) for kind, found in marks.items()} == {
        "edge": report.edge,
        "lone": report.lone,
        "measured": report.measured,
    }
    rings = [
        patch
        for patch in axes.patches
        if isinstance(patch, Circle) and patch.radius == pictures.ring(settings)
    ]
    places = {(star.x / 256, star.y / 256) for star in report.stars}
    assert {ring.center for ring in rings} == places
    texts = {text.get_text() for text in axes.texts}
    solution = solving.solve(settings, orion.samples, catalogue)
    assert texts == {
        f"{star.number}: {star.identity if star.identity is not None else '-'}"
        for star in solution.stars
    }
    lone = {
        (int(line.get_xdata()[0]), int(line.get_ydata()[0]))
        for line in axes.lines
        if line.get_marker() == "x"
    }
    assert (
        lone == {(verdict.column, verdict.row) for verdict in marks["lone"]}
        and len(lone) == report.lone
    )
    unlisted = [line for line in axes.lines if line.get_marker() == "^"]
    assert len(unlisted) == report.measured - len(report.stars)


def test_no_label_lies_on_another_ring(run, tmp_path):
    """README's picture, whose brightest star has further ones close by."""
    night = tmp_path / "night"
    for words in (
        ("frame", EXAMPLE, night),
        ("catalogue", BRIGHT, night, "--brightest", 512, "--apart", 1),
        ("settings", CAMERA, night),
    ):
        assert run(*words)[0] == 0
    figure = pictures.picture(*solving.read_folder(night))
    figure.draw_without_rendering()
    axes = figure.axes[0]
    rings = [patch.get_window_extent() for patch in axes.patches if isinstance(patch, Circle)]
    assert len(rings) == 14 and len(axes.texts) == 8
    for text in axes.texts:
        assert not any(text.get_window_extent().overlaps(ring) for ring in rings), text


def test_labels_are_whole(settings, catalogue):
    """Identities of ten digits on stars near the sides."""
    catalogue = catalogue.copy()
    catalogue["identity"] += 4 * 10**9
    for number in range(4):
        made = simulate(settings, catalogue, (7, number), Weather(least=8))
        figure = pictures.picture(settings, made.samples, catalogue)
        figure.draw_without_rendering()
        axes = figure.axes[0]
        sides = axes.get_window_extent()
        for text in axes.texts:
            box = text.get_window_extent()
            assert sides.x0 <= box.x0 and box.x1 <= sides.x1, (number, text)


def test_catalogue_stars_stand_where_the_matrix_puts_them(settings, catalogue, orion):
    axes = pictures.picture(settings, orion.samples, catalogue).axes[0]
    (crosses,) = [line for line in axes.lines if line.get_marker() == "+"]
    points = np.stack([crosses.get_xdata(), crosses.get_ydata()], axis=1)
    for star in orion.stars:
        assert np.hypot(*(points - [star.column, star.row]).T).min() < 1


@pytest.mark.parametrize(
    "pixel, told",
    [
        ((60, 33), "beaten: the pixel at row 60, column 31 beats it"),
        ((60, 34), "dark: its sample, 0, is below the threshold, 50"),
        ((60, 32), "measured: a star at row 60.00, column 32.00, brightness 4800"),
        ((20, 50), "lone: a hot pixel"),
        ((0, 0), "edge: too near the left side of the frame"),
    ],
)
def test_a_pixel_and_its_reason_in_words(pixel, told):
    settings, frame, catalogue = three_stars()
    frame[20, 50] = frame[0, 0] = 90
    window = pictures.picture(settings, frame, catalogue, pixel=pixel).axes[1]
    assert told in window.get_title().replace("\n", " ")
    row, column = pixel
    texts = {
        (round(text.get_position()[1]), round(text.get_position()[0])): text.get_text()
        for text in window.texts
    }
    assert texts[pixel] == str(frame[pixel])
    assert all(texts[place] == str(frame[place]) for place in texts)
    assert len(texts) == (min(row, 3) + 4) * (min(column, 3) + 4)


def test_the_command_and_its_file(run, folder, tmp_path):
    assert run("simulate", folder, "--pointing", 83.5, -1, 350)[0] == 0
    status, out, _ = run("picture", folder, tmp_path / "out.png", "--pixel", 10, 20)
    assert status == 0 and "right ascension 83.5" in out
    picture = imread(tmp_path / "out.png")
    assert picture.shape[0] > 400 and picture.shape[1] > 900


def test_a_frame_without_a_solution_has_a_picture(run, folder, tmp_path):
    assert run("simulate", folder, "--seed", 2, "--least", 7, "--mirror")[0] == 0
    status, out, _ = run("picture", folder, tmp_path / "out.png")
    assert status == 0 and "refused 13 0: no assignment fits" in out
    assert (tmp_path / "out.png").stat().st_size > 10000


def test_pictures_that_cannot_be_made(run, folder, tmp_path):
    assert run("simulate", folder)[0] == 0
    assert run("picture", folder, tmp_path / "no" / "out.png")[0] == 2
    status, _, err = run("picture", folder, tmp_path / "out.png", "--pixel", 160, 0)
    assert status == 1 and err.startswith("refused 15 0: the pixel asked for is outside the frame")
    assert run("picture", folder, tmp_path / "out.png", "--pixel", -1, 0)[0] == 2
    assert not (tmp_path / "out.png").exists()


@pytest.mark.parametrize("size", [(200, 160), (968, 548), (100, 100), (60, 400), (1024, 100)])
@pytest.mark.parametrize("window", [False, True])
def test_rings_and_legend_fit_the_frame(settings, catalogue, size, window):
    """A ring is as large on paper whatever the frame's size, and the legend is whole."""
    camera = replace(settings, focal=max(16384, 512 * max(size))).of_size(*size)
    made = simulate(camera, catalogue, 6, Weather(hot=4, false=6), Pointing(83.5, -1, 350))
    figure = pictures.picture(
        camera, made.samples, catalogue, pixel=(size[1] // 2, size[0] // 2) if window else None
    )
    image, at = drawn(figure)
    radius = at(pictures.ring(camera), 0)[1] - at(0, 0)[1]
    assert 12 < radius < 45
    box = (
        figure.axes[-1].get_legend().get_window_extent().transformed(figure.transFigure.inverted())
    )
    assert box.x0 > 0 and box.y0 > 0 and box.x1 < 1 and box.y1 < 1


def test_the_stretch_goes_by_sky_and_noise(settings, catalogue, orion):
    """One star that is a thousand times as bright makes the others no darker."""
    bright = orion.samples.copy()
    bright[100:110, 20:30] = 4095
    limits = [
        pictures.picture(settings, samples, catalogue).axes[0].images[0].norm
        for samples in (orion.samples, bright)
    ]
    assert limits[0].vmin == pytest.approx(limits[1].vmin, abs=2) and limits[
        0
    ].vmax == pytest.approx(limits[1].vmax, rel=0.1)


def test_the_mirror_is_told_on_the_picture(run, folder, tmp_path):
    assert run("simulate", folder, "--seed", 2, "--least", 7, "--mirror")[0] == 0
    assert "is the readout mirrored?" in run("picture", folder, tmp_path / "out.png")[1].replace(
        "\n", " "
    )


def test_a_rare_false_alarm_is_no_zero_in_the_grid(settings):
    cells = tuple(
        trials.Cell(10**14, needed, 100, accepted, 0, 0, {}, None, None, None, None)
        for needed, accepted in ((4, 80), (5, 0))
    )
    counted = tuple(
        alarms.Cell(10**14, needed, 3000, seen, 0, {}) for needed, seen in ((4, 1), (5, 0))
    )
    counted = alarms.Alarms(counted, 3000, 3000, 0, "random", False)
    figure = pictures.trial_picture(trials.Trial(cells, 100, 0, 1.0, 100, counted), settings)
    told = [[text.get_text() for text in axes.texts] for axes in figure.axes]
    assert told == [["80.0", "0.0"], ["0\n(<3.7)", "-"], ["0\n(<3.7)", "-"], ["0.03", "0\n(<0.10)"]]


def test_the_ending_says_which_kind(run, folder, tmp_path):
    assert run("simulate", folder)[0] == 0
    for ending, start in (("png", b"\x89PNG"), ("PDF", b"%PDF"), ("svg", b"<?xml")):
        out = tmp_path / f"out.{ending}"
        assert run("picture", folder, out)[0] == 0 and out.read_bytes().startswith(start)
        assert run("picture", folder, out)[0] == 0
    status, _, err = run("picture", tmp_path / "out.png", folder)
    assert status == 2 and "the folder comes first" in err
    for name in ("out.jpg", "out"):
        status, _, err = run("picture", folder, tmp_path / name)
        assert (
            status == 2
            and "must end in .png, .pdf or .svg" in err
            and not (tmp_path / name).exists()
        )
