"""The check beside TRIAD, world coordinates for other tools, and degrees as hours."""

import json
from dataclasses import replace

import numpy as np
import pytest
from astropy import units as u
from astropy.coordinates import SkyCoord
from astropy.io import fits
from astropy.wcs import WCS

from mnemathor import headers, library, rotation, solving
from mnemathor.attitude import Pointing, angle_between, in_frame, matrix_of, pointing_of, vectors
from mnemathor.folder import PIXEL
from mnemathor.simulation import Weather, simulate


def solved(settings, catalogue, seed=4, pointing=Pointing(83.5, -1, 350), **weather):
    made = simulate(settings, catalogue, seed, Weather(**weather), pointing)
    return made, solving.solve(settings, made.samples, catalogue)


def test_the_rotation_is_found_and_is_never_a_reflection():
    random = np.random.default_rng(1)
    for _ in range(20):
        sky = random.normal(size=(5, 3))
        sky /= np.linalg.norm(sky, axis=1, keepdims=True)
        rows = matrix_of(Pointing(*random.uniform(0, 90, 3)))
        assert np.allclose(rotation.rotation(sky @ rows.T, sky), rows, atol=1e-12)
        mirrored = rotation.rotation(sky @ np.diag([-1, 1, 1]), sky)
        assert np.linalg.det(mirrored) == pytest.approx(1)


def test_no_rotation_near_by_fits_better(settings, catalogue):
    """The sum of squares grows whichever way the best rotation is turned."""
    made, solution = solved(settings, catalogue, jitter=0.1)
    named = solution.named
    seen = np.array(
        [library.direction(settings, round(s.column * PIXEL), round(s.row * PIXEL)) for s in named],
        float,
    )
    seen /= np.linalg.norm(seen, axis=1, keepdims=True)
    sky = np.array([vectors(catalogue[catalogue["identity"] == s.identity])[0] for s in named])
    rows = rotation.rotation(seen, sky)
    least = np.sum((seen - sky @ rows.T) ** 2)
    for axis in range(3):
        for angle in (-1e-5, 1e-5):
            turn = np.eye(3)
            one, two = (axis + 1) % 3, (axis + 2) % 3
            turn[[one, two], [two, one]] = -angle, angle
            assert np.sum((seen - sky @ (turn @ rows).T) ** 2) > least


def test_the_check_is_nearer_to_the_truth_than_the_answer(settings, catalogue):
    """Over frames of random attitudes; and hardly any is warned of but for close stars."""
    flight, check, warned, frames = [], [], 0, 0
    for seed in range(40):
        made, solution = solved(settings, catalogue, (3, seed), None, jitter=0.05, least=7)
        best = rotation.best(settings, catalogue, solution)
        flight.append(angle_between(library.cosines(solution.matrix)[2], made.matrix[2]))
        check.append(angle_between(matrix_of(best.pointing)[2], made.matrix[2]))
        frames, warned = frames + 1, warned + any(
            "scatter allows" in warning for warning in best.warnings
        )
        assert best.axis == pytest.approx(
            angle_between(matrix_of(best.pointing)[2], library.cosines(solution.matrix)[2]),
            abs=0.01,
        )
    assert np.percentile(check, 90) < 0.6 * np.percentile(flight, 90) and warned <= 1


def test_close_stars_and_a_moved_star_are_warned_of(settings, catalogue):
    _, solution = solved(settings, catalogue)
    assert rotation.best(settings, catalogue, solution).warnings == ()
    # A solution whose first two named stars are those at Orion's belt, less than three degrees
    # apart.
    belt = sorted(solution.stars, key=lambda star: star.identity not in (26, 70, 33))
    (close,) = rotation.best(settings, catalogue, replace(solution, stars=tuple(belt))).warnings
    assert "degrees apart" in close
    # The answer's axis moved by a degree, as by a wrong first star.
    turned = matrix_of(Pointing(84.5, -1, 350))
    far = rotation.best(
        settings, catalogue, replace(solution, matrix=np.rint(turned * 10**9).astype(np.int64))
    )
    assert any("scatter allows" in warning for warning in far.warnings) and far.axis > 3000


def test_the_roll_of_the_check(settings, catalogue):
    _, solution = solved(settings, catalogue)
    best = rotation.best(settings, catalogue, solution)
    near = (best.pointing.roll - solution.pointing.roll) * 3600
    assert best.roll == pytest.approx(near, abs=5)


@pytest.mark.parametrize("pointing", [Pointing(83.5, -1, 350), Pointing(186.6, -60, 123)])
@pytest.mark.parametrize("centred", [True, False])
def test_wcs_has_the_positions_of_the_attitude(settings, catalogue, pointing, centred):
    """Every catalogue star in the frame: where astropy's WCS puts it is where the matrix does."""
    camera = settings if centred else replace(settings, cx=settings.cx + 900, cy=settings.cy - 700)
    _, solution = solved(camera, catalogue, pointing=pointing)
    wcs = WCS(headers.header(camera, solution))
    columns, rows, inside = in_frame(library.cosines(solution.matrix), vectors(catalogue), camera)
    sky = SkyCoord(*vectors(catalogue[inside]).T, representation_type="cartesian").spherical
    x, y = wcs.world_to_pixel(SkyCoord(sky.lon, sky.lat))
    assert np.count_nonzero(inside) >= 5
    assert np.allclose(x, columns[inside], atol=1e-3) and np.allclose(
        camera.height - 1 - y, rows[inside], atol=1e-3
    )


@pytest.mark.filterwarnings("ignore:.*more axes.*")
def test_solve_writes_wcs(run, folder, tmp_path):
    assert run("simulate", folder, "--pointing", 83.5, -1, 350)[0] == 0
    for name in ("out.fits", "out.wcs"):
        assert run("solve", folder, "--wcs", tmp_path / name)[0] == 0
        assert run("solve", folder, "--wcs", tmp_path / name)[0] == 0
        with fits.open(tmp_path / name) as units:
            place = WCS(units[0].header).pixel_to_world(99.5, 79.5)
            assert place.separation(SkyCoord(83.5 * u.deg, -1 * u.deg)) < 0.1 * u.deg
            assert (units[0].data is None) == (name == "out.wcs")
    with fits.open(tmp_path / "out.fits") as units:
        frame = np.frombuffer((folder / "frame.bin").read_bytes(), ">u2").reshape(160, 200)
        assert (units[0].data[::-1] == frame).all()
    assert run("solve", folder, "--wcs", tmp_path / "out.txt")[0] == 2
    (tmp_path / "own.fits").write_bytes(b"mine")
    assert (
        run("solve", folder, "--wcs", tmp_path / "own.fits")[0] == 2
        and (tmp_path / "own.fits").read_bytes() == b"mine"
    )


def test_solve_tells_hours_and_the_check(run, folder):
    assert run("simulate", folder, "--pointing", 83.5, -1, 350, "--seed", 4)[0] == 0
    lines = run("solve", folder)[1].splitlines()
    ra, dec = lines[1].split()[-2:]
    told = json.loads(run("solve", folder, "--json")[1])
    where = SkyCoord(ra, dec, unit=(u.hourangle, u.deg))
    assert where.separation(SkyCoord(told["ra"] * u.deg, told["dec"] * u.deg)) < 0.2 * u.arcsec
    assert told["sexagesimal"] == f"{ra} {dec}" and told["check"]["warnings"] == []
    assert len(told["check"]["residuals"]) == len([s for s in told["stars"] if s["identity"]])
    assert any(
        line.startswith("check over all ") and "from the answer above" in line for line in lines
    )


def test_seconds_do_not_reach_sixty():
    assert Pointing(359.99999999, -12.49999999, 0).sexagesimal == "00:00:00.00 -12:30:00.0"
    assert Pointing(15.0, 89.99999999, 0).sexagesimal == "01:00:00.00 +90:00:00.0"


def test_the_pointing_is_astropys():
    random = np.random.default_rng(5)
    for _ in range(20):
        rows = matrix_of(
            Pointing(random.uniform(0, 360), random.uniform(-89, 89), random.uniform(0, 360))
        )
        axis, up = (
            SkyCoord(*row, representation_type="cartesian").spherical for row in (rows[2], -rows[1])
        )
        axis, up = SkyCoord(axis.lon, axis.lat), SkyCoord(up.lon, up.lat)
        told = pointing_of(rows)
        assert np.allclose(
            [told.ra, told.dec, told.roll],
            [axis.ra.deg, axis.dec.deg, axis.position_angle(up).deg % 360],
            atol=1e-9,
        )
