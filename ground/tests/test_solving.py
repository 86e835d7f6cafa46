"""Simulated frames and their solutions."""

import json
from dataclasses import replace

import numpy as np
import pytest

from mnemathor import library, solving
from mnemathor.attitude import Pointing, angle_between, matrix_of, pointing_of, turn_between
from mnemathor.folder import STAR, read_catalogue, read_settings
from mnemathor.refusals import Refused
from mnemathor.simulation import Weather, simulate
from mnemathor.trials import wrong_names

# One pixel in the middle of the camera's frame, in arc seconds.
PIXEL = 515.7


@pytest.mark.parametrize(
    "pointing",
    [Pointing(83.5, -1, 350), Pointing(0, 0, 0), Pointing(359.9, 89, 10), Pointing(200, -75, 181)],
)
def test_a_pointing_there_and_back(pointing):
    back = pointing_of(matrix_of(pointing))
    assert np.allclose(
        [back.ra, back.dec, back.roll], [pointing.ra, pointing.dec, pointing.roll], atol=1e-9
    )
    assert np.isclose(np.linalg.det(matrix_of(pointing)), 1)


def test_what_the_roll_means(settings):
    """North up: a star north of the axis is above the middle, one to the east is left of it."""
    rows = matrix_of(Pointing(100, 20, 0))
    north, east = matrix_of(Pointing(100, 25, 0))[2], matrix_of(Pointing(105, 20, 0))[2]
    assert (rows @ north)[1] < -0.05 and abs((rows @ north)[0]) < 1e-12
    assert (rows @ east)[0] < -0.05
    # Turned by 90 degrees the frame's upward direction points east.
    assert (matrix_of(Pointing(100, 20, 90)) @ east)[1] < -0.05


@pytest.mark.parametrize("seed", range(12))
def test_the_solved_attitude_is_the_simulated_one(settings, catalogue, seed):
    made = simulate(settings, catalogue, seed, Weather(least=6))
    solution = solving.solve(settings, made.samples, catalogue)
    rows = library.cosines(solution.matrix)
    assert angle_between(rows[2], made.matrix[2]) < 0.5 * PIXEL
    assert turn_between(rows, made.matrix) < 3 * PIXEL
    at = {star.identity: star for star in made.stars}
    assert len(solution.named) >= settings.needed
    for star in solution.named:
        assert (
            np.hypot(star.column - at[star.identity].column, star.row - at[star.identity].row) < 3
        )
        assert star.residual < PIXEL
    assert solution.named[0].residual < 0.01


def test_no_wrong_name_on_200_frames_at_the_recommended_settings(settings, catalogue):
    """With a false star, two hot pixels and jitter in each; and most are accepted."""
    accepted = 0
    for number in range(200):
        made = simulate(settings, catalogue, (1967, number), Weather(false=1, hot=2, jitter=0.05))
        try:
            tracked = library.chain(made.samples, settings, catalogue)
        except Refused as refusal:
            assert refusal.number in (12, 13, 14)
            continue
        accepted += 1
        assert wrong_names(tracked, made, catalogue) == 0
    assert accepted > 150


def test_a_wrong_name_would_be_seen(settings, catalogue):
    """The same count with a tolerance of a whole pixel and three stars finds many."""
    loose = replace(settings, tolerance=10**15, needed=3)
    frames = [
        simulate(settings, catalogue, (1967, number), Weather(false=1, jitter=0.05, least=5))
        for number in range(20)
    ]
    assert (
        sum(
            wrong_names(library.chain(made.samples, loose, catalogue), made, catalogue) > 0
            for made in frames
        )
        > 10
    )


def test_a_mirrored_readout_is_refused_and_told(run, folder):
    assert run("simulate", folder, "--seed", 2, "--least", 7, "--mirror")[0] == 0
    status, _, err = run("solve", folder)
    assert (
        status == 1
        and err.startswith("refused 13 0: no assignment fits")
        and "is the readout mirrored?" in err
    )


def test_solve_prints_what_was_simulated(run, folder):
    status, out, _ = run("simulate", folder, "--pointing", 83.5, -1, 350, "--seed", 4, "--hot", 3)
    assert status == 0 and out.startswith(
        "right ascension 83.50000  declination -1.00000  roll 350.0000"
    )
    truth = json.loads((folder / "truth.json").read_text())
    assert len(truth["hot"]) == 3 and abs(truth["ra"] - 83.5) < 1e-9
    status, out, _ = run("solve", folder)
    words = out.split()
    assert (
        status == 0
        and abs(float(words[2]) - 83.5) < 0.1
        and abs(float(words[4]) + 1) < 0.1
        and abs(float(words[6]) - 350) < 0.5
    )
    told = json.loads(run("solve", folder, "--json")[1])
    assert (
        abs(told["ra"] - 83.5) < 0.1
        and len(told["stars"]) == 8
        and told["stars"][0]["residual"] < 0.01
    )
    assert np.array(told["matrix"]).shape == (3, 3)


def test_a_rival_is_told(run, folder, settings):
    """The last listed star, 133, twice in the catalogue: either will do, and solve says so."""
    catalogue = read_catalogue(folder).copy()
    assert run("simulate", folder, "--pointing", 83.5, -1, 350)[0] == 0
    double = catalogue[catalogue["identity"] == 133].copy()
    double["identity"] = 100000
    (folder / "catalogue.bin").write_bytes(
        np.concatenate([catalogue[1:], double]).astype(STAR).tobytes()
    )
    status, out, _ = run("solve", folder)
    assert (
        status == 0
        and "WARNING: another identification fits as well" in out
        and "star 7 as 100000" in out
    )
    assert json.loads(run("solve", folder, "--json")[1])["rival"] == {"7": 100000}


def test_the_same_seed_gives_the_same_frame(settings, catalogue):
    weather = Weather(hot=2, false=1, jitter=0.1)
    frames = [simulate(settings, catalogue, seed, weather).samples for seed in (5, 5, 6)]
    assert (frames[0] == frames[1]).all() and (frames[0] != frames[2]).any()


@pytest.mark.parametrize("mirror", [False, True])
def test_the_truth_is_where_the_samples_are(settings, catalogue, mirror):
    weather = Weather(noise=0, false=2, hot=2, mirror=mirror)
    made = simulate(settings, catalogue, 3, weather, Pointing(83.5, -1, 350))
    for put in made.stars + made.false + made.hot:
        assert made.samples[round(put.row), round(put.column)] > settings.threshold
    plain = simulate(
        settings, catalogue, 3, replace(weather, mirror=False), Pointing(83.5, -1, 350)
    )
    assert (made.samples == (plain.samples[:, ::-1] if mirror else plain.samples)).all()


def test_hot_pixels_and_false_stars_are_put(settings, catalogue):
    plain = simulate(settings, catalogue, 8, Weather(noise=0, least=3))
    spoilt = simulate(settings, catalogue, 8, Weather(noise=0, least=3, hot=4, false=2))
    report = library.list_stars(spoilt.samples, settings)
    assert report.lone == 4 or report.lone + report.edge >= 4
    assert library.list_stars(plain.samples, settings).lone == 0
    for false in spoilt.false:
        assert (
            spoilt.samples[round(false.row), round(false.column)]
            > plain.samples[round(false.row), round(false.column)] + 50
        )


@pytest.mark.parametrize(
    "name, told",
    [
        ("settings.bin", "settings.bin"),
        ("catalogue.bin", "catalogue.bin"),
        ("frame.bin", "frame.bin"),
    ],
)
def test_missing_files_are_told(run, folder, name, told):
    assert run("simulate", folder)[0] == 0
    (folder / name).unlink()
    status, out, err = run("solve", folder)
    assert (status, out) == (2, "") and told in err and len(err.splitlines()) == 1


def test_broken_files_are_told(run, folder):
    assert run("simulate", folder)[0] == 0
    settings = read_settings(folder)
    frame = (folder / "frame.bin").read_bytes()
    (folder / "frame.bin").write_bytes(frame[:-2])
    assert f"{settings.width * settings.height - 1} samples" in run("solve", folder)[2]
    (folder / "frame.bin").write_bytes(b"\xff\xff" + frame[2:])
    assert run("solve", folder)[2].startswith("refused 4 0")
    (folder / "catalogue.bin").write_bytes(b"")
    (folder / "frame.bin").write_bytes(frame)
    assert run("solve", folder)[2].startswith("refused 6 0")


def test_simulations_that_make_no_sense(run, folder):
    for words in (("--spread", 0), ("--noise", -1), ("--least", 500), ("--seed", -1)):
        status, out, err = run("simulate", folder, *words)
        assert (status, out) == (2, "") and len(err.splitlines()) == 1
        assert not (folder / "frame.bin").exists()


def test_a_catalogue_of_a_part_of_the_sky_is_simulated_there(settings, catalogue):
    """Attitudes for a region are drawn near it, all equally likely: as many on either side of its
    middle.
    """
    part = catalogue[catalogue["z"] > 0.93 * 10**9]
    narrow = replace(settings, focal=4 * settings.focal)
    made = [simulate(narrow, part, (7, number), Weather(least=1)) for number in range(60)]
    assert max(each.draws for each in made) < 200 and all(len(each.stars) >= 1 for each in made)
    middle = np.array([part[axis].astype(float).sum() for axis in "xyz"])
    sides = np.sign(
        [
            np.dot(np.cross(each.matrix[2], middle / np.linalg.norm(middle)), [1, 0, 0])
            for each in made
        ]
    )
    assert 15 < np.count_nonzero(sides > 0) < 45
