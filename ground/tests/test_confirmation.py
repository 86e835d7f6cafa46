"""Answers confirmed by the stars that they did not use, and not confirmed where the attitude is
wrong.
"""

import json
from dataclasses import replace

import numpy as np
import pytest
from astropy.stats import mad_std
from conftest import three_stars
from matplotlib.patches import Circle

from mnemathor import confirmation, kept, library, pictures, solving
from mnemathor.attitude import Pointing, matrix_of
from mnemathor.confirmation import Confirmation, Further, confirm, look, sky_of
from mnemathor.folder import SAMPLE, settings_bytes
from mnemathor.simulation import Weather, simulate


@pytest.fixture(scope="module")
def orion(settings, catalogue):
    return simulate(
        settings, catalogue, 6, Weather(hot=2, false=2, jitter=0.05), Pointing(83.5, -1, 350)
    )


def test_a_true_answer_is_confirmed(settings, catalogue, orion):
    """Every star that was put into the frame and has no name is a further one, and is found."""
    solution = solving.solve(settings, orion.samples, catalogue)
    told = confirm(settings, orion.samples, catalogue, solution)
    names, put = {star.identity for star in solution.named}, {
        star.identity: star for star in orion.stars
    }
    assert (
        told.verdict is True
        and told.found >= 0.8 * len(told.stars)
        and len(told.stars) >= 5
        and told.odds < 1e-6
    )
    for star in told.stars:
        assert star.identity not in names
        assert (
            np.hypot(star.column - put[star.identity].column, star.row - put[star.identity].row) < 2
        )
    assert str(told).startswith(
        f"confirmed: {told.found} of {len(told.stars)} further stars found, "
    ) and "by chance (" in str(told)


def test_wrong_answers_find_as_many_as_chance(settings, catalogue):
    """The frame's own stars under attitudes that have nothing to do with it: what is found is what
    is expected, and hardly any is confirmed.
    """
    random, found, expected, confirmed, tried = np.random.default_rng(2), 0, 0.0, 0, 0
    for number in range(60):
        made = simulate(settings, catalogue, (4, number), Weather(hot=2, false=3, least=8))
        solution = solving.solve(settings, made.samples, catalogue)
        wrong = matrix_of(
            Pointing(random.uniform(0, 360), random.uniform(-60, 60), random.uniform(0, 360))
        )
        told = confirm(
            settings,
            made.samples,
            catalogue,
            replace(solution, matrix=np.rint(wrong * 10**9).astype(np.int64)),
        )
        found, expected, confirmed, tried = (
            found + told.found,
            expected + told.expected,
            confirmed + (told.verdict is True),
            tried + len(told.stars),
        )
    assert tried > 200 and abs(found - expected) < 4 * np.sqrt(expected) + 2
    assert confirmed <= 2


def test_the_look_is_lower_and_has_the_librarys_verdicts(settings, catalogue, orion):
    threshold, verdicts = look(orion.samples, settings)
    assert 40 < threshold < settings.threshold
    report = library.list_stars(orion.samples, replace(settings, threshold=threshold))
    assert len(verdicts) == report.measured > library.list_stars(orion.samples, settings).measured
    listed = {(star.x, star.y) for star in report.stars}
    assert listed <= {(verdict.centroid.x, verdict.centroid.y) for verdict in verdicts}


def test_the_look_never_goes_above_the_lists_threshold(settings):
    noise = np.random.default_rng(1).integers(0, 4096, (160, 200)).astype(np.uint16)
    threshold, verdicts = look(noise, settings)
    assert threshold == settings.threshold and len(verdicts) <= 4 * noise.size // 250 + 8


def test_chance_is_the_share_of_the_surroundings(settings):
    """One measured position, in the middle of the surroundings: of 41 x 41 pixels 13 are within two
    pixels of it.
    """
    star = Further(1, 2.0, 100.0, 80.0, False)
    none = np.zeros((0, 2))
    assert confirmation._chance(settings, np.array([[100.0, 80.0]]), none, star) == pytest.approx(
        13 / 41**2
    )
    assert confirmation._chance(settings, none, none, star) == 0
    # A named star's surroundings do not count.
    assert (
        confirmation._chance(settings, np.array([[100.0, 80.0]]), np.array([[100.0, 80.0]]), star)
        == 0
    )


def test_the_words():
    stars = tuple(Further(k, 3.0, 10.0 * k, 10.0, k < 19) for k in range(30))
    told = Confirmation(stars, 2.0, 1e-10, 100, 60)
    assert (
        str(told) == "confirmed: 19 of 30 further stars found, 2.0 by chance (less than 1 in 10^9)"
    )
    assert (
        str(replace(told, odds=1 / 12345))
        == "confirmed: 19 of 30 further stars found, 2.0 by chance (1 in 12,000)"
    )
    assert (
        str(replace(told, odds=0.04))
        == "not confirmed: 19 of 30 further stars found, 2.0 by chance (1 in 25)"
    )
    assert (
        replace(told, odds=1 / 301).verdict is True and replace(told, odds=1 / 299).verdict is False
    )
    assert (
        str(Confirmation(stars[:1], 0.1, None, 100, 60))
        == "neither confirmed nor not: 1 further star in the frame, at least 3 are wanted"
    )


def test_where_nothing_can_be_said_the_rate_is(tmp_path, run, monkeypatch):
    """The built-in case has three stars, and all have names."""
    settings, frame, catalogue = three_stars()
    monkeypatch.setattr(kept, "LISTS", 40)
    for name, contents in (
        ("settings.bin", settings_bytes(settings)),
        ("frame.bin", frame.astype(SAMPLE).tobytes()),
        ("catalogue.bin", catalogue.tobytes()),
    ):
        (tmp_path / name).write_bytes(contents)
    status, out, _ = run("solve", tmp_path)
    assert status == 0 and "neither confirmed nor not: 0 further stars in the frame" in out
    assert (
        "of lists of 3 positions with no star behind them, 0 (< " in out
        and "get 3 names or more" in out
    )
    monkeypatch.setattr(kept, "measure", None)
    told = json.loads(run("solve", tmp_path, "--json")[1])
    assert (
        told["confirmation"]["verdict"] is None
        and told["false_alarms"]["accepted"] == 0
        and told["false_alarms"]["names"] == 3
    )


def test_solve_and_picture_tell_it(run, folder, tmp_path, settings, catalogue):
    assert run("simulate", folder, "--pointing", 83.5, -1, 350, "--seed", 4)[0] == 0
    told = json.loads(run("solve", folder, "--json")[1])["confirmation"]
    assert (
        told["verdict"] is True
        and told["found"] == sum(star["found"] for star in told["stars"])
        and told["further"] == len(told["stars"])
    )
    assert (
        run("solve", folder)[1].splitlines()[-1].startswith("confirmed: ")
        and not (folder / "alarms.json").exists()
    )
    status, out, _ = run("picture", folder, tmp_path / "out.png")
    assert status == 0 and "confirmed: " in out


def test_further_stars_are_ringed(settings, catalogue, orion):
    solution = solving.solve(settings, orion.samples, catalogue)
    told = confirm(settings, orion.samples, catalogue, solution)
    axes = pictures.picture(settings, orion.samples, catalogue).axes[0]
    rings = [
        patch
        for patch in axes.patches
        if isinstance(patch, Circle) and patch.radius == pictures.SMALL * pictures.ring(settings)
    ]
    assert {ring.center for ring in rings} == {(star.column, star.row) for star in told.stars}
    whole = {ring.center for ring in rings if ring.get_linestyle() in ("-", "solid")}
    assert whole == {(star.column, star.row) for star in told.stars if star.found}


@pytest.mark.parametrize("shape", [(7, 7), (8, 9), (160, 200)])
def test_the_sky_is_what_numpy_and_astropy_say(shape):
    random = np.random.default_rng(shape[0])
    for samples in (
        random.integers(0, 4096, shape),
        random.normal(40, 4, shape).clip(0),
        np.full(shape, 7),
    ):
        samples = samples.astype(np.uint16)
        assert sky_of(samples) == pytest.approx((np.median(samples), mad_std(samples)))
