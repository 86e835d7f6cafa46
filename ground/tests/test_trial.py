"""Trials: the same whatever the number of processes, bounds as stated, and the recommended pair by
its rule.
"""

import json
from dataclasses import replace

import pytest
from conftest import BRIGHT

from mnemathor import library, stars
from mnemathor.attitude import Pointing, angle_between, matrix_of
from mnemathor.folder import read_settings
from mnemathor.simulation import Weather, simulate
from mnemathor.trials import Cell, Trial, none_seen, wrong_names


def cell(tolerance, needed, accepted, wrong):
    return Cell(tolerance, needed, 100, accepted, wrong, 0, {}, None, None, None, None)


def test_the_bound_where_none_was_seen():
    assert none_seen(0) is None
    for tries in (1, 20, 300):
        # With that rate, none of so many has a chance of 5 %.
        assert (1 - none_seen(tries)) ** tries == pytest.approx(0.05)
    assert none_seen(300) == pytest.approx(3 / 300, rel=0.01)


def test_what_a_wrong_name_is(settings, catalogue):
    """Names right, two exchanged, and one given to a false star."""
    made = simulate(settings, catalogue, 6, Weather(false=1), Pointing(83.5, -1, 350))
    tracked = library.chain(made.samples, settings, catalogue)
    first, second, *rest = tracked.assignment
    assert None not in (first, second) and wrong_names(tracked, made, catalogue) == 0
    assert wrong_names(replace(tracked, assignment=(second, first, *rest)), made, catalogue) == 2
    (false,) = made.false
    there = library.Centroid(round(256 * false.column), round(256 * false.row), 1)
    report = replace(tracked.report, stars=(there, *tracked.report.stars[1:]))
    assert wrong_names(replace(tracked, report=report), made, catalogue) == 1


def test_the_check_beside_the_answer(run, folder):
    """With --check the axis over all named stars is nearer to the truth, and the longest chain is
    told; without it neither is there.
    """
    words = (
        "trial",
        folder,
        "--frames",
        24,
        "--needed",
        4,
        "--tolerances",
        2 * 10**14,
        "--lists",
        0,
    )
    (cell,) = json.loads(run(*words, "--check", "--json")[1])["cells"]
    assert cell["check_median"] < cell["axis_median"] and cell["check_95"] < cell["axis_95"]
    assert 0.1 < cell["slowest"] < 60000
    line = run(*words, "--check")[1].splitlines()[2]
    assert f"check {cell['check_median']:.0f}″, {cell['check_95']:.0f}″" in line
    (plain,) = json.loads(run(*words, "--json")[1])["cells"]
    assert (
        plain["check_95"] is None
        and plain["slowest"] is None
        and plain["accepted"] == cell["accepted"]
    )


def test_the_recommended_pair():
    cells = (
        cell(10, 3, 99, 1),
        cell(10, 4, 90, 0),
        cell(10, 5, 90, 0),
        cell(20, 5, 90, 0),
        cell(20, 6, 80, 0),
    )
    assert Trial(cells, 100, 0, 1.0, 100).recommended is cells[2]
    assert Trial((cell(10, 3, 99, 1), cell(10, 8, 0, 0)), 100, 0, 1.0, 100).recommended is None


def test_a_small_trial(run, folder, tmp_path):
    lists = ("--lists", 60, "--alarms", 0.06)
    words = (
        "trial",
        folder,
        "--frames",
        12,
        "--seed",
        3,
        "--needed",
        3,
        4,
        "--tolerances",
        2 * 10**14,
        10**15,
        *lists,
    )
    status, out, _ = run(*words, "--processes", 1, "--json", "--plot", tmp_path / "t.png")
    one = json.loads(out)
    assert status == 0 and len(one["cells"]) == 4 and (tmp_path / "t.png").stat().st_size > 5000
    assert json.loads(run(*words, "--processes", 3, "--json")[1]) == one
    for each in one["cells"]:
        assert each["frames"] == 12 == each["accepted"] + sum(each["refusals"].values())
        assert each["wrong_names"] <= each["accepted"]
    assert one["cells"][2]["wrong_names"] > 0 and one["recommended"]["needed"] == 4
    status, out, _ = run(*words, "--set", "--bound", 30)
    assert (
        status == 0
        and "recommended: tolerance 200000000000000, needed 4" in out
        and "exact binomial" in out
    )
    assert (read_settings(folder).tolerance, read_settings(folder).needed) == (2 * 10**14, 4)


def test_set_wants_a_bound(run, folder):
    words = (
        "trial",
        folder,
        "--frames",
        12,
        "--seed",
        3,
        "--needed",
        4,
        "--tolerances",
        2 * 10**14,
        "--lists",
        30,
        "--alarms",
        1,
        "--set",
    )
    before = read_settings(folder)
    status, out, err = run(*words)
    assert status == 2 and "recommended" in out and read_settings(folder) == before
    assert "--bound wants 1 %: the settings stay" in err
    frames = int(err.split("--frames ")[1].split()[0])
    accepted = json.loads(run(*words[:-1], "--json")[1])["cells"][0]["accepted"]
    assert none_seen(frames * accepted // 12) <= 0.01 < none_seen(frames * accepted // 12 - 5)
    assert run(*words, "--bound", 40)[0] == 0 and read_settings(folder).needed == 4


def test_both_percentages_are_told(run, folder):
    words = ("trial", folder, "--frames", 12, "--needed", 4, "--tolerances", 2 * 10**14)
    told = json.loads(run(*words, "--json")[1])
    out = run(*words)[1]
    accepted = told["cells"][0]["accepted"]
    assert told["drawn"] > 12 and "of all" in out
    assert f"{100 * accepted / 12:.1f}%" in out and f"{100 * accepted / told['drawn']:.1f}%" in out


def test_a_plot_that_cannot_be_written_is_told_before_the_trial(run, folder, tmp_path):
    for out, told in (
        (tmp_path / "no" / "t.png", "is not a folder"),
        (tmp_path / "t.jpg", "must end in"),
    ):
        status, printed, err = run("trial", folder, "--frames", 100000, "--plot", out)
        assert (status, printed) == (2, "") and told in err


def test_a_mirrored_readout_is_not_accepted(run, folder):
    words = (
        "--frames",
        12,
        "--needed",
        5,
        "--tolerances",
        186 * 10**12,
        "--mirror",
        "--least",
        6,
        "--lists",
        0,
        "--json",
    )
    status, out, _ = run("trial", folder, *words)
    assert (
        status == 0
        and json.loads(out)["cells"][0]["accepted"] == 0
        and json.loads(out)["recommended"] is None
    )


def test_a_sky_with_the_stars_that_were_left_out(run, folder, settings, catalogue, tmp_path):
    """A catalogue of every other star: with the sky, frames have these too, and the lists have
    places for fewer names.
    """
    thin = catalogue[::2]
    (folder / "catalogue.bin").write_bytes(thin.tobytes())
    alone, all_of_it = (
        simulate(settings, thin, 6, Weather(), Pointing(83.5, -1, 350), sky=sky)
        for sky in (None, stars.read_stars(BRIGHT).records)
    )
    names, known = {star.identity for star in all_of_it.stars}, set(thin["identity"].tolist())
    assert {star.identity for star in alone.stars} == names & known < names
    words = (
        "trial",
        folder,
        "--frames",
        16,
        "--needed",
        5,
        "--tolerances",
        186 * 10**12,
        "--false",
        0,
        "--lists",
        0,
        "--json",
    )
    with_sky, without = (
        json.loads(run(*words, *more)[1])["cells"][0] for more in (("--sky", BRIGHT), ())
    )
    assert 0 < with_sky["accepted"] < without["accepted"] and with_sky["wrong_names"] == 0
    other = tmp_path / "other.csv"
    other.write_text("id,ra,dec,vt\n1,83.5,-1,2\n2,240,60,3\n")
    status, out, err = run(*words, "--sky", other)
    assert status == 2 and out == "" and "the sky lacks stars of the catalogue" in err


def test_where_the_camera_points(run, folder, settings, catalogue):
    for number in range(12):
        made = simulate(settings, catalogue, number, Weather(around=(83.5, -1), within=5))
        assert angle_between(made.matrix[2], matrix_of(Pointing(83.5, -1, 0))[2]) <= 5 * 3600
    words = ("trial", folder, "--frames", 2, "--lists", 0)
    assert run(*words, "--around", 83.5, -1, "--within", 5)[0] == 0
    together = "--around and --within go together"
    for wrong, told in (
        (("--around", 83.5, -1), together),
        (("--within", 5), together),
        (("--around", 1, 91, "--within", 5), "91 is not -90 to 90"),
    ):
        status, _, err = run(*words, *wrong)
        assert status == 2 and told in err


def test_rivals_are_counted(run, folder):
    words = (
        "trial",
        folder,
        "--frames",
        8,
        "--needed",
        3,
        4,
        "--tolerances",
        2 * 10**14,
        "--lists",
        0,
        "--json",
    )
    with_rivals, without = (
        json.loads(run(*words, "--rivals")[1])["cells"],
        json.loads(run(*words)[1])["cells"],
    )
    for each, other in zip(with_rivals, without):
        assert other["alone"] is None and each["accepted"] == other["accepted"]
        assert each["wrong_alone"] <= each["alone"] <= each["accepted"]
    assert with_rivals[0]["alone"] < with_rivals[0]["accepted"]


def test_trials_that_are_refused(run, folder):
    for words, told in (
        (("--needed", 9), "refused 9 0"),
        (("--tolerances", 10**16 + 1), "refused 9 0"),
        (("--frames", 0), "0 is no whole number from 1"),
    ):
        status, out, err = run("trial", folder, *words)
        assert status in (1, 2) and told in err and out == ""
