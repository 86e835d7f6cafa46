"""A made night followed, with the truth beside it: names, guides, and a log that is whole whenever
the run was broken off.
"""

import csv
import json
import os
import re
import shutil
import signal
import subprocess
import sys
import threading
import time
from dataclasses import replace

import numpy as np
import pytest
from conftest import HERE, ROOT

from mnemathor import (
    arriving,
    commands,
    following,
    library,
    nightlog,
    nights,
    nightsummary,
    rotation,
    stars,
)
from mnemathor.attitude import Pointing, angle_between, matrix_of
from mnemathor.folder import PIXEL, settings_bytes
from mnemathor.frames import make_frame
from mnemathor.keeping import write_folder
from mnemathor.simulation import Weather, simulate
from mnemathor.solving import solve

FRAMES = 600
# How the night's files are damaged, by kind.
DAMAGED = set(nights.DAMAGES.values())
# One pixel in the middle of the camera's frame, in arc seconds.
ARCSEC = 515.7


def followed(where, settings, catalogue, frames, make=nights.make):
    """A camera's folder, the frames, the truth, and the log of a run that nothing disturbed."""
    write_folder(
        where / "camera",
        {"settings.bin": settings_bytes(settings), "catalogue.bin": catalogue.tobytes()},
    )
    truth = make(where / "frames", settings, catalogue, frames)
    assert (
        commands.main(
            [
                "follow",
                str(where / "camera"),
                str(where / "frames"),
                "--plot",
                str(where / "night.png"),
            ]
        )
        == 0
    )
    return (
        where,
        [json.loads(line) for line in truth.read_text().splitlines()],
        list(nightlog.read(where / "camera" / "night.jsonl")),
    )


@pytest.fixture(scope="module")
def night(tmp_path_factory, settings):
    """With the catalogue of docs/NIGHT.md, and a twin of the bright field that the gimbal looks at
    for a while.
    """
    where = tmp_path_factory.mktemp("night")
    chosen = stars.convert(HERE / "data" / "bright-stars.csv", where, brightest=512, apart=0.5)
    return followed(where, settings, nights.twinned(chosen.records, settings), FRAMES)


@pytest.fixture(scope="module")
def doubles(tmp_path_factory, settings, catalogue):
    """With close pairs left in the catalogue, so that many answers have a rival."""
    return followed(tmp_path_factory.mktemp("doubles"), settings, catalogue, 120)


def same(line):
    """A line without what no two runs have in common: the time that it took, and in which folder a
    damaged file is.
    """
    told = {name: value for name, value in line.items() if name != "milliseconds"}
    return {**told, "error": told["error"] and re.sub(r"\S*/", "", told["error"])}


def every_frame_has_its_line(night, frames, unreadable):
    where, truth, lines = night
    assert [line["file"] for line in lines] == [told["file"] for told in truth] and [
        line["number"] for line in lines
    ] == list(range(frames))
    damaged = {told["file"] for told in truth if told["kind"] in DAMAGED}
    assert {line["file"] for line in lines if line["error"] is not None} == damaged
    assert len(damaged) == unreadable
    for line in lines:
        assert (line["error"] is not None) + (line["refused"] is not None) + (
            line["ra"] is not None
        ) == 1
    assert lines[1]["time"] == "2026-09-21T14:13:21.000"
    with open(where / "camera" / "night.csv", newline="") as file:
        rows = list(csv.DictReader(file))
    assert [row["file"] for row in rows] == [line["file"] for line in lines]
    assert [row["sexagesimal"] for row in rows] == [line["sexagesimal"] or "" for line in lines]
    assert [row["guide1_misses"] for row in rows] == [
        str(line["guides"][0]["misses"]) if line["guides"] else "" for line in lines
    ]
    assert (where / "night.png").read_bytes().startswith(b"\x89PNG")


def test_every_frame_has_its_line(night):
    every_frame_has_its_line(night, FRAMES, 60)


def wrong_names(where, line, told, settings):
    """The names of a line whose star is not within three pixels of the position that got it."""
    listed = library.list_stars(make_frame(where / "frames" / line["file"]).samples, settings).stars
    places = {
        number: (listed[int(number)].x / PIXEL, listed[int(number)].y / PIXEL)
        for number in line["names"]
    }
    return [
        name
        for number, name in line["names"].items()
        if np.hypot(*np.subtract(told["stars"].get(str(name), (-99, -99)), places[number])) > 3
    ]


def nothing_wrong_is_trusted(doubles, settings):
    """The mirrored stretch is accepted here, by four stars of Orion that lie nearly in a line:
    never alone, and never confirmed.
    """
    where, truth, lines = doubles
    mirrored = [line for line, told in zip(lines, truth) if told["kind"] == "mirrored"]
    assert any(line["ra"] is not None for line in mirrored) and not any(
        line["alone"] or line["confirmed"] for line in mirrored
    )
    for line, told in zip(lines, truth):
        if line["alone"]:
            assert wrong_names(where, line, told, settings) == []
    assert all(line["guides"] == [] for line in lines[:90]) and lines[90]["guider"] == "started"


def test_with_rivals_nothing_wrong_is_trusted(doubles, settings):
    nothing_wrong_is_trusted(doubles, settings)


def the_trusted_are_true(night, settings, never):
    """No wrong name is accepted as alone, and the pointing is the true one, in nearly all frames
    that are clear; in frames of some kinds never.
    """
    where, truth, lines = night
    trusted = [(line, told) for line, told in zip(lines, truth) if line["alone"]]
    for line, told in trusted:
        assert wrong_names(where, line, told, settings) == [] and told["kind"] in (
            "clear",
            "satellite",
        ), line
        true = matrix_of(Pointing(told["ra"], told["dec"], told["roll"]))[2]
        assert (
            angle_between(matrix_of(Pointing(line["ra"], line["dec"], line["roll"]))[2], true)
            < 2 * ARCSEC
        )
        assert line["confirmed"] is not False
    clear = [line for line, told in zip(lines, truth) if told["kind"] == "clear"]
    assert sum(bool(line["alone"]) for line in clear) > 0.9 * len(clear)
    assert not any(line["alone"] for line, told in zip(lines, truth) if told["kind"] in never)


def test_no_wrong_name_is_accepted_as_alone(night, settings):
    the_trusted_are_true(night, settings, ("cloud", "mirrored", "other"))


def test_a_field_with_a_twin_is_never_alone(night):
    """The bright field and its twin fit as well as each other: an answer, and a rival; no guider
    starts there.
    """
    _, truth, lines = night
    there = [line for line, told in zip(lines, truth) if told["kind"] == "other"]
    assert len(there) > 20 and all(
        line["ra"] is not None and line["alone"] is False and line["guider"] != "started"
        for line in there
    )


def test_the_night_is_what_the_truth_says(night, settings):
    """Every kind of trouble is in it, and the hot pixels stay where they are and become more."""
    where, truth, lines = night
    assert {told["kind"] for told in truth} == {
        "clear",
        "cloud",
        "satellite",
        "mirrored",
        "other",
        *DAMAGED,
    }
    assert truth[0]["hot"] == [] and len(truth[-1]["hot"]) == 5
    for before, after in zip(truth, truth[1:]):
        assert after["hot"][: len(before["hot"])] == before["hot"]
    clear = [line for line, told in zip(lines, truth) if told["kind"] == "clear"]
    assert clear[-1]["lone"] > clear[0]["lone"]


def test_the_check_stands_in_the_log(night):
    """Its pointing is as far from the answer's as it says, and where it warns the line has the
    reason.
    """
    _, _, lines = night
    answers = [line for line in lines if line["ra"] is not None]
    for line in answers[::10]:
        answer, best = (
            matrix_of(Pointing(*(line[f"{of}{name}"] for name in ("ra", "dec", "roll"))))[2]
            for of in ("", "best_")
        )
        assert (
            float(angle_between(answer, best)) == pytest.approx(line["check_axis"], abs=0.2)
            and line["residual"] > 0
        )
    assert all(
        line["warning"] is None and line["best_ra"] is None for line in lines if line["ra"] is None
    )


def test_a_warning_of_the_check_is_logged_and_summed_up(night, settings, catalogue, tmp_path):
    """A frame whose answer rests on two stars five pixels apart, alone in their part of it."""
    made = simulate(settings, catalogue, 4, Weather(), Pointing(83.5, -1, 350))
    solution = solve(settings, made.samples, catalogue)
    first = solution.named[0]
    near = replace(solution.named[1], column=first.column + 5, row=first.row)
    close = replace(solution, stars=(first, near, *solution.named[2:]))
    told = following._checked(rotation.best(settings, catalogue, close))
    assert "two stars only" in told["warning"]
    _, _, lines = night
    warned = {**lines[3], "warning": told["warning"]}
    summary = nightsummary.summarise([lines[2], warned])
    assert (
        summary.warned == 1
        and f"the check warns of 1 answers, for the reasons that the log has: {lines[3]['file']}"
        in "\n".join(summary.lines())
    )


def may_start(line):
    """Whether a guider may start from an answer."""
    return line["alone"] and line["confirmed"] is not False


def starts_by_the_rules(lines, may_start=may_start):
    """The frames at which a guider started; from frame to frame the guides go by the rules."""
    before = []
    for line in lines:
        live = [guide for guide in before if guide["misses"] < 5]
        if line["error"] is not None:
            assert line["guider"] is None and [same_place(g) for g in line["guides"]] == [
                same_place(g) for g in before
            ]
        elif line["guider"] == "started":
            assert not live and line["alone"] and line["confirmed"] is not False
            assert 1 <= len(line["guides"]) <= 4 and all(
                g["misses"] == 0 and (g["dx"], g["dy"]) == (0, 0) for g in line["guides"]
            )
            assert {g["identity"] for g in line["guides"]} <= set(line["names"].values())
        elif line["guider"] == "follows":
            assert live
            for old, new in zip(before, line["guides"]):
                follows_the_rule(old, new)
        else:
            # Nobody is live, and the answer is none to start from.
            assert (
                not live
                and not may_start(line)
                and [same_place(g) for g in line["guides"]] == [same_place(g) for g in before]
            )
        before = line["guides"]
    return [line["number"] for line in lines if line["guider"] == "started"]


def test_guides_are_lost_and_found_as_the_rules_say(night):
    _, truth, lines = night
    starts = starts_by_the_rules(lines)
    ends = [
        max(place for place, told in enumerate(truth) if told["kind"] == kind)
        for kind in ("cloud", "mirrored", "other")
    ]
    # At the first frame; after cloud, mirrored readout and the field with the twin, each long
    # enough to drop all; and six frames after the slew, one of them damaged.
    assert starts == [0, ends[0] + 1, ends[1] + 1, 456, ends[2] + 1] and all(
        g["misses"] == 5 for end in ends for g in lines[end]["guides"]
    )


def same_place(guide):
    return guide["identity"], guide["x"], guide["y"], guide["misses"]


def follows_the_rule(old, new):
    """A guide moves within its box and has no miss, or stays and has one more; a dropped one stays
    as it is.
    """
    moved = max(abs(old["x"] - new["x"]), abs(old["y"] - new["y"]))
    assert old["identity"] == new["identity"] and moved <= 5 * PIXEL
    if old["misses"] == 5:
        assert same_place(new) == same_place(old)
    elif new["misses"]:
        assert new["misses"] == old["misses"] + 1 and moved == 0


def right_offsets(line, told, first):
    """How many guides follow; the log says of their offsets what the truth says."""
    following = [guide for guide in line["guides"] if guide["misses"] == 0]
    for guide in following:
        place, start = told["stars"][str(guide["identity"])], first[guide["identity"]]
        assert (
            abs(guide["dx"] - (place[0] - start[0])) < 0.6
            and abs(guide["dy"] - (place[1] - start[1])) < 0.6
        )
        assert guide["off"] is None or guide["off"] < 1.5
    return len(following)


def places_of(line, told):
    """Where the truth has the stars of a line's guides."""
    return {guide["identity"]: told["stars"][str(guide["identity"])] for guide in line["guides"]}


def test_guides_are_where_their_stars_are(night):
    """From a start to the next trouble."""
    _, truth, lines = night
    first, seen, before = {}, 0, truth[0]
    for line, told in zip(lines, truth):
        if told["kind"] not in {"clear", *DAMAGED} or abs(told["ra"] - before["ra"]) > 1:
            first = {}
        if line["guider"] == "started":
            first = places_of(line, told)
        if first and line["error"] is None:
            seen += right_offsets(line, told, first)
        before = told
    assert seen > 500


def test_a_jump_is_a_guide_that_follows_something_else(night):
    """The summary's jumps are the accepted frames in which a guide is far from where the truth has
    its star.
    """
    _, truth, lines = night

    def strays(line, told):
        live = [
            guide
            for guide in line["guides"]
            if guide["misses"] == 0 and str(guide["identity"]) in told["stars"]
        ]
        return any(
            np.hypot(
                *(
                    np.array([guide["x"], guide["y"]]) / PIXEL
                    - told["stars"][str(guide["identity"])]
                )
            )
            > nightsummary.JUMP
            for guide in live
        )

    strayed = [
        line["file"] for line, told in zip(lines, truth) if line["alone"] and strays(line, told)
    ]
    assert nightsummary.summarise(lines).jumps == strayed and strayed


def test_the_summary(night, run):
    where, truth, lines = night
    told = json.loads(run("follow", where / "camera", where / "frames", "--resume", "--json")[1])
    assert (
        told["frames"] == FRAMES
        and told["unreadable"] == 60
        and told["accepted"] == sum(line["ra"] is not None for line in lines)
    )
    assert (
        told["refused"] == {"12": 54, "13": 38}
        and told["starts"] == 5
        and told["dropped"] == 4
        and told["jumped"] == 2
    )
    assert (told["accepted"], told["alone"]) == (448, 421) and sum(
        told[word] for word in ("confirmed", "not_confirmed", "cannot_tell")
    ) == 448
    text = "\n".join(nightsummary.summarise(lines).lines())
    assert (
        "54 with 12, 38 with 13" in text
        and "the guider started 5 times" in text
        and "ms a frame" in text
        and "27 have a rival" in text
    )
    assert "WARNING: 2 answers put a guide's star elsewhere" in text
    # The slew is the longest step between answers that can be trusted; the drift is the truth's.
    assert "the longest step between two answers is 13.9" in text and "to frame-0450.fits" in text
    away = angle_between(
        *(
            matrix_of(Pointing(*(told[name] for name in ("ra", "dec", "roll"))))[2]
            for told in (truth[0], truth[-1])
        )
    )
    assert float(re.search(r"the axis went ([0-9.]+) degrees away", text)[1]) == pytest.approx(
        float(away) / 3600, abs=0.1
    )


def test_the_plots_go_by_time(night):
    """A damaged file has no time of its own; where the clock goes back the frames are counted."""
    where, _, _ = night
    axes = nightsummary.picture(where / "camera" / "night.jsonl").axes
    assert axes[-1].get_xlabel() == "minutes after 2026-09-21 14:13:20" and axes[0].lines[
        0
    ].get_xdata()[-1] == pytest.approx(599 / 60)
    assert (
        nightsummary._over_time(np.array([5.0, 4.0, 6.0]))[1] == "frame"
        and nightsummary._over_time(np.array([np.nan, 4.0]))[1] == "frame"
    )


def links(where, place, count):
    """A folder with the first frames of the night."""
    place.mkdir()
    for path in sorted((where / "frames").iterdir())[:count]:
        (place / path.name).symlink_to(path)
    return place


def a_cut_log_goes_on(night, run, tmp_path, cut, frames):
    """So many lines are whole, so many bytes of the next are there, and so many rows of the CSV:
    over so many frames the log becomes what it would have been.
    """
    (where, _, lines), (logged, more, rows) = night, cut
    for ending, whole in ((".jsonl", logged), (".csv", rows)):
        contents = (where / "camera" / f"night{ending}").read_bytes().splitlines(keepends=True)
        left = b"".join(contents[: whole + 1]) + contents[whole + 1][:more]
        (tmp_path / f"log{ending}").write_bytes(left)
    wanted = lines[:frames]
    status, _, _ = run(
        "follow",
        where / "camera",
        links(where, tmp_path / "frames", len(wanted)),
        "--log",
        tmp_path / "log",
        "--resume",
    )
    assert status == 0
    assert [same(line) for line in nightlog.read(tmp_path / "log.jsonl")] == [
        same(line) for line in wanted
    ]
    with open(tmp_path / "log.csv", newline="") as file:
        assert [row["number"] for row in csv.DictReader(file)] == [
            str(line["number"]) for line in wanted
        ]


@pytest.mark.parametrize(
    "logged, more, rows",
    [
        (0, 0, 0),
        (5, 17, 5),
        (149, 0, 149),
        (178, 140, 177),
        (455, 1, 455),
        (509, 0, 508),
        (541, 60, 541),
        (599, 99, 599),
    ],
)
def test_a_log_that_was_cut_goes_on(night, run, tmp_path, logged, more, rows):
    a_cut_log_goes_on(night, run, tmp_path, (logged, more, rows), logged + 20)


def test_killed_at_twenty_places_the_log_is_whole(night, run, tmp_path):
    """A night in twenty-one runs, of which twenty were killed: nothing is lost, nothing is there
    twice, and every guide is where it would have been.
    """
    where, _, lines = night
    words = [
        "follow",
        str(where / "camera"),
        str(where / "frames"),
        "--log",
        str(tmp_path / "log"),
        "--resume",
    ]
    places = sorted(np.random.default_rng(7).choice(np.arange(1, FRAMES - 30), 20, replace=False))
    for place in places:
        child = os.fork()
        if child == 0:
            commands.main(words)
            os._exit(0)
        lines_of(tmp_path / "log.jsonl", place)
        os.kill(child, signal.SIGKILL)
        assert os.waitpid(child, 0)[1] == signal.SIGKILL
    assert run(*words)[0] == 0
    assert [same(line) for line in nightlog.read(tmp_path / "log.jsonl")] == [
        same(line) for line in lines
    ]
    with open(tmp_path / "log.csv", newline="") as file:
        assert [row["file"] for row in csv.DictReader(file)] == [line["file"] for line in lines]


def test_each_line_is_on_the_disk_before_the_next_frame(
    night, tmp_path, monkeypatch, settings, catalogue
):
    """When a frame is handed over, all lines before it are in both files and were brought to the
    disk.
    """
    where, _, _ = night
    synced, seen = [], []
    monkeypatch.setattr(
        nightlog.os,
        "fsync",
        lambda handle: synced.append(os.path.getsize(f"/proc/self/fd/{handle}")),
    )
    log = nightlog.Log(tmp_path / "log", nightlog.head(settings, catalogue, 5.0, {}))
    samples = make_frame(where / "frames" / "frame-0000.fits").samples

    def taken():
        for number in range(4):
            sizes = [os.path.getsize(tmp_path / f"log{ending}") for ending in (".jsonl", ".csv")]
            seen.append(
                (
                    len(list(nightlog.read(tmp_path / "log.jsonl"))),
                    number == 0 or synced[-2:] == sizes,
                )
            )
            yield f"{number}.fits", "", samples, None

    assert (
        len(list(following.follow(following.Follower(settings, catalogue, 5.0), log, taken()))) == 4
    )
    log.close()
    assert seen == [(0, True), (1, True), (2, True), (3, True)]


def test_a_full_disk_is_told_and_the_log_goes_on(night, run, tmp_path, monkeypatch):
    """The fifth line does not fit: status 3, and --resume makes the log whole."""
    where, _, lines = night
    words = (
        "follow",
        where / "camera",
        *sorted((where / "frames").iterdir())[:8],
        "--log",
        tmp_path / "log",
    )
    real, calls = os.fsync, []

    def fsync(handle):
        calls.append(handle)
        if len(calls) == 13:
            raise OSError(28, "No space left on device")
        real(handle)

    monkeypatch.setattr(nightlog.os, "fsync", fsync)
    status, _, err = run(*words)
    assert status == 3 and "No space left" in err and "--resume" in err
    monkeypatch.undo()
    assert run(*words, "--resume")[0] == 0
    logged = list(nightlog.read(tmp_path / "log.jsonl"))
    assert [(line["number"], line["guides"]) for line in logged] == [
        (line["number"], line["guides"]) for line in lines[:8]
    ]


def test_a_fault_in_one_frame_does_not_end_the_night(
    night, tmp_path, monkeypatch, settings, catalogue
):
    where, _, _ = night
    log = nightlog.Log(tmp_path / "log", {})
    follower = following.Follower(settings, catalogue, 5.0)
    monkeypatch.setattr(following, "solve", lambda *_: 1 // 0)
    frames = [(name, "", np.zeros((160, 200), np.uint16), None) for name in "ab"]
    assert [line["error"] for line in following.follow(follower, log, frames)] == [
        "a fault of the tool: ZeroDivisionError: integer division or modulo by zero"
    ] * 2
    log.close()


def started(*words):
    """A run as a person's shell starts one: it hears an interrupt, which a shell that starts the
    tests behind itself has its processes ignore.
    """
    environment = {**os.environ, "PYTHONPATH": str(HERE)}
    return subprocess.Popen(
        [sys.executable, "-m", "mnemathor", *map(str, words)],
        env=environment,
        stdout=subprocess.PIPE,
        stderr=subprocess.PIPE,
        text=True,
        preexec_fn=lambda: signal.signal(signal.SIGINT, signal.SIG_DFL),
    )


def lines_of(path, count, seconds=60):
    """Waits until a log has so many lines."""
    until = time.monotonic() + seconds
    while time.monotonic() < until:
        if path.exists() and path.read_bytes().count(b"\n") > count:
            return
        time.sleep(0.02)
    raise AssertionError(f"{path} has no {count} lines")


ENDS = [(signal.SIGKILL, -signal.SIGKILL), (signal.SIGINT, 130)]


def a_stopped_run_goes_on(night, run, tmp_path, how, status):
    """A run of 120 frames is stopped at its seventh line, and gone on with."""
    where, _, lines = night
    frames = links(where, tmp_path / "frames", 120)
    process = started("follow", where / "camera", frames, "--log", tmp_path / "log")
    lines_of(tmp_path / "log.jsonl", 7)
    process.send_signal(how)
    out, err = process.communicate(timeout=60)
    assert process.returncode == status
    if how == signal.SIGINT:
        assert (
            "frames: " in out and "--resume goes on" in err and err.endswith("mnemathor: stopped\n")
        )
    assert run("follow", where / "camera", frames, "--log", tmp_path / "log", "--resume")[0] == 0
    assert [same(line) for line in nightlog.read(tmp_path / "log.jsonl")] == [
        same(line) for line in lines[:120]
    ]


@pytest.mark.parametrize("how, status", ENDS)
def test_killed_and_interrupted_for_real(night, run, tmp_path, how, status):
    a_stopped_run_goes_on(night, run, tmp_path, how, status)


def test_frames_that_arrive(night, run, tmp_path):
    """Frames come one after the other, one of them in two halves; each is logged once, whole."""
    where, truth, lines = night
    place = tmp_path / "arriving"
    place.mkdir()
    files = sorted((where / "frames").iterdir())[:6]

    def arrive():
        for number, path in enumerate(files):
            contents = path.read_bytes()
            if number == 3:
                (place / path.name).write_bytes(contents[:30000])
                time.sleep(0.4)
            (place / path.name).write_bytes(contents)
            time.sleep(0.1)
        (place / ".frame-9999.fits").write_bytes(b"hidden")
        (place / "notes.txt").write_text("no frame")

    writer = threading.Thread(target=arrive)
    writer.start()
    status, out, _ = run(
        "follow",
        where / "camera",
        place,
        "--watch",
        "--poll",
        0.05,
        "--idle",
        1.5,
        "--log",
        tmp_path / "log",
    )
    writer.join()
    logged = list(nightlog.read(tmp_path / "log.jsonl"))
    assert status == 0 and [same(line) for line in logged] == [same(line) for line in lines[:6]]
    assert (
        len([line for line in out.splitlines() if re.match(r"2026-.*: \d", line)]) == 6
        and "6 frames: 6 accepted" in out
    )


def test_a_file_that_still_changes_is_waited_for(night, tmp_path, monkeypatch):
    """First a file of the right size with nothing in it, which could be read, then the frame; and a
    damaged file that nobody writes to any more.
    """
    where, _, _ = night
    real = (where / "frames" / "frame-0000.fits").read_bytes()
    path = tmp_path / "a.fits"
    now = time.time()

    def put(contents, age):
        path.write_bytes(contents)
        os.utime(path, (now - age, now - age))

    steps = iter(
        [lambda: put(real[:2880] + bytes(len(real) - 2880), 3), lambda: put(real, 2), lambda: None]
    )
    monkeypatch.setattr(arriving.time, "sleep", lambda _: next(steps)())
    name, _, samples, error = next(arriving.watched(tmp_path, {}, set(), 1.0))
    assert (
        (name, error) == ("a.fits", None)
        and (samples == make_frame(where / "frames" / "frame-0000.fits").samples).all()
        and next(steps, None) is None
    )
    for age, looks in ((100, 1), (1, 6)):
        put(real[:30000], age)
        steps = iter([lambda: None] * looks)
        watching = arriving.watched(tmp_path, {}, set(), 1.0)
        if age > arriving.PATIENCE:
            assert "cannot be read" in next(watching)[3]
        else:
            # Still young: it is looked at again and again.
            with pytest.raises(RuntimeError):
                next(watching)


def test_a_log_is_neither_overwritten_nor_mixed(night, run, tmp_path, settings, catalogue):
    where, _, _ = night
    before = (where / "camera" / "night.jsonl").read_bytes()
    status, _, err = run("follow", where / "camera", where / "frames")
    assert status == 2 and "--resume goes on with it" in err
    status, _, err = run("follow", where / "camera", where / "frames", "--resume", "--box", 4)
    assert (
        status == 2
        and "of another camera" in err
        and (where / "camera" / "night.jsonl").read_bytes() == before
    )
    for ending in (".jsonl", ".csv"):
        shutil.copy(where / "camera" / f"night{ending}", tmp_path / f"log{ending}")
    rows = (tmp_path / "log.csv").read_text().replace("frame-0003", "mine")
    (tmp_path / "log.csv").write_text(rows)
    status, _, err = run(
        "follow", where / "camera", where / "frames", "--resume", "--log", tmp_path / "log"
    )
    assert status == 2 and "was changed since" in err and (tmp_path / "log.csv").read_text() == rows


def test_wrong_words(night, run, tmp_path):
    where, _, _ = night
    (tmp_path / "none").mkdir()
    assert "has no image files" in run("follow", where / "camera", tmp_path / "none")[2]
    assert (
        run(
            "follow",
            where / "camera",
            where / "frames" / "frame-0000.fits",
            "--watch",
            "--log",
            tmp_path / "log",
        )[0]
        == 2
    )
    assert (
        run("follow", where / "camera", where / "frames", "--log", tmp_path / "nowhere" / "log")[0]
        == 2
    )
    assert (
        run("follow", where / "camera", where / "frames", "--box", 11, "--log", tmp_path / "log")[0]
        == 2
    )
    # A file that is not there is a line as well.
    status, out, _ = run(
        "follow", where / "camera", tmp_path / "gone.fits", "--log", tmp_path / "log"
    )
    assert status == 0 and "1 frames: 0 accepted, 0 refused, 1 unreadable" in out


def test_frames_by_date(night, run, tmp_path):
    where, _, _ = night
    for number, name in ((2, "a.fits"), (0, "b.fits"), (1, "c.fits")):
        shutil.copy(where / "frames" / f"frame-{number:04}.fits", tmp_path / name)
    assert (
        run("follow", where / "camera", tmp_path, "--order", "date", "--log", tmp_path / "log")[0]
        == 0
    )
    assert [line["file"] for line in nightlog.read(tmp_path / "log.jsonl")] == [
        "b.fits",
        "c.fits",
        "a.fits",
    ]


def test_guides_stand_apart(settings, catalogue):
    made = simulate(settings, catalogue, 4, Weather(), Pointing(83.5, -1, 350))
    solution = solve(settings, made.samples, catalogue)
    for box in (0, 2, 5, 10):
        chosen = following.choose(solution, box * PIXEL)
        assert len(chosen) <= 4 and [star[0] for star in chosen] == [
            s.identity for s in solution.named if s.identity in {c[0] for c in chosen}
        ]
        for identity, x, y in chosen:
            others = [s for s in solution.stars if s.identity != identity]
            assert all(
                max(abs(s.column - x / PIXEL), abs(s.row - y / PIXEL)) > 2 * box for s in others
            )


def test_a_guider_goes_on_as_it_stood(settings):
    """Four misses, handed in: the fifth drops the guide, and a sixth frame changes nothing."""
    empty = np.zeros((160, 200), np.uint16)
    guider = library.Guider.of(5 * PIXEL, [(7, 1000, 2000, 4), (8, 9000, 9000, 5)])
    for _ in range(2):
        guider.frame(empty, settings)
        assert [guide.misses for guide in guider.guides] == [5, 5]


def test_the_walk_of_night_md(tmp_path):
    """Every command of docs/NIGHT.md, in its order, and what it prints; times and the archive's
    size are the machine's own.
    """
    guide = (ROOT / "docs" / "NIGHT.md").read_text()
    lines = re.findall(r"^    ((?:\./mnemathor|ground/data/make-night) .*)$", guide, re.MULTILINE)
    camera = ["frame", "catalogue", "settings"]
    assert [
        line.split()[0].split("/")[-1] if "make-night" in line else line.split()[1]
        for line in lines
    ] == [
        *camera,
        *("frame", "settings", "catalogue", "trial"),
        "solve",
        "make-night",
        "preflight",
        "make-night",
        "follow",
        *camera,
        "compare-nights",
        "lens",
        "page",
        "follow",
    ]
    # Columns are as wide as the folders' names, which are longer here.
    shown = {" ".join(line.split()) for line in guide.splitlines() if line.startswith("    ")}
    environment = {**os.environ, "MNEMATHOR_PYTHON": sys.executable}
    for line in lines:
        words = [
            re.sub(r"^(camera|night|dusk|other)\b", lambda name: str(tmp_path / name[0]), word)
            for word in line.split()
        ]
        done = subprocess.run(
            words, cwd=ROOT, env=environment, capture_output=True, text=True, check=False
        )
        # The frames before the flight have troubles, and preflight says so.
        assert done.returncode == (1 if "preflight" in line else 0), (
            line,
            done.stdout,
            done.stderr,
        )
        told = done.stdout.replace(f"{tmp_path}/", "").splitlines()
        subcommand = line.split()[1]
        if subcommand in ("solve", "follow", "preflight"):
            for each in told:
                assert (
                    re.search(r" ms a frame| ms of this|libmnemathor|enough in trials", each)
                    or f"    {each.rstrip()}\n" in guide
                ), each
        elif subcommand in ("trial", "lens") or "camera-flight --even" in line:
            assert [each for each in told if " ".join(each.split()) not in shown] == []
        elif subcommand == "compare-nights":
            assert all(f"    {each}\n" in guide for each in (*told[:3], told[-1])), told
