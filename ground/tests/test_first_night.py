"""The first made night followed, of 120 frames, with the truth beside it: names, guides, and a log
that is whole whenever the run was broken off. What came of it, number by number.
"""

import json

import first_night
import pytest
from conftest import HERE
from test_night import (
    ENDS,
    a_cut_log_goes_on,
    a_stopped_run_goes_on,
    every_frame_has_its_line,
    followed,
    nothing_wrong_is_trusted,
    places_of,
    right_offsets,
    starts_by_the_rules,
    the_trusted_are_true,
)

from mnemathor import nightsummary, stars

FRAMES = 120


@pytest.fixture(scope="module")
def night(tmp_path_factory, settings):
    """With the catalogue of docs/NIGHT.md."""
    where = tmp_path_factory.mktemp("night")
    chosen = stars.convert(HERE / "data" / "bright-stars.csv", where, brightest=512, apart=0.5)
    return followed(where, settings, chosen.records, FRAMES, first_night.make)


@pytest.fixture(scope="module")
def doubles(tmp_path_factory, settings, catalogue):
    """With close pairs left in the catalogue, so that many answers have a rival."""
    where = tmp_path_factory.mktemp("doubles")
    return followed(where, settings, catalogue, FRAMES, first_night.make)


def test_every_frame_has_its_line(night):
    every_frame_has_its_line(night, FRAMES, 12)


def test_with_rivals_nothing_wrong_is_trusted(doubles, settings):
    nothing_wrong_is_trusted(doubles, settings)


def test_no_wrong_name_is_accepted_as_alone(night, settings):
    the_trusted_are_true(night, settings, ("cloud", "mirrored"))


def test_guides_are_lost_and_found_as_the_rules_say(night):
    """Where nobody is live and no guider starts, no answer is alone, confirmed or not."""
    _, truth, lines = night
    starts = starts_by_the_rules(lines, lambda line: line["alone"])
    cloud = [place for place, told in enumerate(truth) if told["kind"] == "cloud"]
    # At the first frame, after the cloud, which is long enough to drop all, and after the slew.
    assert starts == [0, cloud[-1] + 1, 96]
    assert all(g["misses"] == 5 for g in lines[cloud[-1]]["guides"])


def test_guides_are_where_their_stars_are(night):
    """In every frame between a start and the stretch that is mirrored."""
    _, truth, lines = night
    first, seen = {}, 0
    for line, told in zip(lines, truth):
        if told["kind"] == "mirrored":
            break
        if line["guider"] == "started":
            first = places_of(line, told)
        if line["error"] is None:
            seen += right_offsets(line, told, first)
    assert seen > 150


def test_the_summary(night, run):
    where, _, lines = night
    told = json.loads(run("follow", where / "camera", where / "frames", "--resume", "--json")[1])
    assert (told["frames"], told["unreadable"]) == (FRAMES, 12)
    assert told["accepted"] == sum(line["ra"] is not None for line in lines)
    assert told["refused"] == {"12": 11, "13": 8}
    assert (told["starts"], told["dropped"], told["jumped"]) == (3, 2, 0)
    text = "\n".join(nightsummary.summarise(lines).lines())
    assert (
        "11 with 12, 8 with 13" in text
        and "the guider started 3 times" in text
        and "ms a frame" in text
    )
    # An answer that puts a guide's star elsewhere is a jump.
    wrong = json.loads(json.dumps(lines[5]))
    wrong["guides"][0]["off"] = 20.0
    jumped = "\n".join(nightsummary.summarise([*lines, wrong]).lines())
    assert "WARNING: 1 answers put a guide's star elsewhere" in jumped


@pytest.mark.parametrize(
    "logged, more, rows",
    [
        (0, 0, 0),
        (5, 17, 5),
        (29, 0, 29),
        (58, 140, 57),
        (95, 1, 95),
        (97, 0, 96),
        (118, 60, 118),
        (119, 99, 119),
    ],
)
def test_a_run_that_was_killed_goes_on(night, run, tmp_path, logged, more, rows):
    a_cut_log_goes_on(night, run, tmp_path, (logged, more, rows), FRAMES)


@pytest.mark.parametrize("how, status", ENDS)
def test_killed_and_interrupted_for_real(night, run, tmp_path, how, status):
    a_stopped_run_goes_on(night, run, tmp_path, how, status)
