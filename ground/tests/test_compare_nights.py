"""Two nights held against each other: what changed, and which difference of the cameras did it."""

import json
from dataclasses import replace

import numpy as np
import pytest
from conftest import BRIGHT

from mnemathor import commands, nightcompare, nightlog, nights, stars
from mnemathor.folder import settings_bytes
from mnemathor.keeping import write_folder

FRAMES = 20


def camera_in(place, settings, catalogue):
    write_folder(
        place, {"settings.bin": settings_bytes(settings), "catalogue.bin": catalogue.tobytes()}
    )
    return place


@pytest.fixture(scope="module")
def night(tmp_path_factory, settings):
    """A camera's folder, its frames, its catalogue, and its log."""
    where = tmp_path_factory.mktemp("compare")
    chosen = stars.keep_apart(stars.select(stars.read_stars(BRIGHT), brightest=512), 0.5).records
    camera_in(where / "a", settings, chosen)
    nights.make(where / "frames", settings, chosen, FRAMES)
    assert commands.main(["follow", str(where / "a"), str(where / "frames")]) == 0
    return where, chosen, list(nightlog.read(where / "a" / "night.jsonl"))


@pytest.fixture
def compared(night, run, tmp_path, settings):
    """Compares the night's camera with another, on the frames, and hands back the JSON."""
    where, chosen, _ = night

    def comparing(catalogue=chosen, **changed):
        other = camera_in(tmp_path / "b", replace(settings, **changed), catalogue)
        words = ("compare-nights", where / "a", other, "--frames", where / "frames", "--json")
        status, out, _ = run(*words)
        assert status == 0
        return json.loads(out)

    return comparing


def accepted(lines):
    return {line["file"] for line in lines if line["ra"] is not None}


def test_the_same_camera_changes_nothing(night, compared, run):
    where, _, _ = night
    told = compared()
    assert told == {"differences": [], "frames": FRAMES, "alone": {}, "changes": []}
    out = run("compare-nights", where / "a", where / "a" / "night.jsonl")[1]
    assert out == f"the cameras are the same\n{FRAMES} frames in both, 0 changed\n"
    # Frames were followed, and nothing was written.
    assert sorted(path.name for path in where.iterdir()) == ["a", "frames", "truth.jsonl"]


@pytest.mark.parametrize(
    "changed, part, refused",
    [
        ({"needed": 8}, "needed count", {"12", "13"}),
        ({"threshold": 4095}, "threshold", {"12", "13"}),
        ({"tolerance": 0}, "tolerance", {"13"}),
    ],
)
def test_one_difference_is_found_out(night, compared, changed, part, refused):
    """What was accepted is refused now, and the one part that differs is named for each."""
    _, _, lines = night
    told = compared(**changed)
    assert len(told["differences"]) == 1 and told["differences"][0].startswith(f"{part} ")
    lost = [change for change in told["changes"] if "accepted in A alone" in change["kinds"]]
    assert lost and {change["file"] for change in lost} <= accepted(lines)
    for change in lost:
        assert change["why"] == f"by the {part} alone" and change["after"].split()[-1] in refused
        line = next(line for line in lines if line["file"] == change["file"])
        assert change["before"].startswith(line["sexagesimal"])


def test_a_star_that_went(night, compared):
    """Without its brightest star the names are fewer."""
    _, chosen, lines = night
    first = next(line for line in lines if line["ra"] is not None)
    told = compared(chosen[chosen["identity"] != first["names"]["0"]])
    assert told["differences"][1] == "of its stars 1 removed, 0 added, 0 changed"
    change = next(change for change in told["changes"] if change["file"] == first["file"])
    assert change["why"] == "by the catalogue alone" and "more or fewer names" in change["kinds"]


def test_two_parts_together(night, compared):
    """Neither the catalogue nor the needed count alone refuses the frame that both refuse."""
    _, chosen, lines = night
    first = next(line for line in lines if line["ra"] is not None)
    names = list(first["names"].values())
    gone = chosen[~np.isin(chosen["identity"], names[2:4])]
    told = compared(gone, needed=len(names) - 1)
    change = next(change for change in told["changes"] if change["file"] == first["file"])
    assert change["after"] == "refused 13" and change["why"] == "by several together"


def test_two_logs(night, run, tmp_path, settings):
    """The reasons are the log's: how many were measured of how many that are needed."""
    where, chosen, lines = night
    other = camera_in(tmp_path / "b", replace(settings, needed=8), chosen)
    assert run("follow", other, where / "frames")[0] == 0
    told = json.loads(run("compare-nights", where / "a", other, "--json")[1])
    assert told["differences"] == ["needed count 4 -> 8"] and told["frames"] == FRAMES
    after = {line["file"]: line for line in nightlog.read(other / "night.jsonl")}
    for change in told["changes"]:
        line = after[change["file"]]
        if line["refused"] == 12:
            assert f"B has {line['measured']} measured of 8 needed" in change["why"]
        elif line["refused"] == 13:
            assert "in B no 8 stars fit" in change["why"]
    lost = {
        change["file"] for change in told["changes"] if "accepted in A alone" in change["kinds"]
    }
    assert lost == accepted(lines) - accepted(after.values()) and lost
    text = run("compare-nights", where / "a", other)[1]
    assert text.splitlines()[-1].startswith(
        f"{FRAMES} frames in both, {len(told['changes'])} changed: "
    )


def test_frames_of_one_log_alone_and_half_a_line(night, run, tmp_path):
    where, _, lines = night
    text = (where / "a" / "night.jsonl").read_text().splitlines(keepends=True)
    (tmp_path / "b.jsonl").write_text("".join(text[:-3]) + text[-3][:50])
    out = run("compare-nights", where / "a", tmp_path / "b")[1]
    assert f"3 frames are in A alone\n{FRAMES - 3} frames in both, 0 changed" in out
    assert "3 frames are in B alone" in run("compare-nights", tmp_path / "b.jsonl", where / "a")[1]


def test_every_kind_of_change(night):
    """Each by a change of one line."""
    _, _, lines = night
    line = next(line for line in lines if line["ra"] is not None and len(line["names"]) > 4)
    names = dict(line["names"])
    fewer, others = dict(list(names.items())[:-1]), {**names, "0": 999999}
    cases = [
        ({"error": "gone", "ra": None}, ["read in one alone"]),
        ({"ra": None, "refused": 13}, ["accepted in A alone"]),
        ({"names": fewer}, ["more or fewer names"]),
        ({"names": others}, ["names"]),
        ({"dec": line["dec"] + 1 / 3600}, ["pointing"]),
        ({"alone": not line["alone"]}, ["rival"]),
        ({"confirmed": False}, ["confirmed"]),
        ({"guides": []}, ["guides"]),
        ({}, []),
    ]
    for changed, kinds in cases:
        assert list(nightcompare._kinds(line, {**line, **changed})) == kinds
    refused = {**line, "ra": None, "refused": 12}
    assert list(nightcompare._kinds(refused, {**refused, "refused": 13})) == ["refused otherwise"]
    assert list(nightcompare._kinds(refused, line)) == ["accepted in B alone"]


def test_wrong_words(night, run, tmp_path):
    where, _, _ = night
    (tmp_path / "notes.jsonl").write_text("no log\n")
    (tmp_path / "old.jsonl").write_text('{"mnemathor": "night", "settings": {}}\n')
    (tmp_path / "list.jsonl").write_text("[1]\n")
    for name in ("nothing", "notes", "list", "old"):
        status, _, err = run("compare-nights", where / "a", tmp_path / name)
        assert status == 2 and name in err
    assert "other columns" in err
    assert run("compare-nights", where / "a", tmp_path, "--frames", where / "frames")[0] == 2
    assert run("compare-nights", where / "a", where / "a", "--frames", tmp_path)[0] == 2
