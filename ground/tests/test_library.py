"""The library through ctypes: answers, refusals, lent memory, and structs that are the header's."""

import ctypes
import os
import re
import shutil
import subprocess
import sys

import numpy as np
import pytest
from conftest import ROOT, three_stars

from mnemathor import library, refusals, structures
from mnemathor.folder import STAR
from mnemathor.refusals import Refused

HEADER = ROOT / "include" / "mnemathor.h"


def test_the_listing():
    settings, frame, catalogue = three_stars()
    tracked = library.chain(frame, settings, catalogue)
    assert [(star.x, star.y, star.brightness) for star in tracked.report.stars] == [
        (8192, 15360, 4800),
        (32768, 15360, 4800),
        (20480, 27648, 4800),
    ]
    assert (tracked.report.measured, tracked.report.edge, tracked.report.lone) == (3, 0, 0)
    assert tracked.assignment == (0, 1, 2)
    assert (tracked.matrix == 10**9 * np.eye(3)).all()


def test_verdicts_and_reasons():
    settings, frame, _ = three_stars()
    frame[5, 50], frame[20, 50] = 0, 90
    frame[1, 90] = 80
    assert library.verdict(frame, settings, 60, 32).centroid.x == 8192
    assert library.verdict(frame, settings, 60, 33).kind == "beaten"
    kinds = {
        place: library.reason(frame, settings, *place)
        for place in ((60, 32), (60, 33), (5, 50), (20, 50), (1, 90))
    }
    assert kinds[60, 32].centroid.brightness == 4800
    assert (kinds[60, 33].row, kinds[60, 33].column) == (60, 31)
    assert (kinds[5, 50].sample, kinds[5, 50].threshold) == (0, 50)
    assert kinds[20, 50].kind == "lone" and kinds[20, 50].largest == 0
    assert kinds[1, 90].side == "top"


def test_a_refusal_has_number_place_and_sentence():
    settings, frame, catalogue = three_stars()
    frame[2, 3] = 4096
    with pytest.raises(Refused) as refused:
        library.chain(frame, settings, catalogue)
    assert (refused.value.number, refused.value.place) == (4, 2 * 160 + 3)
    assert refused.value.sentence == "a sample is above 4,095"
    assert str(refused.value).startswith("refused 4 323: a sample is above 4,095")


def test_every_number_of_the_header_has_a_sentence():
    numbers = {int(number) for number in re.findall(r"MN_REFUSED_\w+ = (\d+)", HEADER.read_text())}
    assert numbers == set(range(1, 24))
    assert set(refusals.sentences()) == numbers


def test_arrays_are_lent_and_not_copied():
    settings, frame, catalogue = three_stars()
    room = library.new_room()
    room[:] = 7
    tracked = library.chain(frame, settings, catalogue, room)
    ranking = library.ranking_in(room, library.directions(settings, tracked.report), catalogue)
    assert np.shares_memory(room, ranking) and ranking.size == 9
    assert (np.sort(ranking.reshape(3, 3), axis=1) == [0, 1, 2]).all()
    assert (room[9:] == 7).all()
    with pytest.raises(ctypes.ArgumentError):
        library.chain(frame.astype(np.int32), settings, catalogue)
    with pytest.raises(TypeError):
        library.chain(frame, settings, catalogue.astype(STAR.newbyteorder("=")))


def test_step_by_step_as_the_chain():
    settings, frame, catalogue = three_stars()
    report = library.list_stars(frame, settings)
    rows = library.directions(settings, report)
    ranking = library.rank(rows, catalogue, settings, library.new_room())
    found = library.search(rows, catalogue, settings, ranking)
    assert found == (0, 1, 2)
    assert library.rival(rows, catalogue, settings, ranking) is None
    sky = np.stack([catalogue[axis] for axis in "xyz"], axis=1)
    matrix = library.attitude(rows[0], rows[1], sky[0], sky[1])
    cosines = library.cosines(matrix)
    assert (cosines == np.eye(3)).all()
    assert (library.turned(cosines, [0.5, 0.25, -1.0]) == [0.5, 0.25, -1.0]).all()


def test_index_burst_compare_and_guider():
    settings, frame, catalogue = three_stars()
    room = np.zeros(36, np.uint8)
    floor = -(10**18)
    assert library.index(catalogue, floor, room) == 3
    by_index = library.chain_by_index(frame, settings, catalogue, room, floor)
    assert by_index.assignment == (0, 1, 2)
    frames = np.concatenate([frame.ravel(), np.zeros(frame.size, np.uint16)])
    good, dark = library.burst(frames, settings, catalogue)
    assert good.refusal is None and (good.matrix == by_index.matrix).all()
    assert dark.refusal.number == 12 and dark.matrix is None
    changes = np.full(24, 9, np.uint8)
    assert library.compare(catalogue, catalogue[:2], changes) == 1
    assert changes[:8].view(">u4").tolist() == [33, 1] and (changes[8:] == 9).all()
    guider = library.Guider(512, [(11, 8000, 15360), (44, 1000, 1000)])
    guider.frame(frame, settings)
    assert [(guide.x, guide.misses) for guide in guider.guides] == [(8192, 0), (1000, 1)]


def test_the_cut_is_in_place():
    _, _, catalogue = three_stars()
    catalogue["magnitude"] = 1000, 2000, 3000
    lent = catalogue.copy().view(np.uint8)
    assert library.cut(lent, 2500, 10**18) == 2
    assert (lent[: 2 * STAR.itemsize].view(STAR) == catalogue[:2]).all()
    assert (lent[2 * STAR.itemsize :] == 255).all()


def test_structs_are_the_headers(tmp_path):
    """Sizes and places of all fields, as the C compiler has them."""
    lines, expected = [], []
    for struct in structures.ALL:
        name = f"struct mn_{struct.__name__.lower()}"
        lines.append(f'printf("%zu\\n", sizeof({name}));')
        expected.append(ctypes.sizeof(struct))
        for field, _ in struct._fields_:
            lines.append(f'printf("%zu\\n", offsetof({name}, {field}));')
            expected.append(getattr(struct, field).offset)
    source = tmp_path / "sizes.c"
    source.write_text(
        f'#include <stdio.h>\n#include "{HEADER}"\nint main(void) {{ {" ".join(lines)} return 0;'
        " }\n"
    )
    # Only sizes are asked for, so nothing has to be linked: the calls are local to the file and
    # none is used.
    subprocess.run(["cc", "-std=c99", "-O1", "-o", tmp_path / "sizes", source], check=True)
    printed = subprocess.run(
        [tmp_path / "sizes"], capture_output=True, text=True, check=True
    ).stdout
    assert list(map(int, printed.split())) == expected


def test_every_call_of_the_header_is_there():
    named = set(re.findall(r"struct mn_refusal (mn_[a-z_]+)\(", HEADER.read_text())) - {
        "mn_take_refusal"
    }
    assert named == set(structures.CALLS)


def c_arguments(text):
    """The types of a C call's arguments; a pointer has a star behind its type."""
    words = [
        re.sub(r"const|struct", "", argument).split()
        for argument in text.replace("*", "* ").split(",")
    ]
    return ["".join(types) for *types, _ in words]


def python_argument(kind):
    """The same of a ctypes argument. Directions are lent as rows of three 32-bit numbers."""
    numbers = {
        np.uint16: "uint16_t*",
        np.uint8: "uint8_t*",
        np.int64: "int64_t*",
        np.float64: "double*",
        np.int32: "mn_direction*",
    }
    plain = {
        ctypes.c_size_t: "size_t",
        ctypes.c_int64: "int64_t",
        ctypes.c_int32: "int32_t",
        structures.Refusal: "mn_refusal",
    }
    if hasattr(kind, "_dtype_"):
        return numbers[kind._dtype_.type]
    target = getattr(kind, "_type_", None)
    if isinstance(target, type):
        return "int64_t*" if target is ctypes.c_int64 else f"mn_{target.__name__.lower()}*"
    return plain[kind]


def test_every_call_takes_what_the_header_says():
    header = re.sub(r"\s+", " ", HEADER.read_text())
    for name, arguments in structures.CALLS.items():
        (told,) = re.findall(rf"MN_FUNCTION struct mn_refusal {name}\((.*?)\)", header)
        assert [python_argument(kind) for kind in arguments] == c_arguments(told), name


def test_a_library_of_other_sources_is_not_used(tmp_path):
    """A checkout with one crate, whose library's stamp fits, until the crate changes."""
    shutil.copytree(ROOT / "ground" / "mnemathor", tmp_path / "ground" / "mnemathor")
    shutil.copytree(ROOT / "include", tmp_path / "include")
    for name in ("stamps", "library", "crates.txt"):
        shutil.copy(ROOT / name, tmp_path)
    crate, made = tmp_path / "crates" / "one" / "src" / "lib.rt", tmp_path / "target" / "library"
    crate.parent.mkdir(parents=True)
    made.mkdir(parents=True)
    crate.write_text("before")
    shutil.copy(library.path(), made / "libmnemathor.so")
    subprocess.run(
        ["bash", "-c", f"here={tmp_path}; . ./stamps; stamp_sources target/library/made-from"],
        cwd=tmp_path,
        check=True,
    )
    environment = {
        name: value
        for name, value in os.environ.items()
        if name not in ("MNEMATHOR_LIBRARY", "MNEMATHOR_CHECKED")
    }
    words = [
        sys.executable,
        "-c",
        "from mnemathor import library; print(library.focal_of_pixels(64.0))",
    ]

    def asked():
        environment["PYTHONPATH"] = str(tmp_path / "ground")
        return subprocess.run(
            words, cwd=tmp_path, env=environment, capture_output=True, text=True, check=False
        )

    assert asked().stdout == "16384\n"
    crate.write_text("after")
    assert "was made from other sources than these" in asked().stderr
