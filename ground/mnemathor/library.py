"""The proved library, called through its C interface: arrays are lent, answers are dataclasses, a
refusal is an exception.

Nothing here decides anything. Names, order and units are those of include/mnemathor.h and
docs/RULES.md.
"""

from __future__ import annotations

import ctypes
import os
import subprocess
from collections.abc import Callable, Iterable, Sequence
from ctypes import Structure, byref, c_int64
from dataclasses import dataclass, replace
from functools import cache
from pathlib import Path
from typing import Any

import numpy as np
from numpy.typing import ArrayLike, NDArray

from . import structures as c
from .arrays import Bytes, Floats, Matrix, Records, Rows, Samples, Words
from .folder import PIXEL, STAR, UNIT, Settings
from .refusals import CHECKOUT, Mistake, Refused, beside

MADE = "target/library/libmnemathor.so"
KINDS = ("dark", "beaten", "edge", "lone", "measured")
SIDES = ("left", "right", "top", "bottom")
# What may be lent as records or bytes; and a record number or None for each direction.
Lent = bytes | bytearray | memoryview | NDArray[Any]
Assignment = tuple[int | None, ...]


@dataclass(frozen=True)
class Centroid:
    """A star's position in 1/256 pixel, and its brightness."""

    x: int
    y: int
    brightness: int


@dataclass(frozen=True)
class Verdict:
    """The verdict on a pixel; a measured one has a centroid."""

    row: int
    column: int
    kind: str
    centroid: Centroid | None


@dataclass(frozen=True)
class Reason:
    """Why a pixel is or is not a star; what its kind does not name is None."""

    kind: str
    sample: int | None = None
    threshold: int | None = None
    row: int | None = None
    column: int | None = None
    side: str | None = None
    largest: int | None = None
    centroid: Centroid | None = None


@dataclass(frozen=True)
class Report:
    """A frame's list, by falling brightness, and how many pixels of the whole frame are measured,
    edge and lone.
    """

    stars: tuple[Centroid, ...]
    measured: int
    edge: int
    lone: int


@dataclass(frozen=True)
class Tracked:
    """What the whole chain gives: for each listed star the record number of its catalogue star or
    None, and the matrix.
    """

    report: Report
    assignment: Assignment
    matrix: Matrix


@dataclass(frozen=True)
class Framed:
    """What a burst has for one frame: the refusal, or None and the matrix."""

    refusal: Refused | None
    matrix: Matrix | None


@dataclass(frozen=True)
class Guide:
    """A guide: identity, last position in 1/256 pixel, and frames in a row without its star."""

    identity: int
    x: int
    y: int
    misses: int


def path() -> Path:
    """Where the shared library is: MNEMATHOR_LIBRARY, else the installed one, else the one that
    ./library makes.
    """
    return Path(os.environ.get("MNEMATHOR_LIBRARY") or beside("libmnemathor.so", MADE))


def of_these_sources(where: Path) -> bool:
    """Whether the checkout's library was made from its sources as they are, as the file stamps
    judges it. ./mnemathor has asked already.
    """
    words = [
        "bash",
        "-c",
        'here=$1; . "$1/stamps"; fresh "$2"',
        "bash",
        str(CHECKOUT),
        str(where.parent / "made-from"),
    ]
    return subprocess.run(words, check=False).returncode == 0


@cache
def _loaded() -> ctypes.CDLL:
    """The library with the types of its calls."""
    where = path()
    if not where.exists():
        raise Mistake(f"{where} is missing; the command ./library proves and builds it")
    if (
        where == CHECKOUT / MADE
        and not os.environ.get("MNEMATHOR_CHECKED")
        and not of_these_sources(where)
    ):
        raise Mistake(
            f"{where} was made from other sources than these; the command ./library makes it anew"
        )
    try:
        loaded = ctypes.CDLL(str(where))
        for name, arguments in c.CALLS.items():
            call = getattr(loaded, name)
            call.argtypes, call.restype = arguments, c.Refusal
    except (OSError, AttributeError) as error:
        raise Mistake(
            f"{where} cannot be used: {error}; the command ./library builds it anew"
        ) from error
    return loaded


def _call(name: str, *arguments: Any) -> None:
    """Makes a call; a refusal is raised."""
    refusal = getattr(_loaded(), name)(*arguments)
    if refusal.number:
        raise Refused(refusal.number, refusal.place)


def _number(name: str, *arguments: Any) -> int:
    """A call whose answer is one number."""
    answer = c_int64()
    _call(name, *arguments, byref(answer))
    return answer.value


def _lent(array: NDArray[Any]) -> tuple[NDArray[Any], int]:
    return array, array.size


def _bytes(records: Lent) -> tuple[NDArray[Any], int]:
    """Records or bytes as an array of bytes on the same memory."""
    array = (
        np.frombuffer(records, np.uint8)
        if isinstance(records, (bytes, bytearray, memoryview))
        else records
    )
    if array.dtype not in (np.uint8, STAR):
        raise TypeError(
            f"records must be bytes or catalogue records, high byte first, not {array.dtype}"
        )
    return _lent(array.view(np.uint8))


def _rows(directions: ArrayLike) -> tuple[Rows, int]:
    """Directions as rows of three, pointer and number of rows."""
    rows = np.ascontiguousarray(directions, np.int32).reshape(-1, 3)
    return rows, len(rows)


def _settings(settings: Settings) -> Any:
    """The struct for settings of the file's kind: its F over 256 is the lens in pixels."""
    lens = c.Lens(c.PIXELS, settings.focal / PIXEL, 0.0)
    rest = {
        name: getattr(settings, name)
        for name in ("width", "height", "threshold", "needed", "cx", "cy", "tolerance")
    }
    return byref(c.Settings(lens=lens, **rest))


def _centroid(star: Structure) -> Centroid:
    return Centroid(star.x, star.y, star.brightness)


def _report(report: Structure) -> Report:
    return Report(
        tuple(map(_centroid, report.stars[: report.count])),
        report.measured,
        report.edge,
        report.lone,
    )


def _stars(stars: Sequence[int], count: int) -> Assignment:
    return tuple(None if star < 0 else star for star in stars[:count])


def _matrix(matrix: Structure) -> Matrix:
    return np.array(matrix.entries, np.int64)


def new_room() -> Words:
    """A ranking room for the chain."""
    return np.zeros(c.ROOM, np.uint16)


def verdict(samples: Samples, settings: Settings, row: int, column: int) -> Verdict:
    """The verdict on a pixel."""
    answer = c.Verdict()
    _call("mn_verdict", *_lent(samples), _settings(settings), row, column, byref(answer))
    kind = KINDS[answer.kind]
    return Verdict(
        answer.row, answer.column, kind, _centroid(answer.centroid) if kind == "measured" else None
    )


def reason(samples: Samples, settings: Settings, row: int, column: int) -> Reason:
    """Why a pixel is or is not a star."""
    answer = c.Reason()
    _call("mn_reason", *_lent(samples), _settings(settings), row, column, byref(answer))
    kind = KINDS[answer.kind]
    named: dict[str, Callable[[], dict[str, Any]]] = {
        "dark": lambda: {"sample": answer.sample, "threshold": answer.threshold},
        "beaten": lambda: {"row": answer.row, "column": answer.column},
        "edge": lambda: {"side": SIDES[answer.side]},
        "lone": lambda: {"largest": answer.largest},
        "measured": lambda: {"centroid": _centroid(answer.centroid)},
    }
    return Reason(kind, **named[kind]())


def list_stars(samples: Samples, settings: Settings) -> Report:
    """A frame's list."""
    answer = c.Report()
    _call("mn_list", *_lent(samples), _settings(settings), byref(answer))
    return _report(answer)


def focal_of_pixels(pixels: float) -> int:
    """The whole focal length of a lens plate in pixels."""
    return _number("mn_lens", byref(c.Lens(c.PIXELS, pixels, 0.0)))


def focal_of_millimetres(focal_length: float, pitch: float) -> int:
    """The whole focal length of a lens plate in millimetres; the pitch in micrometres."""
    return _number("mn_lens", byref(c.Lens(c.MILLIMETRES, focal_length, pitch)))


def direction(settings: Settings, x: int, y: int) -> tuple[int, int, int]:
    """The direction of a position."""
    answer = c.Direction()
    _call("mn_direction", _settings(settings), x, y, byref(answer))
    return answer.x, answer.y, answer.z


def directions(settings: Settings, report: Report) -> Rows:
    """The directions of a list's stars, a row each."""
    return np.array(
        [direction(settings, star.x, star.y) for star in report.stars], np.int32
    ).reshape(-1, 3)


def check_catalogue(records: Lent) -> int:
    """How many records a catalogue has; refused if it is not valid."""
    return _number("mn_catalogue", *_bytes(records))


def rank(rows: Rows, catalogue: Records, settings: Settings, room: Words) -> Words:
    """The ranking of directions, at the start of the room; hands back that part of it."""
    _call("mn_ranking", *_rows(rows), *_bytes(catalogue), _settings(settings), *_lent(room))
    return ranking_in(room, rows, catalogue)


def ranking_in(room: Words, rows: Rows, catalogue: Records) -> Words:
    """The part of a room that a ranking of these directions fills."""
    return room[: len(rows) * (_bytes(catalogue)[1] // STAR.itemsize)]


def index(catalogue: Records, floor: int, room: Bytes) -> int:
    """Writes the index into a room of bytes; hands back its number of records."""
    return _number("mn_index", *_bytes(catalogue), floor, *_lent(room))


def rank_by_index(
    rows: Rows, catalogue: Records, pairs: Bytes, floor: int, settings: Settings, room: Words
) -> Words:
    """The same ranking by the index of the catalogue for that floor."""
    _call(
        "mn_ranking_by_index",
        *_rows(rows),
        *_bytes(catalogue),
        *_bytes(pairs),
        floor,
        _settings(settings),
        *_lent(room),
    )
    return ranking_in(room, rows, catalogue)


def compare(first: Lent, second: Lent, room: Bytes) -> int:
    """Writes what changed between two catalogues into a room of bytes; hands back the number of
    records.
    """
    return _number("mn_compare", *_bytes(first), *_bytes(second), *_lent(room))


def cut(catalogue: Lent, limit: int, closeness: int) -> int:
    """Cuts a catalogue in place; hands back how many records are kept."""
    return _number("mn_cut", *_bytes(catalogue), limit, closeness)


def search(rows: Rows, catalogue: Records, settings: Settings, ranking: Words) -> Assignment:
    """The first assignment that fits: a record number or None for each direction."""
    answer = c.Assignment()
    _call(
        "mn_search",
        *_rows(rows),
        *_bytes(catalogue),
        _settings(settings),
        *_lent(ranking),
        byref(answer),
    )
    return _stars(answer.stars, answer.count)


def rival(rows: Rows, catalogue: Records, settings: Settings, ranking: Words) -> Assignment | None:
    """The first rival of the search's answer, or None where it is alone."""
    answer = c.Rival()
    _call(
        "mn_rival",
        *_rows(rows),
        *_bytes(catalogue),
        _settings(settings),
        *_lent(ranking),
        byref(answer),
    )
    return _stars(answer.stars, len(rows)) if answer.exists else None


def attitude(
    first: Iterable[int],
    second: Iterable[int],
    first_star: Iterable[int],
    second_star: Iterable[int],
) -> Matrix:
    """The matrix that carries sky to camera, from two directions and their stars'."""
    answer = c.Matrix()
    four = [
        byref(c.Direction(*map(int, vector))) for vector in (first, second, first_star, second_star)
    ]
    _call("mn_attitude", *four, byref(answer))
    return _matrix(answer)


def cosines(matrix: ArrayLike) -> Floats:
    """A matrix as rows of floats."""
    answer = c.Cosines()
    lent = c.Matrix()
    for row, entries in enumerate(np.asarray(matrix).tolist()):
        lent.entries[row][:] = entries
    _call("mn_cosines", byref(lent), byref(answer))
    return np.array(answer.entries)


def turned(rows: ArrayLike, target: ArrayLike) -> Floats:
    """A direction of the sky in the camera: each row by the target."""
    lent = c.Cosines()
    for row, entries in enumerate(np.asarray(rows).tolist()):
        lent.entries[row][:] = entries
    answer = np.zeros(3)
    _call("mn_turned", byref(lent), np.ascontiguousarray(target, np.float64), answer)
    return answer


def chain(
    samples: Samples, settings: Settings, catalogue: Records, room: Words | None = None
) -> Tracked:
    """The whole chain; the ranking is left in the room."""
    answer = c.Tracked()
    room = new_room() if room is None else room
    _call(
        "mn_chain",
        *_lent(samples),
        _settings(settings),
        *_bytes(catalogue),
        *_lent(room),
        byref(answer),
    )
    return _tracked(answer)


def chain_by_index(
    samples: Samples,
    settings: Settings,
    catalogue: Records,
    pairs: Bytes,
    floor: int,
    room: Words | None = None,
) -> Tracked:
    """The whole chain with an index of the catalogue."""
    answer = c.Tracked()
    room = new_room() if room is None else room
    lent = (
        *_lent(samples),
        _settings(settings),
        *_bytes(catalogue),
        *_bytes(pairs),
        floor,
        *_lent(room),
    )
    _call("mn_chain_by_index", *lent, byref(answer))
    return _tracked(answer)


def _tracked(answer: Structure) -> Tracked:
    return Tracked(
        _report(answer.report),
        _stars(answer.assignment.stars, answer.report.count),
        _matrix(answer.matrix),
    )


BURST = np.dtype([("number", ">u4"), ("place", ">u4"), ("matrix", ">i8", (3, 3))])


def burst(frames: Samples, settings: Settings, catalogue: Records) -> list[Framed]:
    """The chain on each of several frames of one size, one behind the other."""
    room = np.zeros(64 * c.BURST_RECORD, np.uint8)
    lent = (
        *_lent(frames),
        _settings(settings),
        *_bytes(catalogue),
        *_lent(new_room()),
        *_lent(room),
    )
    count = _number("mn_burst", *lent)
    return [_framed(record) for record in room.view(BURST)[:count]]


def _framed(record: np.void) -> Framed:
    if record["number"]:
        return Framed(Refused(record["number"], record["place"]), None)
    return Framed(None, record["matrix"].astype(np.int64))


class Guider:
    """Guide boxes over the frames that follow an identification."""

    def __init__(self, half_width: int, guides: Sequence[tuple[int, int, int]]) -> None:
        """Guides are identity, x and y each."""
        self._guider = c.Guider()
        lent = np.array(guides, np.int64).reshape(-1)
        _call("mn_guider_start", half_width, *_lent(lent), byref(self._guider))

    @classmethod
    def of(cls, half_width: int, guides: Sequence[tuple[int, int, int, int]]) -> Guider:
        """A guider as it stood: guides are identity, x, y and misses each.

        The next frame's call judges it.
        """
        made = cls(half_width, [])
        made._guider.count = len(guides)
        for place, guide in enumerate(guides):
            made._guider.guides[place] = c.Guide(*guide)
        return made

    @property
    def guides(self) -> tuple[Guide, ...]:
        """The guides as they stand."""
        return tuple(
            Guide(g.identity, g.x, g.y, g.misses) for g in self._guider.guides[: self._guider.count]
        )

    def frame(self, samples: Samples, settings: Settings) -> None:
        """Follows one frame's list; a refused frame counts as none."""
        report = c.Report()
        seen = _loaded().mn_list(*_lent(samples), _settings(settings), byref(report))
        _call("mn_guider_frame", byref(self._guider), seen, byref(report))


def one_star() -> Records:
    """The smallest catalogue: one star out to the sky's pole."""
    record = np.zeros(1, STAR)
    record["z"] = UNIT
    return record


def with_size(samples: Samples, threshold: int) -> Settings:
    """Settings that say nothing but a frame's size and a threshold."""
    height, width = samples.shape
    return replace(Settings(), width=width, height=height, threshold=threshold)
