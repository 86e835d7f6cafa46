"""Two nights held against each other: two logs, or two cameras' settings on the same frames.

Which answers changed, and why: by what the log says of a frame, or, where the frames are at hand,
by trying each difference of the cameras alone.
"""

import json
from collections import Counter
from collections.abc import Iterator
from dataclasses import asdict, dataclass, field, replace
from pathlib import Path
from typing import Any

import numpy as np
from tqdm import tqdm

from . import arriving, configuration, library
from .arrays import Records, Samples
from .attitude import Pointing, angle_between, matrix_of
from .folder import Settings, read_catalogue, read_settings
from .following import Follower
from .nightlog import FORM, head
from .refusals import Mistake

Line = dict[str, Any]
# An axis that moved by less, in arc seconds, is the same.
SAME = 0.5
# The parts of a camera that can be changed one by one, and the settings that belong to each.
PARTS = {
    "threshold": ("threshold",),
    "needed count": ("needed",),
    "tolerance": ("tolerance",),
    "lens": ("focal",),
    "centre": ("cx", "cy"),
    "size": ("width", "height"),
}
NEEDED, TOO_FEW, NO_FIT = "needed", 12, 13


@dataclass(frozen=True)
class Change:
    """One frame whose answer changed: both answers in words, what changed, and why."""

    file: str
    time: str
    before: str
    after: str
    kinds: tuple[str, ...]
    why: str

    def __str__(self) -> str:
        """In a line."""
        return f"{self.time} {self.file}: {self.before} -> {self.after}; {self.why}"


@dataclass
class Compared:
    """Two nights: what their cameras differ in, the frames of both, and the changes."""

    differences: list[str]
    frames: int = 0
    alone: dict[str, int] = field(default_factory=dict)
    changes: list[Change] = field(default_factory=list)

    def lines(self) -> Iterator[str]:
        """In lines to read."""
        yield from self.differences or ["the cameras are the same"]
        yield from map(str, self.changes)
        yield from (f"{count} frames are in {name} alone" for name, count in self.alone.items())
        kinds = Counter(kind for change in self.changes for kind in change.kinds)
        told = ", ".join(f"{count} {kind}" for kind, count in kinds.most_common())
        sums = f"{self.frames} frames in both, {len(self.changes)} changed"
        yield f"{sums}: {told}" if told else sums

    def as_dict(self) -> dict[str, Any]:
        """In plain words and numbers, for JSON."""
        return asdict(self)


def compare_logs(first: str, second: str) -> Compared:
    """Holds two logs against each other, frame by frame, by the frames' names."""
    paths = [log_of(word) for word in (first, second)]
    heads = [_head(path) for path in paths]
    made = Compared(_differences(*heads))
    with open(paths[1], encoding="utf-8") as file:
        places = _places(file)
        for line in _lines(paths[0]):
            if line["file"] not in places:
                made.alone["A"] = made.alone.get("A", 0) + 1
                continue
            file.seek(places.pop(line["file"]))
            made.frames += 1
            _note(made, line, json.loads(file.readline()), lambda *pair: _why(*pair, *heads))
    if places:
        made.alone["B"] = len(places)
    return made


def compare_cameras(
    first: str, second: str, words: list[str], how: dict[str, Any], box: float
) -> Compared:
    """Follows the same frames with two cameras, and holds the lines against each other."""
    one, other = (_Camera.of(folder, box) for folder in (first, second))
    made = Compared(_differences(one.head(how), other.head(how)))
    stars = _stars_changed(one, other)
    made.differences += [stars] if stars else []
    found = arriving.listed(words)
    if not found:
        raise Mistake(f"{words[0]} has no image files")
    for name, path in tqdm(found, unit="frame", disable=None):
        name, when, samples, error = arriving.read(name, path, how)
        made.frames += 1
        lines = [camera.line(name, when, samples, error) for camera in (one, other)]
        _note(made, lines[0], lines[1], lambda *_: _cause(one, other, samples))
    return made


def log_of(word: str) -> Path:
    """The log that a word names: itself, or without its ending, or that of a camera's folder."""
    path = Path(word)
    tried = [path / "night.jsonl"] if path.is_dir() else [path, Path(f"{word}.jsonl")]
    for each in tried:
        if each.is_file():
            return each
    raise Mistake(f"{tried[0]} is not there; a log is OUT.jsonl, or a folder with night.jsonl")


def _head(path: Path) -> dict[str, Any]:
    """The first line of a log."""
    try:
        with open(path, encoding="utf-8") as file:
            told = json.loads(file.readline())
    except (OSError, ValueError) as error:
        raise Mistake(f"{path} is no log of follow") from error
    if not isinstance(told, dict) or told.get("mnemathor") != "night":
        raise Mistake(f"{path} is no log of follow")
    if told.get("form") != FORM:
        raise Mistake(f"{path} has other columns than these tools write; follow makes it anew")
    return told


def _lines(path: Path) -> Iterator[Line]:
    """The lines of a log; half a line at the end is none."""
    with open(path, encoding="utf-8") as file:
        for place in _places(file).values():
            file.seek(place)
            yield json.loads(file.readline())


def _places(file: Any) -> dict[str, int]:
    """Where each frame's line begins, by the frame's name; kept instead of the lines themselves."""
    file.readline()
    places, place = {}, file.tell()
    while (text := file.readline()).endswith("\n"):
        places[json.loads(text)["file"]] = place
        place = file.tell()
    return places


def _differences(one: dict[str, Any], other: dict[str, Any]) -> list[str]:
    """What two cameras differ in, a line each."""
    told = []
    for part, names in PARTS.items():
        values = [" ".join(str(each["settings"][name]) for name in names) for each in (one, other)]
        told += [f"{part} {values[0]} -> {values[1]}"] if values[0] != values[1] else []
    if one["catalogue"] != other["catalogue"]:
        told.append(f"catalogue of {one['stars']} stars -> another of {other['stars']}")
    if one["box"] != other["box"]:
        told.append(f"guide boxes {one['box']:g} -> {other['box']:g} pixels")
    if one["frames"] != other["frames"]:
        told.append(f"images become frames otherwise: {_options(one)} -> {_options(other)}")
    return told


def _options(told: dict[str, Any]) -> str:
    """How images became frames, where that was said."""
    said = {name: value for name, value in told["frames"].items() if value not in (None, False, 1)}
    return " ".join(f"--{name} {value}" for name, value in said.items()) or "as they are"


def _note(made: Compared, one: Line, other: Line, why: Any) -> None:
    """Notes a frame whose answer changed."""
    kinds = tuple(_kinds(one, other))
    if kinds:
        reason = _guides_changed(one, other) if kinds == ("guides",) else why(one, other)
        told = (_answer(one), _answer(other), kinds, reason)
        made.changes.append(Change(one["file"], one["time"], *told))


def _kinds(one: Line, other: Line) -> Iterator[str]:
    """What changed between two lines of one frame."""
    read = [each["error"] is None for each in (one, other)]
    found = [each["ra"] is not None for each in (one, other)]
    if read[0] != read[1]:
        yield "read in one alone"
    elif found[0] != found[1]:
        yield "accepted in A alone" if found[0] else "accepted in B alone"
    elif one["refused"] != other["refused"]:
        yield "refused otherwise"
    elif found[0]:
        yield from _of_answers(one, other)
    if read[0] and read[1] and _guides(one) != _guides(other):
        yield "guides"


def _of_answers(one: Line, other: Line) -> Iterator[str]:
    """What changed between two answers."""
    names = [set(each["names"].values()) for each in (one, other)]
    if names[0] != names[1]:
        yield "names" if names[0] - names[1] and names[1] - names[0] else "more or fewer names"
    if _moved(one, other) > SAME:
        yield "pointing"
    if one["alone"] != other["alone"]:
        yield "rival"
    if one["confirmed"] != other["confirmed"]:
        yield "confirmed"


def _moved(one: Line, other: Line) -> float:
    """How far apart the axes of two answers are, in arc seconds."""
    axes = [matrix_of(Pointing(each["ra"], each["dec"], each["roll"]))[2] for each in (one, other)]
    return float(angle_between(*axes))


def _guides(line: Line) -> list[tuple[int, bool]]:
    """Which stars guide, and whether each is followed."""
    return [(guide["identity"], guide["misses"] == 0) for guide in line["guides"]]


def _guides_changed(one: Line, other: Line) -> str:
    """The guides that each follows."""
    live = ([str(name) for name, followed in _guides(line) if followed] for line in (one, other))
    return f"guides followed {' -> '.join(' '.join(names) or 'none' for names in live)}"


def _answer(line: Line) -> str:
    """What a frame gave, in words."""
    if line["error"] is not None:
        return "unreadable"
    if line["ra"] is None:
        return f"refused {line['refused']}"
    alone = "alone" if line["alone"] else "rival"
    return f"{line['sexagesimal']} roll {line['roll']:.3f}, {len(line['names'])} names, {alone}"


def _why(one: Line, other: Line, *heads: dict[str, Any]) -> str:
    """Why an answer changed, as far as two logs tell."""
    reasons = []
    for line, told, name in ((one, heads[0], "A"), (other, heads[1], "B")):
        if line["error"] is not None:
            reasons.append(f"{name}: {line['error']}")
        elif line["refused"] == TOO_FEW:
            wanted = told["settings"][NEEDED]
            reasons.append(f"{name} has {line['measured']} measured of {wanted} needed")
        elif line["refused"] == NO_FIT:
            reasons.append(f"in {name} no {told['settings'][NEEDED]} stars fit")
    counts = [tuple(line[key] for key in ("measured", "edge", "lone")) for line in (one, other)]
    if counts[0] != counts[1] and None not in counts[0] + counts[1]:
        shown = (" ".join(map(str, each)) for each in counts)
        reasons.append(f"measured, edge and lone {' -> '.join(shown)}")
    if one["ra"] is not None and other["ra"] is not None:
        reasons += _names_changed(one, other)
    return ", ".join(reasons) or "the further stars say something else"


def _names_changed(one: Line, other: Line) -> list[str]:
    """The names that one answer alone has, and how far its axis moved."""
    names = [set(each["names"].values()) for each in (one, other)]
    told = []
    for name, only in (("A", names[0] - names[1]), ("B", names[1] - names[0])):
        told += [f"{name} alone names {' '.join(map(str, sorted(only)))}"] if only else []
    moved = _moved(one, other)
    return told + ([f"the axis moved {moved:.1f}″"] if moved > SAME else [])


@dataclass(frozen=True)
class _Camera:
    """A camera's settings and catalogue, and its follower."""

    settings: Settings
    catalogue: Records
    follower: Follower

    @classmethod
    def of(cls, folder: str, box: float) -> "_Camera":
        """The camera of a folder, judged by the library."""
        settings, catalogue = read_settings(folder), read_catalogue(folder)
        configuration.check(settings)
        library.check_catalogue(catalogue)
        return cls(settings, catalogue, Follower(settings, catalogue, box))

    def head(self, how: dict[str, Any]) -> dict[str, Any]:
        """As the first line of a log has it."""
        return head(self.settings, self.catalogue, self.follower.half_width, how)

    def line(self, name: str, when: str, samples: Samples | None, error: str | None) -> Line:
        """A frame's line."""
        follower = self.follower
        try:
            told = follower.unreadable(error) if samples is None else follower.frame(samples)
        except Mistake as mistake:
            told = follower.unreadable(str(mistake))
        return {"time": when, "file": name, **told}

    def with_part(self, part: str, other: "_Camera") -> "_Camera":
        """This camera with one part of another."""
        if part == "catalogue":
            return replace(self, catalogue=other.catalogue)
        changed = {name: getattr(other.settings, name) for name in PARTS[part]}
        return replace(self, settings=replace(self.settings, **changed))

    def gives(self, samples: Samples) -> tuple[Any, ...]:
        """What decides whether two answers are the same."""
        told = Follower(self.settings, self.catalogue, 0.0).frame(samples)
        return told["refused"], sorted(told["names"].values()), told["alone"], told["confirmed"]


def _cause(one: _Camera, other: _Camera, samples: Samples | None) -> str:
    """The parts of the second camera that alone give the first one the second one's answer."""
    if samples is None:
        return "the file cannot be read"
    differing = [part for part in PARTS if one.with_part(part, other).settings != one.settings]
    differing += ["catalogue"] if not np.array_equal(one.catalogue, other.catalogue) else []
    try:
        wanted = other.gives(samples)
        if one.gives(samples) == wanted:
            return "the same names and another axis"
        causes = [part for part in differing if one.with_part(part, other).gives(samples) == wanted]
    except Mistake as mistake:
        return str(mistake)
    return f"by the {' or the '.join(causes)} alone" if causes else "by several together"


def _stars_changed(one: _Camera, other: _Camera) -> str | None:
    """How many stars of two catalogues differ."""
    old, new = ({int(star["identity"]): star for star in each.catalogue} for each in (one, other))
    removed, added = len(old.keys() - new.keys()), len(new.keys() - old.keys())
    changed = sum(old[name] != new[name] for name in old.keys() & new.keys())
    if not removed + added + changed:
        return None
    return f"of its stars {removed} removed, {added} added, {changed} changed"
