"""A night's log: a line a frame, as JSON lines and as CSV, each on the disk before the next frame
is looked at.

The JSON lines are the log, and begin with a line about the camera; the CSV says the same for a
spreadsheet. A run that was broken off leaves at most half a line at the end of either. `--resume`
takes that away and goes on: what was logged is neither lost nor logged twice.
"""

from __future__ import annotations

import csv
import errno
import hashlib
import io
import json
import os
from collections.abc import Iterator, Mapping, Sequence
from dataclasses import asdict
from pathlib import Path
from typing import Any

from .arrays import Records, Where
from .folder import Settings
from .refusals import Mistake, Unwritten
from .structures import GUIDES

PLAIN = (
    "number",
    "time",
    "file",
    "error",
    "measured",
    "edge",
    "lone",
    "refused",
    "ra",
    "dec",
    "roll",
    "sexagesimal",
    "names",
    "alone",
    "confirmed",
)
CHECK = (
    "best_ra",
    "best_dec",
    "best_roll",
    "check_axis",
    "check_roll",
    "residual",
    "warning",
    "guider",
    "milliseconds",
)
OF_A_GUIDE = ("identity", "dx", "dy", "misses")
# Which columns a log has: logs of another form are not gone on with.
FORM = 2
COLUMNS = (
    *PLAIN,
    *CHECK,
    *(f"guide{k}_{name}" for k in range(1, GUIDES + 1) for name in OF_A_GUIDE),
)
# One line of the log, by name.
Line = dict[str, Any]


class Log:
    """The two files of a night, OUT.jsonl and OUT.csv, open for one more line."""

    def __init__(self, out: Where, head: Line, resume: bool = False) -> None:
        """A new log, or with `resume` one that is there; `head` says which camera it is of."""
        self.lines, self.table = Path(f"{out}.jsonl"), Path(f"{out}.csv")
        if not self.lines.parent.is_dir():
            raise Mistake(f"{self.lines.parent} is not a folder")
        there = [path for path in (self.lines, self.table) if os.path.lexists(path)]
        if there and not resume:
            raise Mistake(
                f"{there[0]} is there already; --resume goes on with it, and --log names another"
            )
        try:
            if self.lines.exists() and self.lines.stat().st_size:
                self._mend(head)
            else:
                _begin(self.lines, json.dumps(head) + "\n")
                _begin(self.table, _row(COLUMNS))
            self._files = [open(path, "ab", buffering=0) for path in (self.lines, self.table)]
        except OSError as error:
            raise Unwritten(
                f"{self.lines} could not be written: {error.strerror or error}"
            ) from error

    def append(self, line: Line) -> None:
        """Writes one line into both files; it is on the disk when this returns."""
        contents = (json.dumps(line) + "\n", _row(_cells(line)))
        try:
            for file, text in zip(self._files, contents):
                if file.write(text.encode()) != len(text.encode()):
                    raise OSError(errno.ENOSPC, os.strerror(errno.ENOSPC))
                os.fsync(file.fileno())
        except OSError as error:
            raise Unwritten(
                f"{self.lines} could not be written: {error.strerror or error}; --resume goes on"
                " behind the last whole line"
            ) from error

    def close(self) -> None:
        """Leaves both files."""
        for file in self._files:
            file.close()

    def _mend(self, head: Line) -> None:
        """Takes half a line away, and makes the CSV say what the JSON lines say."""
        _cut(self.lines)
        with open(self.lines, encoding="utf-8") as file:
            first = file.readline()
        if not first:
            _begin(self.lines, json.dumps(head) + "\n")
        elif json.loads(first) != json.loads(json.dumps(head)):
            raise Mistake(
                f"{self.lines} is of another camera, or of other tools: settings, catalogue, box,"
                " the frames' own options or the columns are not the same; --log names another log"
            )
        before = self.table.read_bytes() if self.table.exists() else b""
        whole = before[: before.rfind(b"\n") + 1]
        text = "".join([_row(COLUMNS), *(_row(_cells(line)) for line in read(self.lines))]).encode()
        if not text.startswith(whole):
            raise Mistake(
                f"{self.table} does not say what {self.lines} says, and was changed since; move it"
                " away, and --resume makes it anew"
            )
        _begin(self.table, text.decode())


def head(settings: Settings, catalogue: Records, box: float, how: Mapping[str, Any]) -> Line:
    """What a log's lines rest on: the camera, the catalogue, the guides' boxes, and how images
    become frames.
    """
    return {
        "mnemathor": "night",
        "form": FORM,
        "settings": asdict(settings),
        "catalogue": hashlib.sha256(catalogue.tobytes()).hexdigest(),
        "stars": len(catalogue),
        "box": box,
        "frames": how,
    }


def read(lines: Where) -> Iterator[Line]:
    """The lines of a log, one after the other; half a line at the end is none."""
    with open(lines, encoding="utf-8") as file:
        next(file, None)
        for text in file:
            if text.endswith("\n"):
                yield json.loads(text)


def _cells(line: Line) -> list[Any]:
    """A line's cells in the CSV."""
    names = " ".join(f"{number}:{identity}" for number, identity in line["names"].items())
    plain = [names if name == "names" else line[name] for name in (*PLAIN, *CHECK)]
    return plain + [guide[name] for guide in line["guides"] for name in OF_A_GUIDE]


def _row(cells: Sequence[Any]) -> str:
    """One line of CSV, with every column."""
    text = io.StringIO()
    csv.writer(text, lineterminator="\n").writerow([*cells, *[None] * (len(COLUMNS) - len(cells))])
    return text.getvalue()


def _begin(path: Path, text: str) -> None:
    """A file with its first lines, whole, in place of what was there."""
    waiting = path.with_name(f".{path.name}.new")
    with open(waiting, "wb") as file:
        file.write(text.encode())
        file.flush()
        os.fsync(file.fileno())
    os.replace(waiting, path)
    folder = os.open(path.parent, os.O_RDONLY)
    try:
        os.fsync(folder)
    finally:
        os.close(folder)


def _cut(path: Path) -> None:
    """Takes what follows the last whole line away."""
    with open(path, "r+b") as file:
        contents = file.read()
        file.truncate(contents.rfind(b"\n") + 1)
        os.fsync(file.fileno())
