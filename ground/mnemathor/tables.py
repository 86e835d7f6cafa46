"""Star lists as they come: text with commas, semicolons, tabs or bars, VizieR's TSV, and all tables
that astropy knows, as columns with line numbers.
"""

from __future__ import annotations

import csv
from collections.abc import Sequence
from dataclasses import dataclass
from pathlib import Path
from typing import Any

import astropy.units as u
import numpy as np
from astropy.table import Table
from numpy.typing import NDArray

from .arrays import Flags, Numbers, Where
from .refusals import Mistake

TEXT = (".csv", ".ecsv", ".txt", ".tsv", ".dat", ".asc", ".tab")
SEPARATORS = ("\t", ";", "|", ",")
# What stands where there is no value; Yale's column of signs alone has dashes that mean something.
GAPS = ("", "-", "~", "null", "nan", '""')
# Units as VizieR and others write them.
UNITS = {"deg": u.deg, "h": u.hourangle, "rad": u.rad, "arcsec": u.arcsec, "hourangle": u.hourangle}
# A row of text: its line number, and its cells.
Cells = tuple[int, list[str]]


@dataclass
class Columns:
    """A table's columns by name, as arrays of numbers or of text; `missing` says where a column has
    no value, `lines` where each row stands.
    """

    values: dict[str, NDArray[Any]]
    missing: dict[str, Flags]
    units: dict[str, u.Unit | None]
    lines: Numbers
    dropped: list[tuple[int, str]]

    @property
    def names(self) -> list[str]:
        """The columns' names, in the table's order."""
        return list(self.values)


def read_columns(path: Where) -> Columns:
    """The columns of a star list."""
    path = Path(path)
    if path.is_dir():
        raise Mistake(f"{path} is a folder; the star list comes first, the folder second")
    if not path.is_file():
        raise Mistake(f"{path} is not a file")
    try:
        columns = _read(path)
    except Mistake:
        raise
    except Exception as error:  # astropy's readers raise many kinds
        first = (str(error).strip().splitlines() or [type(error).__name__])[0]
        raise Mistake(f"{path} cannot be read as a table: {first}") from error
    if not len(columns.lines):
        raise Mistake(f"{path} has no rows")
    return columns


def _read(path: Path) -> Columns:
    if path.suffix.lower() not in TEXT:
        return _of_table(Table.read(path))
    text = _decoded(path.read_bytes())
    if text.startswith("# %ECSV"):
        comments = sum(line.startswith("#") for line in text.splitlines())
        return _of_table(Table.read(text, format="ascii.ecsv"), comments + 2)
    return _of_text(text) or _of_table(Table.read(text, format="ascii"), 2)


def _decoded(contents: bytes) -> str:
    """Text with or without a byte order mark; where it is no UTF-8, each byte is a letter."""
    if contents[:2] in (b"\xff\xfe", b"\xfe\xff"):
        return contents.decode("utf-16")
    try:
        return contents.decode("utf-8-sig")
    except UnicodeDecodeError:
        return contents.decode("latin-1")


def _of_table(table: Table, first: int = 1) -> Columns:
    """An astropy table; its rows are counted from `first`."""
    values, missing, units = {}, {}, {}
    for name in table.colnames:
        column = table[name]
        values[name] = np.asarray(column)
        gaps = np.array(getattr(column, "mask", np.zeros(len(column), bool)))
        if np.issubdtype(column.dtype, np.floating):
            gaps = gaps | ~np.isfinite(np.asarray(column, float))
        missing[name], units[name] = gaps, column.unit
    return Columns(values, missing, units, np.arange(first, first + len(table)), [])


def _of_text(text: str) -> Columns | None:
    """Text with a separator between fields, or None where no separator makes three columns of its
    first line.
    """
    rows = [
        (number, line)
        for number, line in enumerate(text.splitlines(), 1)
        if line.strip() and not line.startswith("#")
    ]
    if not rows:
        return Columns({}, {}, {}, np.zeros(0, int), [])
    separator = max(SEPARATORS, key=rows[0][1].count)
    if rows[0][1].count(separator) < 2:
        return None
    cells = [
        (number, [cell.strip() for cell in next(csv.reader([line], delimiter=separator))])
        for number, line in rows
    ]
    names, units, body = _head(cells)
    dropped = [
        (number, f"{len(cell)} fields, not {len(names)}")
        for number, cell in body
        if len(cell) != len(names)
    ]
    body = [(number, cell) for number, cell in body if len(cell) == len(names)]
    values, missing = {}, {}
    for place, name in enumerate(names):
        column = [cell[place] for _, cell in body]
        missing[name] = np.array(
            [cell.lower() in GAPS and (cell != "-" or name != "DE-") for cell in column], bool
        )
        values[name] = _typed(column, missing[name])
    return Columns(values, missing, units, np.array([number for number, _ in body], int), dropped)


def _head(cells: list[Cells]) -> tuple[list[str], dict[str, u.Unit | None], list[Cells]]:
    """Names, units and the rows. VizieR has a line of units and one of dashes below the names."""
    names = [name.strip('"') or f"column {place}" for place, name in enumerate(cells[0][1], 1)]
    units = dict.fromkeys(names)
    for dashes in (1, 2):
        if len(cells) > dashes and all(cell and set(cell) == {"-"} for cell in cells[dashes][1]):
            if dashes == 2:
                units = {
                    name: UNITS.get(unit.strip('"').lower())
                    for name, unit in zip(names, cells[1][1])
                }
            return names, units, cells[dashes + 1 :]
    return names, units, cells[1:]


def _typed(column: Sequence[str], missing: Flags) -> NDArray[Any]:
    """Numbers, where most of what is there are numbers, and nan for the others; else text."""
    numbers = np.array([as_number(cell) for cell in column], float)
    return (
        numbers
        if 2 * np.isfinite(numbers).sum() > (~missing).sum() or missing.all()
        else np.array(column, str)
    )


def as_number(cell: str) -> float:
    """A cell as a number; nan where it is none."""
    try:
        return float(cell)
    except ValueError:
        return np.nan
