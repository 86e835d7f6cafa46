"""A star list becomes a catalogue: its columns become directions, the library judges the records,
and what is left out is told with its lines.
"""

from __future__ import annotations

from collections.abc import Callable, Iterable, Mapping, Sequence
from dataclasses import dataclass, field, replace
from typing import Any

import astropy.units as u
import numpy as np
from astropy.coordinates import Angle, SkyCoord
from numpy.typing import NDArray

from . import commonnames, evenly, library
from .arrays import Flags, Floats, Numbers, Records, Where
from .attitude import vectors
from .coverage import half_diagonal
from .folder import MAGNITUDE, STAR, UNIT, Settings, settings_or_none
from .horizon import Night, seen
from .keeping import write_folder
from .refusals import Mistake, Refused
from .region import Region
from .tables import Columns, as_number, read_columns

# The usual names of columns, HYG's, Hipparcos' and Yale's among them.
GUESSES = {
    "identity": ("identity", "id", "hip", "hr", "hd", "tyc", "star", "number", "no", "source_id"),
    "ra": (
        *(
            "ra",
            "raj2000",
            "_raj2000",
            "_ra",
            "_ra.icrs",
            "ra_icrs",
            "raicrs",
            "radeg",
            "ra_deg",
            "right_ascension",
            "rightascension",
        ),
        *("ramdeg", "rahms", "alpha", "rarad"),
    ),
    "dec": (
        *(
            "dec",
            "dej2000",
            "_dej2000",
            "decj2000",
            "_de",
            "_de.icrs",
            "de_icrs",
            "deicrs",
            "dec_icrs",
            "decdeg",
            "dec_deg",
            "dedeg",
        ),
        *("declination", "demdeg", "dedms", "de", "delta", "decrad", "derad"),
    ),
    "magnitude": (
        "magnitude",
        "mag",
        "vmag",
        "v",
        "vt",
        "vtmag",
        "hpmag",
        "gmag",
        "phot_g_mean_mag",
        "btmag",
    ),
}
# The parts of Yale's places, which have a column each.
PARTS = {"ra": ("rah", "ram", "ras"), "dec": ("de-", "ded", "dem", "des")}
# Magnitudes of a record, in thousandths.
FAINTEST, BRIGHTEST = 12000, -2000
# So many lines are named; of more, only the number.
LINES = 8
# An even choice: K and R, or what takes them from the camera.
Even = tuple[int, float] | Callable[[Records, Settings], tuple[int, float]]

# A note on a night's choice.
NO_LENS = (
    "no lens in the folder yet: what lies beyond the gimbal's elevations is left out;"
    " after settings, run this again"
)


@dataclass
class Selection:
    """The chosen records, where each stood, and how many stars were left out, by reason."""

    records: Records
    left_out: dict[str, int] = field(default_factory=dict)
    columns: dict[str, str] = field(default_factory=dict)
    notes: tuple[str, ...] = ()
    lines: dict[int, list[int]] = field(default_factory=dict)
    names: dict[int, str] | None = None


class _Rows:
    """The rows of a list that are still good, and why the others are not."""

    def __init__(self, lines: Numbers, dropped: Iterable[tuple[int, str]]) -> None:
        self.lines, self.good = lines, np.ones(len(lines), bool)
        self.reasons: dict[str, list[int]] = {}
        for line, reason in dropped:
            self.reasons.setdefault(reason, []).append(line)

    def drop(self, bad: Flags, reason: str) -> None:
        """Leaves out the rows that are bad, if they were good until now."""
        bad = bad & self.good
        if bad.any():
            self.reasons.setdefault(reason, []).extend(self.lines[bad].tolist())
            self.good &= ~bad

    def left_out(self) -> dict[str, int]:
        """How many were left out, by reason and lines."""
        return {f"{reason} ({_lines(lines)})": len(lines) for reason, lines in self.reasons.items()}


def _lines(lines: Sequence[int]) -> str:
    more = f" and {len(lines) - LINES} more" if len(lines) > LINES else ""
    return f"line{'s' if len(lines) > 1 else ''} {', '.join(map(str, lines[:LINES]))}{more}"


def read_stars(
    path: Where,
    columns: Sequence[str] | None = None,
    number: bool = False,
    hours: bool | None = None,
) -> Selection:
    """All usable stars of a list as records, by rising identity; the others are left out and
    counted, with their lines.
    """
    table = read_columns(path)
    _join_parts(table)
    names = _column_names(table, columns, number)
    rows = _Rows(table.lines, table.dropped)
    for name in names.values():
        rows.drop(table.missing[name], "a gap in the row")
    identities = (
        np.arange(1, len(table.lines) + 1)
        if number
        else _identities(table.values[names["identity"]], rows)
    )
    directions, notes = _directions(table, names, hours, rows)
    magnitudes = _magnitudes(table.values[names["magnitude"]], rows)
    if number:
        names["identity"] = "counted rows"
    if not rows.good.any():
        raise Mistake(f"{path} has no row that can be used, {_why_none(rows, number)}")
    records = np.zeros(int(rows.good.sum()), STAR)
    records["identity"] = np.asarray(identities)[rows.good].astype(np.uint32)
    for axis, component in zip("xyz", directions):
        records[axis] = component[rows.good]
    records["magnitude"] = magnitudes[rows.good]
    order = np.argsort(records["identity"], kind="stable")
    lines: dict[int, list[int]] = {}
    for identity, line in zip(records["identity"].tolist(), table.lines[rows.good].tolist()):
        lines.setdefault(identity, []).append(line)
    common = commonnames.of_list(table, rows.good, identities)
    return Selection(
        records[order], rows.left_out(), {key: names[key] for key in GUESSES}, notes, lines, common
    )


def _why_none(rows: _Rows, number: bool) -> str:
    """Of a list with no good row what the rows lack."""
    told = "; ".join(rows.left_out())
    hint = "; --number counts the rows instead" if "identity" in told and not number else ""
    return f"with identity, place and magnitude: {told}{hint}"


def select(
    selection: Selection,
    limit: float | None = None,
    around: Sequence[float] | None = None,
    within: float | None = None,
    night: Night | None = None,
    even: Even | None = None,
    brightest: int | None = None,
    camera: Settings = Settings(),
) -> Selection:
    """Keeps the stars up to a magnitude, near a place, seen in a night, and of these an even choice
    or the brightest.

    Without K and R an even choice is `evenly.choose`, which takes them from the camera.
    """
    if limit is not None:
        bright = selection.records["magnitude"] <= _thousandth(limit)
        selection = _kept(selection, bright, f"fainter than {limit:g}")
    if around is not None:
        apart = places(selection.records).separation(SkyCoord(*around, unit=u.deg))
        selection = _kept(selection, apart <= within * u.deg, f"farther than {within:g} degrees")
    if night is not None:
        ever = seen(night, vectors(selection.records), half_diagonal(camera))
        notes = () if camera.focal else (NO_LENS,)
        selection = _kept(selection, ever, "never in a frame of that night", *notes)
    if even is not None:
        selection = _evenly(selection, even, camera)
    if brightest is not None:
        among = _among_brightest(selection.records, brightest)
        selection = _kept(selection, among, f"not among the {brightest} brightest")
    return selection


def _kept(selection: Selection, wanted: Flags, reason: str, *notes: str) -> Selection:
    """The wanted records; what is left out is counted under the reason."""
    left_out = dict(selection.left_out)
    if not np.all(wanted):
        left_out[reason] = int((~wanted).sum())
    records, notes = selection.records[wanted], (*selection.notes, *notes)
    return replace(selection, records=records, left_out=left_out, notes=notes)


def _evenly(selection: Selection, even: Even, camera: Settings) -> Selection:
    """An even choice, by K and R or by the camera, of the brightest that it looks at."""
    among = _among_brightest(selection.records, evenly.LOOKED_AT)
    reason = f"not among the {evenly.LOOKED_AT} brightest that --even looks at"
    selection = _kept(selection, among, reason)
    count, radius = evenly.choose(selection.records, camera) if callable(even) else even
    reason = f"{count} brighter ones or more within {radius:g} degrees"
    note = f"even: each has fewer than {count} brighter ones within {radius:g} degrees"
    return _kept(selection, evenly.even(selection.records, count, radius), reason, note)


def _among_brightest(records: Records, count: int) -> Flags:
    """Which records are among so many brightest."""
    return np.argsort(np.argsort(records["magnitude"], kind="stable")) < count


def keep_apart(selection: Selection, apart: float, limit: float | None = None) -> Selection:
    """Takes close pairs out by the library's cut: with closeness 10^18 x cos(apart), both stars of
    a pair go.
    """
    closeness = int(round(float(UNIT) ** 2 * np.cos(np.deg2rad(apart))))
    faintest = np.iinfo(np.int32).max if limit is None else _thousandth(limit)
    lent = np.frombuffer(bytearray(selection.records.tobytes()), np.uint8)
    kept = library.cut(lent, faintest, closeness)
    gone = len(selection.records) - kept
    left_out = dict(selection.left_out)
    if gone:
        left_out[f"closer than {apart:g} degrees to another"] = gone
    return replace(
        selection, records=lent[: kept * STAR.itemsize].view(STAR).copy(), left_out=left_out
    )


def convert(
    path: Where,
    folder: Where,
    columns: Sequence[str] | None = None,
    number: bool = False,
    apart: float | None = None,
    hours: bool | None = None,
    names: bool = False,
    force: bool = False,
    **which: Any,
) -> Selection:
    """Writes a star list's catalogue into a folder; hands back what was chosen and left out."""
    listed = read_stars(path, columns, number, hours)
    if names:
        commonnames.check(listed.names, path)
    selection = select(listed, camera=settings_or_none(folder), **which)
    try:
        library.check_catalogue(selection.records.tobytes())
        if apart is not None:
            selection = keep_apart(selection, apart, which.get("limit"))
        library.check_catalogue(selection.records.tobytes())
    except Refused as refusal:
        raise refusal.with_note(_about(refusal, selection)) from refusal
    files = {"catalogue.bin": selection.records.tobytes()}
    if names:
        files |= commonnames.file_of(selection.names or {}, selection.records["identity"].tolist())
    region = Region(which.get("around"), which.get("within"), which.get("night"))
    gone = () if names else (commonnames.NAME,)
    write_folder(
        folder, files, "catalogue", ("catalogue",), force, {"region": region.as_dict()}, gone
    )
    return selection


def places(records: Records) -> SkyCoord:
    """The records' places on the sky."""
    return SkyCoord(
        *(records[axis].astype(float) / UNIT for axis in "xyz"), representation_type="cartesian"
    )


def _about(refusal: Refused, selection: Selection) -> str:
    """What to look at, for a refusal met with these records."""
    if refusal.number == 7:
        star = selection.records[refusal.place]
        lines = selection.lines.get(int(star["identity"]), [])
        twice = (
            f"is given {len(lines)} times; identities must differ"
            if len(lines) > 1
            else f"has magnitude {star['magnitude'] / MAGNITUDE:g}"
        )
        return f"the star of identity {star['identity']}, {_lines(lines)}, {twice}"
    if refusal.number == 21:
        return (
            f"of {len(selection.records)} stars each has another that is closer; a smaller --apart"
            " keeps more"
        )
    return (
        f"{len(selection.records)} stars were chosen, and a catalogue has 1 to 512; --limit,"
        " --around, --site, --even and --brightest choose"
    )


def _join_parts(table: Columns) -> None:
    """Right ascension and declination of lists that have a column for each part of them."""
    known = {name.lower(): name for name in reversed(table.names)}
    for key, parts in PARTS.items():
        if key not in known and all(part in known for part in parts):
            columns = [table.values[known[part]] for part in parts]
            table.values[key] = np.array([_joined(cells) for cells in zip(*columns)])
            table.missing[key] = np.any([table.missing[known[part]] for part in parts], axis=0)
            table.units[key] = None


def _joined(cells: Iterable[Any]) -> str:
    """The parts of a place as text; a sign has a column of its own."""
    words = [cell.strip() if isinstance(cell, str) else f"{cell:g}" for cell in cells]
    sign = words.pop(0) if words[0] in ("+", "-") else ""
    return sign + ":".join(words)


def _column_names(table: Columns, columns: Sequence[str] | None, number: bool) -> dict[str, str]:
    """Which column holds what: as said, else the first of the usual names."""
    wanted = [key for key in GUESSES if not (number and key == "identity")]
    if columns:
        if len(columns) != len(wanted):
            raise Mistake(f"--columns wants {len(wanted)} names: {', '.join(wanted)}")
        names = dict(zip(wanted, columns))
        missing = [name for name in columns if name not in table.names]
        if missing:
            raise Mistake(f"no column {', '.join(missing)}; there are {', '.join(table.names)}")
        return names
    known = {name.lower(): name for name in reversed(table.names)}
    # The first of the usual names is the last to be put there, and stays.
    names = {
        key: known[guess] for key in wanted for guess in reversed(GUESSES[key]) if guess in known
    }
    lacking = [key for key in wanted if key not in names]
    if lacking:
        raise Mistake(
            f"no column found for {', '.join(lacking)}; name them with --columns, of"
            f" {', '.join(table.names)}"
        )
    return names


def _numbers(values: NDArray[Any]) -> Floats:
    """A column as numbers; what is none is nan."""
    if np.issubdtype(values.dtype, np.number):
        return values.astype(float)
    return np.array([as_number(str(cell)) for cell in values], float)


def _identities(values: NDArray[Any], rows: _Rows) -> Floats:
    """Identities as whole numbers of 4 bytes."""
    numbers = _numbers(values)
    with np.errstate(invalid="ignore"):
        rows.drop(
            ~(
                (numbers == np.floor(numbers))
                & (numbers >= 0)
                & (numbers <= np.iinfo(np.uint32).max)
            ),
            "the identity is no whole number of 4 bytes",
        )
    return np.where(rows.good, numbers, 0)


def _directions(
    table: Columns, names: Mapping[str, str], hours: bool | None, rows: _Rows
) -> tuple[list[Numbers], tuple[str, ...]]:
    """Unit vectors times 10^9, by axis, and what there is to tell.

    Text is hours and degrees; numbers have their column's unit, else they are degrees.
    """
    ra, hourly, notes = _angles(table, names["ra"], rows, _hours(table, names["ra"], hours, rows))
    dec, _, _ = _angles(table, names["dec"], rows, False)
    with np.errstate(invalid="ignore"):
        rows.drop(
            ~((dec >= -90) & (dec <= 90)), "the declination cannot be read as -90 to 90 degrees"
        )
        rows.drop(
            ~((ra >= -360) & (ra <= 360)),
            (
                "the right ascension cannot be read as"
                f" {'0 to 24 hours' if hourly else '0 to 360 degrees'}"
            ),
        )
    ra, dec = np.deg2rad(np.where(rows.good, ra, 0)), np.deg2rad(np.where(rows.good, dec, 0))
    axes = np.cos(dec) * np.cos(ra), np.cos(dec) * np.sin(ra), np.sin(dec)
    return [np.rint(axis * UNIT).astype(np.int64) for axis in axes], notes


def _angles(
    table: Columns, name: str, rows: _Rows, hourly: bool
) -> tuple[Floats, bool, tuple[str, ...]]:
    """A column in degrees, whether it was in hours, and a word about that."""
    values, unit = table.values[name], table.units[name]
    if not np.issubdtype(values.dtype, np.number):
        return _text_angles(values, u.hourangle if hourly else u.deg, rows), hourly, ()
    if unit is None and name.lower() in ("rarad", "decrad", "derad"):
        unit = u.rad
    if unit is None:
        return (
            values.astype(float) * (15.0 if hourly else 1.0),
            bool(hourly),
            ("right ascensions are hours",) if hourly else (),
        )
    try:
        return (values.astype(float) * unit).to_value(u.deg), unit == u.hourangle, ()
    except u.UnitsError as error:
        raise Mistake(f"the unit of {name}, {unit}, is no angle") from error


def _text_angles(values: NDArray[Any], unit: u.Unit, rows: _Rows) -> Floats:
    """Text such as 05:35:17.3 or -5 23 28 in degrees; what cannot be read is nan."""

    def read(cell: Any) -> float:
        try:
            return Angle(str(cell), unit=unit).to_value(u.deg)
        except (ValueError, TypeError, u.UnitsError):
            return np.nan

    try:
        return Angle(
            [str(cell) if good else "0" for cell, good in zip(values, rows.good)], unit=unit
        ).to_value(u.deg)
    except (ValueError, TypeError, u.UnitsError):
        return np.array([read(cell) for cell in values], float)


def _hours(table: Columns, name: str, hours: bool | None, rows: _Rows) -> bool:
    """Whether right ascensions are hours: as said, as the unit or the name has it, or as HYG's
    radians beside them show; else it is asked.
    """
    values = table.values[name]
    if not np.issubdtype(values.dtype, np.number):
        return True
    if (
        hours is not None
        or table.units[name] is not None
        or "deg" in name.lower()
        or "rad" in name.lower()
    ):
        return bool(hours)
    good = rows.good & np.isfinite(values.astype(float))
    seen = values[good].astype(float)
    radians = next((table.values[other] for other in table.names if other.lower() == "rarad"), None)
    if radians is not None and len(seen):
        return bool(np.allclose(np.rad2deg(_numbers(radians)[good]), 15 * seen, atol=0.01))
    if len(seen) > 1 and seen.min() >= 0 and seen.max() < 24:
        raise Mistake(
            f"the right ascensions go from {seen.min():g} to {seen.max():g}: hours, or degrees?"
            " --hours or --degrees says it"
        )
    return False


def _magnitudes(values: NDArray[Any], rows: _Rows) -> Numbers:
    """Magnitudes in thousandths, the nearest whole number; others than a record may have are left
    out.
    """
    thousandths = np.rint(_numbers(values) * MAGNITUDE)
    rows.drop(np.isnan(thousandths), "the magnitude is no number")
    rows.drop(thousandths > FAINTEST, f"a magnitude out of range, above {FAINTEST // MAGNITUDE}")
    rows.drop(thousandths < BRIGHTEST, f"a magnitude out of range, below {BRIGHTEST // MAGNITUDE}")
    return np.where(rows.good, thousandths, 0).astype(np.int64)


def _thousandth(magnitude: float) -> int:
    return int(round(magnitude * MAGNITUDE))
