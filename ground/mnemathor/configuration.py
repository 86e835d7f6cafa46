"""Settings as a TOML file that people write, and back."""

from __future__ import annotations

import math
import tomllib
from collections.abc import Callable, Mapping
from dataclasses import replace
from pathlib import Path
from typing import Any

import numpy as np
from astropy import units as u
from astropy.coordinates import Angle

from . import library
from .arrays import Where
from .folder import PIXEL, RANGES, UNIT, Settings, read_settings, settings_bytes, settings_or_none
from .keeping import record_of, text_mark, write_file, write_folder
from .refusals import Mistake, Refused

KEYS = {"width", "height", "threshold", "needed", "tolerance", "centre", "lens", "binning"}
# The largest tolerance.
MOST_TOLERANT = 10**16
# Which numbers each refusal of the settings is about.
ABOUT = {
    1: ("width", "height"),
    3: ("threshold",),
    5: ("cx", "cy"),
    9: ("needed", "tolerance"),
    19: ("focal",),
}


def tolerance_of(angle: u.Quantity, separation: u.Quantity) -> int:
    """The tolerance for an angle at a separation: 10^18 x |cos(separation + angle) -
    cos(separation)|, rounded.

    Two directions that far apart have the dot product 10^18 x cos(separation); it changes by this
    when they are that angle farther apart.
    """
    middle, half = (separation + angle / 2).to_value(u.rad), (angle / 2).to_value(u.rad)
    # The difference of the two cosines as a product, which loses nothing for small angles.
    return int(round(abs(2 * np.sin(middle) * np.sin(half)) * float(UNIT) ** 2))


def angle_of(tolerance: int, separation: u.Quantity) -> Angle:
    """The angle that a tolerance allows two directions of that separation to be farther apart."""
    cosine = np.cos(separation.to_value(u.rad)) - tolerance / float(UNIT) ** 2
    return Angle(np.arccos(np.clip(cosine, -1, 1)) * u.rad - separation).to(u.arcsec)


def covering_tolerance(focal: int, pixels: float) -> int:
    """The tolerance with which every true pair agrees, in any field, where each position is off by
    at most so many pixels.

    This is the law of truth/specs/Sure: off by at most p/256 pixel a direction's numbers are off by
    at most e, 3 x 10^9 p / F + 3, and 6 x 10^9 e + 3 e^2 covers that. What lens and catalogue are
    off without any error of measurement comes on top.
    """
    moved = 3 * UNIT * math.ceil(PIXEL * pixels) // focal + 3
    return 6 * UNIT * moved + 3 * moved**2


def read_toml(path: Where, before: Settings = Settings(), binning: int = 1) -> Settings:
    """The settings in a TOML file; size and centre may be left out, and are then those of `before`,
    and so may how the frame was binned.
    """
    if Path(path).exists() and not Path(path).is_file():
        raise Mistake(f"{path} is not a file")
    try:
        told = tomllib.loads(Path(path).read_text(encoding="utf-8-sig"))
    except (OSError, UnicodeDecodeError, tomllib.TOMLDecodeError) as error:
        raise Mistake(f"{path} cannot be read: {error}") from error
    strange = set(told) - KEYS
    if strange:
        raise Mistake(
            f"{path}: unknown {', '.join(sorted(strange))}; known are {', '.join(sorted(KEYS))}"
        )
    missing = {"threshold", "needed", "tolerance", "lens"} - set(told)
    if missing:
        raise Mistake(f"{path}: {', '.join(sorted(missing))} missing")
    settings = before.of_size(
        _whole(told, "width", before.width), _whole(told, "height", before.height)
    )
    settings = _with_centre(settings, told.get("centre"))
    return replace(
        settings,
        threshold=_whole(told, "threshold"),
        needed=_whole(told, "needed"),
        tolerance=_tolerance(told["tolerance"]),
        focal=_focal(told["lens"], _whole(told, "binning", binning)),
    )


def pixel_angle(settings: Settings) -> u.Quantity:
    """The angle of one pixel in the frame's middle."""
    return np.arctan(PIXEL / settings.focal) * u.rad


def field(settings: Settings) -> list[u.Quantity]:
    """The angles of the frame's width and height."""
    return [
        2 * np.arctan(side * PIXEL / (2 * settings.focal)) * u.rad
        for side in (settings.width, settings.height)
    ]


def _lens_in_words(settings: Settings) -> str:
    if not settings.focal:
        return "no lens yet"
    wide, tall = (angle.to_value(u.deg) for angle in field(settings))
    return (
        f"{pixel_angle(settings).to_value(u.arcsec):.1f} arc seconds a pixel in the middle; the"
        f" field is {wide:.2f} x {tall:.2f} degrees"
    )


def toml_of(settings: Settings) -> str:
    """The same settings as a TOML file; the lens in pixels, exact as settings.bin has it."""
    meanings = [
        f"{angle_of(settings.tolerance, degrees * u.deg).value:.1f} arc seconds at"
        f" {degrees} degrees"
        for degrees in (2, 5, 10)
    ]
    return "\n".join(
        [
            f"# {_lens_in_words(settings)}",
            f"width = {settings.width}",
            f"height = {settings.height}",
            f"threshold = {settings.threshold}",
            f"needed = {settings.needed}",
            f"tolerance = {settings.tolerance}  # {', '.join(meanings)}",
            (
                f"centre = [{settings.cx / PIXEL!r}, {settings.cy / PIXEL!r}]  # column and row, in"
                " pixels"
            ),
            "binning = 1  # the lens is in the frame's own pixels",
            "",
            "[lens]",
            f"pixels = {settings.focal / PIXEL!r}",
            "",
        ]
    )


def check(settings: Settings) -> None:
    """Lets the library judge the settings, with a dark frame of their size and a catalogue of one
    star.

    Such a call is refused in the end, for want of stars; any earlier refusal is about the settings.
    """
    try:
        library.list_stars(np.zeros(0, np.uint16), settings)
    except Refused as refusal:
        if refusal.number != 2:
            raise refusal.with_note(about(refusal.number, settings)) from refusal
    dark = np.zeros((settings.height, settings.width), np.uint16)
    try:
        library.chain(dark, settings, library.one_star())
    except Refused as refusal:
        if refusal.number != 12:
            raise refusal.with_note(about(refusal.number, settings)) from refusal


def convert(path: Where, folder: Where, force: bool = False) -> tuple[Settings, int]:
    """Writes a TOML file's settings into a folder; hands them back, with how the folder's frame is
    binned.
    """
    binning = record_of(folder, "frame.bin").get("binning", 1)
    settings = read_toml(path, settings_or_none(folder), binning)
    contents = settings_bytes(settings)
    check(settings)
    write_folder(folder, {"settings.bin": contents}, "settings", force=force)
    return settings, binning


def about(number: int, settings: Settings) -> str | None:
    """The values that a refusal of settings is about, and what they may be; None for a refusal of
    something else.
    """
    told = "; ".join(
        f"{name} is {getattr(settings, name)}, and must be {RANGES[name]}"
        for name in ABOUT.get(number, ())
    )
    return (
        f"{told}; the file may name them, else they are the folder's frame's"
        if number == 1
        else told or None
    )


def convert_back(folder: Where, path: Where, force: bool = False) -> Settings:
    """Writes a folder's settings as a TOML file; hands them back.

    Its first line has a mark of the others, so that a change by hand shows.
    """
    settings = read_settings(folder)
    text = toml_of(settings).encode()
    write_file(
        path,
        b"# Made by mnemathor settings, and overwritten by it unless a line is changed: "
        + text_mark(text)
        + b"\n"
        + text,
        force,
    )
    return settings


def _whole(told: Mapping[str, Any], key: str, otherwise: int | None = None) -> int:
    number = told.get(key, otherwise)
    if not isinstance(number, int) or isinstance(number, bool):
        raise Mistake(f"{key} must be a whole number, not {number!r}")
    return number


def _with_centre(settings: Settings, centre: Any) -> Settings:
    """The centre as column and row in pixels, to the nearest 1/256."""
    if centre is None:
        return settings
    if (
        not isinstance(centre, list)
        or len(centre) != 2
        or not all(_is_number(part) and abs(part) < 2**31 for part in centre)
    ):
        raise Mistake(f"centre must be column and row in pixels, [79.5, 59.5], not {centre!r}")
    return replace(settings, cx=round(centre[0] * PIXEL), cy=round(centre[1] * PIXEL))


def _tolerance(told: Any) -> int:
    """A whole number, or a table of angle and separation, such as "40 arcsec" and "10 deg"."""
    if isinstance(told, dict):
        if set(told) != {"angle", "separation"}:
            raise Mistake(
                'tolerance wants angle and separation, as { angle = "40 arcsec", separation = "10'
                ' deg" }'
            )
        return tolerance_of(*(_angle(told[key], key) for key in ("angle", "separation")))
    return _whole({"tolerance": told}, "tolerance")


def _angle(told: Any, key: str) -> Angle:
    try:
        angle = Angle(told)
        if not np.isfinite(angle.value):
            raise ValueError("not finite")
        return angle
    except (ValueError, TypeError, u.UnitsError) as error:
        raise Mistake(
            f'tolerance: {key} must be an angle with its unit, as "40 arcsec", not {told!r}'
        ) from error


def _focal(told: Any, binning: int) -> int:
    """The whole focal length, from either form of the lens plate, by the library; a pixel of the
    frame is `binning` pixels of the plate wide.
    """
    if binning < 1:
        raise Mistake(f"binning must be at least 1, not {binning}")
    if isinstance(told, dict) and all(_is_number(part) for part in told.values()):
        if set(told) == {"pixels"}:
            return _judged(library.focal_of_pixels, told, told["pixels"] / binning)
        if set(told) == {"millimetres", "micrometres"}:
            return _judged(
                library.focal_of_millimetres,
                told,
                told["millimetres"],
                told["micrometres"] * binning,
            )
    raise Mistake(
        "lens wants { pixels = 64.0 }, or { millimetres = 12.0, micrometres = 7.5 } for focal"
        " length and pixel pitch"
    )


def _judged(focal: Callable[..., int], told: Mapping[str, float], *plate: float) -> int:
    """The focal length of a plate; a refusal says in pixels what the plate comes to."""
    try:
        return focal(*plate)
    except Refused as refusal:
        pixels = (
            plate[0]
            if len(plate) == 1
            else 1000 * plate[0] / plate[1] if plate[1] else float("nan")
        )
        given = ", ".join(f"{name} = {value:g}" for name, value in told.items())
        raise refusal.with_note(
            f"{given} is a focal length of {pixels:g} pixels, and q, the focal length in pixels,"
            " must be 64 to 16,384"
        ) from refusal


def _is_number(part: Any) -> bool:
    return isinstance(part, (int, float)) and not isinstance(part, bool) and abs(part) < 1e300
