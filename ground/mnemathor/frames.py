"""An image becomes a frame: dark taken off, cut, binned, and brought to the camera's depth of 12
bits.
"""

from __future__ import annotations

from collections.abc import Mapping, Sequence
from dataclasses import dataclass
from functools import lru_cache
from typing import Any

import numpy as np
from astropy.nddata import block_reduce

from . import library
from .arrays import Floats, Samples, Where
from .folder import LEVELS, PIXEL, SAMPLE, Settings, settings_bytes, settings_or_none
from .images import Image, read_image
from .keeping import record_of, write_folder
from .refusals import Mistake, Refused


@dataclass(frozen=True)
class Frame:
    """Samples, and how many pixels had to be clipped to the camera's range."""

    samples: Samples
    negative: int
    clipped: int
    blank: int
    full: float
    notes: tuple[str, ...]


def make_frame(
    path: Where,
    dark: Where | None = None,
    crop: Sequence[int] | None = None,
    binning: int = 1,
    full: float | None = None,
    flip: bool = False,
    mirror: bool = False,
    hdu: int | None = None,
    plane: int | None = None,
) -> Frame:
    """The frame of an image file.

    A value v becomes v x 4096 / full, rounded down; full is 2^bits of the file's unsigned type,
    2^(bits - 1) of a signed one, and has to be said where the file does not settle it: for floats,
    for whole numbers of more than 16 bits, and for 12 bits in words of 16. Below 0 it becomes 0 and
    above 4,095 it becomes 4,095, and both are counted.
    """
    image = read_image(path, hdu, plane)
    scale = _full(path, image) if full is None else full
    if not scale > 0:
        raise Mistake("--full must be above 0")
    values = image.values.astype(float)
    if dark is not None:
        values = values - _dark(dark, values.shape, hdu, plane)
    values = _binned(_cropped(values, crop), binning)
    values = values[:: -1 if flip else 1, :: -1 if mirror else 1]
    return _to_depth(values, scale, image.notes)


def _full(path: Where, image: Image) -> float:
    """One more than the camera's largest value, where the file tells it; else it is asked for."""
    largest = np.max(image.values, initial=0, where=np.isfinite(image.values))
    if image.full is None:
        kind = (
            "floats"
            if np.issubdtype(image.values.dtype, np.floating)
            else "whole numbers of more than 16 bits"
        )
        raise Mistake(
            f"{path} holds {kind}, the largest {largest:g}: say with --full which value would be"
            " just too large for the camera"
        )
    if 0 < largest < LEVELS < image.full:
        raise Mistake(
            f"{path} has room for values below {image.full}, and its largest is {largest:g}: for a"
            f" camera of 12 bits say --full {LEVELS}, for a frame that is as dark as that --full"
            f" {image.full}"
        )
    return image.full


def convert(
    path: Where, folder: Where, force: bool = False, **how: Any
) -> tuple[Frame, Settings, list[str]]:
    """Writes the frame of an image into a folder, with its size in the settings; hands back frame,
    settings and what else is to be told.
    """
    frame = make_frame(path, **how)
    height, width = frame.samples.shape
    before = settings_or_none(folder)
    settings = before.of_size(width, height)
    if before.width and settings != before and not before.centred and not force:
        raise Mistake(
            f"the settings have a centre of their own, column {before.cx / PIXEL:g}, row"
            f" {before.cy / PIXEL:g}, for frames of {before.width} x {before.height}, and this one"
            f" has {width} x {height}; --force puts the centre in the middle"
        )
    _check_size(frame.samples, how)
    binning = how.get("binning", 1)
    notes = _about_binning(
        binning, record_of(folder, "frame.bin").get("binning", binning), settings
    )
    about = {"image": str(path), "binning": binning, "crop": how.get("crop")}
    files = {
        "frame.bin": frame.samples.astype(SAMPLE).tobytes(),
        "settings.bin": settings_bytes(settings),
    }
    write_folder(
        folder,
        files,
        "frame",
        ("frame", "simulate"),
        force,
        about,
        gone=("truth.json",),
        kept=("settings.bin",),
    )
    return frame, settings, notes


def _check_size(samples: Samples, how: Mapping[str, Any]) -> None:
    """Whether the frame can be used at all is the library's to say.

    The highest threshold is the cheapest to ask with.
    """
    height, width = samples.shape
    try:
        library.list_stars(samples, library.with_size(samples, LEVELS - 1))
    except Refused as refusal:
        raise refusal.with_note(
            f"the frame would be {width} x {height}, and sides are 7 to 1,024;"
            f" {_mend(width, height, how)}"
        ) from refusal


def _mend(width: int, height: int, how: Mapping[str, Any]) -> str:
    """What makes a frame of the wrong size a good one."""
    if max(width, height) > 1024:
        return "--bin and --crop make it smaller"
    return (
        "a smaller --bin or a larger --crop makes it larger"
        if how.get("binning", 1) > 1 or how.get("crop")
        else "the image is too small"
    )


def _about_binning(binning: int, before: int, settings: Settings) -> list[str]:
    """What binning does to the lens plate."""
    notes = []
    if binning > 1:
        notes.append(
            f"binned {binning} x {binning}: a pixel of the frame is {binning} pixels of the plate"
            " wide; settings reads that here, and the plate stays as it is"
        )
    if binning != before and settings.focal:
        notes.append(
            f"WARNING: the settings' lens is for frames binned {before} x {before}; run settings"
            " again"
        )
    return notes


@lru_cache(maxsize=1)
def _dark_values(path: Where, hdu: int | None, plane: int | None) -> Floats:
    """A dark image is read once, for however many frames."""
    return read_image(path, hdu, plane).values.astype(float)


def _dark(path: Where, shape: tuple[int, ...], hdu: int | None, plane: int | None) -> Floats:
    dark = _dark_values(path, hdu, plane)
    if dark.shape != shape:
        raise Mistake(
            f"the dark image {path} has {_size(dark.shape)} pixels, the image {_size(shape)}"
        )
    return dark


def _cropped(values: Floats, crop: Sequence[int] | None) -> Floats:
    """The part that starts at a column and row and has that width and height."""
    if crop is None:
        return values
    left, top, width, height = crop
    if (
        min(left, top) < 0
        or min(width, height) < 1
        or top + height > values.shape[0]
        or left + width > values.shape[1]
    ):
        raise Mistake(
            f"--crop {left} {top} {width} {height} is not inside the image of"
            f" {_size(values.shape)} pixels"
        )
    return values[top : top + height, left : left + width]


def _binned(values: Floats, binning: int) -> Floats:
    """Each pixel the mean of binning x binning; rows and columns that are left over are dropped."""
    if not 1 <= binning <= min(values.shape):
        raise Mistake(f"--bin {binning} does not go into an image of {_size(values.shape)} pixels")
    return values if binning == 1 else block_reduce(values, binning, np.mean)


def _to_depth(values: Floats, full: float, notes: tuple[str, ...]) -> Frame:
    """Values as samples; what cannot be one is counted."""
    blank = np.isnan(values)
    levels = np.floor(np.where(blank, 0, values) * (LEVELS / full))
    negative, above = levels < 0, levels >= LEVELS
    samples = np.clip(levels, 0, LEVELS - 1).astype(np.uint16)
    return Frame(samples, int(negative.sum()), int(above.sum()), int(blank.sum()), full, notes)


def _size(shape: tuple[int, ...]) -> str:
    return f"{shape[1]} x {shape[0]}"
