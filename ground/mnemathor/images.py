"""Images from files: FITS by astropy, .npy by numpy, all others (PNG, TIFF, PGM) by Pillow.

What the file does not settle is asked for, not guessed.
"""

from __future__ import annotations

import warnings
from collections.abc import Callable
from dataclasses import dataclass, replace
from pathlib import Path
from typing import Any

import numpy as np
from astropy.io import fits
from astropy.utils.exceptions import AstropyWarning
from numpy.typing import NDArray
from PIL import Image as Pillow

from .arrays import Where
from .refusals import Mistake

FITS_ENDINGS = (".fits", ".fit", ".fts", ".fz")
# Whole numbers of more bits than a camera has say nothing about the largest value that it could
# give.
CAMERA_BITS = 16


@dataclass(frozen=True)
class Image:
    """Values by row and column from the top left; `full` is one more than the largest value of the
    file's kind, or None.
    """

    values: NDArray[Any]
    full: float | None
    notes: tuple[str, ...] = ()


def read_image(path: Where, hdu: int | None = None, plane: int | None = None) -> Image:
    """The image in a file, whichever of the known kinds it has; of several planes or units the one
    that is asked for.
    """
    path = Path(path)
    if path.is_dir():
        raise Mistake(f"{path} is a folder; the image comes first, the folder second")
    if not path.is_file():
        raise Mistake(f"{path} is not a file")
    try:
        if is_fits(path):
            return _with_warnings(_read_fits, path, hdu, plane)
        if path.suffix.lower() == ".npy":
            return _plane(np.load(path, allow_pickle=False), path, plane)
        return _read_picture(path, plane)
    except (
        OSError,
        ValueError,
        SyntaxError,
        KeyError,
        IndexError,
        Pillow.DecompressionBombError,
    ) as error:
        raise Mistake(f"{path} cannot be read as an image: {error}") from error


def full_scale(kind: np.dtype[Any]) -> int | None:
    """One more than the largest value of a whole-number type; None for floats and wide numbers,
    whose largest says nothing.
    """
    return (
        int(np.iinfo(kind).max) + 1
        if np.issubdtype(kind, np.integer) and np.iinfo(kind).bits <= CAMERA_BITS
        else None
    )


def _with_warnings(read: Callable[..., Image], *arguments: Any) -> Image:
    """Reads an image; what astropy warns of goes into its notes."""
    with warnings.catch_warnings(record=True) as told:
        warnings.simplefilter("always", AstropyWarning)
        image = read(*arguments)
    return replace(
        image,
        notes=image.notes
        + tuple(f"astropy warns: {str(each.message).split(chr(10))[0]}" for each in told),
    )


def is_fits(path: Path) -> bool:
    """Whether a file's ending is one of FITS, packed or not."""
    endings = [ending.lower() for ending in path.suffixes if ending.lower() not in (".gz", ".bz2")]
    return bool(endings) and endings[-1] in FITS_ENDINGS


def _read_fits(path: Path, hdu: int | None, plane: int | None) -> Image:
    """The one image of a FITS file, or the one asked for.

    FITS has the bottom row first, unless ROWORDER says otherwise.
    """
    with fits.open(path, memmap=False) as units:
        pictures = [
            k for k, unit in enumerate(units) if unit.is_image and unit.header.get("NAXIS", 0) >= 2
        ]
        if not pictures:
            raise Mistake(f"{path} has no image")
        sizes = ", ".join(f"{k} ({' x '.join(map(str, units[k].shape[::-1]))})" for k in pictures)
        if hdu is None and len(pictures) > 1:
            raise Mistake(f"{path} has several images; --hdu says which unit: {sizes}")
        number = pictures[0] if hdu is None else hdu
        if number not in pictures:
            raise Mistake(f"{path} has no image in unit {number}; the units with one: {sizes}")
        header = units[number].header
        image = _plane(np.asarray(units[number].data), path, plane)
    if str(header.get("ROWORDER", "")).strip().upper() == "TOP-DOWN":
        return replace(image, notes=(*image.notes, "rows from the top, as ROWORDER says"))
    return replace(
        image, values=image.values[::-1], notes=(*image.notes, "FITS rows go from the bottom up")
    )


def _read_picture(path: Path, plane: int | None) -> Image:
    """A picture that Pillow reads: a grey one as it is, the channels of a coloured one averaged."""
    with Pillow.open(path) as picture:
        if _deep_colours(path, picture):
            raise Mistake(
                f"{path} has 16 bits a colour, of which 8 would be read; save it as FITS, or in"
                " grey"
            )
        if getattr(picture, "n_frames", 1) > 1:
            raise Mistake(f"{path} has {picture.n_frames} pictures; one is wanted")
        # Pillow hands 16-bit PNG and PGM over in 32 bits, stretched to 16.
        wide = picture.mode == "I" and picture.format in ("PNG", "PPM")
        if picture.mode in ("1", "P", "PA", "LA", "La"):
            picture = picture.convert("L")
        elif picture.mode in ("RGBA", "RGBX", "RGBa", "CMYK", "YCbCr", "LAB", "HSV"):
            picture = picture.convert("RGB")
        values = np.asarray(picture)
    if values.ndim == 3 and plane is None:
        return Image(
            values.mean(axis=2),
            full_scale(values.dtype),
            ("the mean of the colours; --plane 0, 1 or 2 takes one",),
        )
    image = _plane(np.moveaxis(values, 2, 0) if values.ndim == 3 else values, path, plane)
    return replace(image, full=65536) if wide else image


def _deep_colours(path: Path, picture: Any) -> bool:
    """Whether a picture has more than 8 bits a colour, which Pillow would cut off silently."""
    if picture.format == "PNG":
        with open(path, "rb") as file:
            head = file.read(26)
        return head[24] == 16 and head[25] in (2, 4, 6)
    if picture.format == "TIFF":
        return (
            picture.mode != "I;16"
            and len(picture.tag_v2.get(258, ())) > 1
            and max(picture.tag_v2[258]) > 8
        )
    if picture.format == "PPM" and picture.mode == "RGB":
        with open(path, "rb") as file:
            words = [
                word
                for line in file.read(1024).split(b"\n")
                for word in line.partition(b"#")[0].split()
            ]
        return int(words[3]) > 255
    return False


def _plane(values: NDArray[Any], path: Path, plane: int | None = None) -> Image:
    """The one plane of an array of numbers, or the one asked for, counted from 0."""
    if values.dtype == bool or not (
        np.issubdtype(values.dtype, np.integer) or np.issubdtype(values.dtype, np.floating)
    ):
        raise Mistake(f"{path} holds {values.dtype}, not numbers")
    flat = values.reshape([side for side in values.shape if side != 1] or [1])
    if flat.ndim == 3 and plane is not None:
        # The planes come first, or last where they are the colours of a picture.
        planes = flat if flat.shape[2] > 4 or flat.shape[0] <= 4 else np.moveaxis(flat, 2, 0)
        if plane >= len(planes):
            raise Mistake(
                f"{path} has {len(planes)} planes, counted from 0; there is no plane {plane}"
            )
        return Image(planes[plane], full_scale(values.dtype), (f"plane {plane} of {len(planes)}",))
    if flat.ndim != 2:
        raise Mistake(
            f"{path} holds an array of {' x '.join(map(str, values.shape))}, not one image; --plane"
            " takes one of three dimensions"
        )
    return Image(flat, full_scale(flat.dtype))
