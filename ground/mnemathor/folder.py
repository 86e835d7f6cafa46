"""The camera's folder: settings.bin, catalogue.bin and frame.bin, by numpy."""

from __future__ import annotations

from dataclasses import dataclass, replace
from pathlib import Path
from typing import Any

import numpy as np
from numpy.typing import NDArray

from .arrays import Records, Samples, Where
from .refusals import Mistake

# The most that a file of a folder can sensibly have: far more than a frame of 1,024 x 1,024.
MOST_BYTES = 2**26

SETTINGS = np.dtype(
    [(name, ">u2") for name in ("width", "height", "threshold", "needed")]
    + [(name, ">u4") for name in ("cx", "cy", "focal", "spare")]
    + [("tolerance", ">u8")]
)
STAR = np.dtype(
    [("identity", ">u4"), ("x", ">i4"), ("y", ">i4"), ("z", ">i4"), ("magnitude", ">i4")]
)
SAMPLE = np.dtype(">u2")

# Positions and lengths in the files are in 1/256 pixel, directions have the length 10^9, magnitudes
# are in thousandths.
PIXEL = 256
UNIT = 10**9
MAGNITUDE = 1000
# The camera has 12 bits a sample.
LEVELS = 4096


# What each number may be, as people say it; the library judges.
RANGES = {
    "width": "7 to 1,024 pixels",
    "height": "7 to 1,024 pixels",
    "threshold": "1 to 4,095",
    "needed": "3 to 8",
    "cx": "0 to 261,888 in 1/256 pixel, that is column 0 to 1,023",
    "cy": "0 to 261,888 in 1/256 pixel, that is row 0 to 1,023",
    "focal": "16,384 to 4,194,304 in 1/256 pixel, that is 64 to 16,384 pixels",
    "tolerance": "0 to 10,000,000,000,000,000",
}


@dataclass(frozen=True)
class Settings:
    """settings.bin in the file's own numbers: centre and focal length in 1/256 pixel."""

    width: int = 0
    height: int = 0
    threshold: int = 0
    needed: int = 0
    cx: int = 0
    cy: int = 0
    focal: int = 0
    tolerance: int = 0

    @property
    def centred(self) -> bool:
        """Whether the centre is the frame's middle, as it is unless it was calibrated."""
        return (self.cx, self.cy) == _middle(self.width, self.height)

    def of_size(self, width: int, height: int) -> Settings:
        """These settings for a frame of that size; with another size the centre goes to the frame's
        middle.
        """
        if (width, height) == (self.width, self.height):
            return self
        cx, cy = _middle(width, height)
        return replace(self, width=width, height=height, cx=cx, cy=cy)


def _middle(width: int, height: int) -> tuple[int, int]:
    return PIXEL * (width - 1) // 2, PIXEL * (height - 1) // 2


def read_settings(folder: Where) -> Settings:
    """The folder's settings."""
    path = Path(folder) / "settings.bin"
    words = _read(path, SETTINGS)
    if len(words) != 1:
        raise Mistake(f"{path} is not {SETTINGS.itemsize} bytes long")
    return Settings(**{name: int(words[0][name]) for name in RANGES})


def settings_or_none(folder: Where) -> Settings:
    """The folder's settings, or zeros where it has none yet."""
    return read_settings(folder) if (Path(folder) / "settings.bin").exists() else Settings()


def settings_bytes(settings: Settings) -> bytes:
    """settings.bin's 32 bytes; a number that its field cannot hold is a mistake."""
    words = np.zeros(1, SETTINGS)
    for name in RANGES:
        number = int(getattr(settings, name))
        if not 0 <= number <= np.iinfo(SETTINGS[name].newbyteorder("=")).max:
            raise Mistake(f"{name} is {number}, and must be {RANGES[name]}")
        words[0][name] = number
    return words.tobytes()


def read_catalogue(folder: Where) -> Records:
    """The records of catalogue.bin, as they stand there."""
    return _read(Path(folder) / "catalogue.bin", STAR)


def read_frame(folder: Where, settings: Settings) -> Samples:
    """The samples of frame.bin as rows and columns, in the machine's own byte order so that they
    can be lent.
    """
    path = Path(folder) / "frame.bin"
    samples = _read(path, SAMPLE)
    if samples.size != settings.width * settings.height:
        raise Mistake(
            f"{path} has {samples.size} samples, the settings say {settings.width} x"
            f" {settings.height}"
        )
    return np.ascontiguousarray(samples.reshape(settings.height, settings.width), dtype=np.uint16)


def _read(path: Path, kind: np.dtype[Any]) -> NDArray[Any]:
    """A file as an array of one kind of record."""
    if path.parent.exists() and not path.parent.is_dir():
        raise Mistake(f"{path.parent} is not a folder")
    if path.exists() and not path.is_file():
        raise Mistake(f"{path} is not a file")
    try:
        if path.stat().st_size > MOST_BYTES:
            raise Mistake(f"{path} has {path.stat().st_size} bytes, far too many")
        contents = path.read_bytes()
    except OSError as error:
        raise Mistake(f"{path}: {error.strerror or error}") from error
    if len(contents) % kind.itemsize:
        raise Mistake(f"{path} has {len(contents)} bytes, no multiple of {kind.itemsize}")
    return np.frombuffer(contents, kind)
