"""The frames of a night as files: named one by one, all of a folder, or a folder in which they
arrive.
"""

from __future__ import annotations

import time
import warnings
from collections.abc import Iterable, Iterator
from pathlib import Path
from typing import Any

from astropy.io import fits
from astropy.utils.exceptions import AstropyWarning

from .arrays import Where
from .following import Taken, now
from .frames import make_frame
from .images import is_fits
from .refusals import Mistake

ENDINGS = (".fits", ".fit", ".fts", ".fz", ".png", ".tif", ".tiff", ".pgm", ".npy")
# A file that cannot be read is waited for as long as it changed within so many seconds.
PATIENCE = 10.0


def listed(words: Iterable[Where], order: str = "name") -> list[tuple[str, Path]]:
    """Name and path of each frame, in order; frames of a folder are called by their file's name,
    others as they were given.
    """
    found = []
    for word in map(Path, words):
        found += (
            [(path.name, path) for path in images(word)] if word.is_dir() else [(str(word), word)]
        )
    names = [name for name, _ in found]
    twice = (
        sorted({name for name in names if names.count(name) > 1})
        if len(set(names)) < len(names)
        else []
    )
    if twice:
        raise Mistake(f"two frames are called {twice[0]}")
    if order == "date":
        found.sort(key=lambda each: (taken_at(each[1]), each[0]))
    return found


def images(folder: Path) -> list[Path]:
    """The image files of a folder by name; hidden ones are somebody's half-written files."""
    return sorted(
        path
        for path in folder.iterdir()
        if path.suffix.lower() in ENDINGS and not path.name.startswith(".")
    )


def taken_at(path: Path) -> str:
    """When a frame was taken: its DATE-OBS, else when the file was last changed."""
    told = _date_of(path) if is_fits(path) else None
    try:
        return told or now(path.stat().st_mtime)
    except OSError:
        return ""


def _date_of(path: Path) -> str | None:
    """DATE-OBS of a FITS file's first header, or None."""
    try:
        with warnings.catch_warnings():
            warnings.simplefilter("ignore", AstropyWarning)
            told = fits.getheader(path).get("DATE-OBS")
    except Exception:  # a damaged header raises many kinds, and reading the frame will tell
        return None
    return str(told) if told else None


def read(name: str, path: Path, how: dict[str, Any]) -> Taken:
    """One frame: name, time, samples, and what was wrong with the file."""
    when = taken_at(path)
    try:
        return name, when, make_frame(path, **how).samples, None
    except Exception as error:  # a damaged file raises many kinds, and is a line of the log
        return name, when, None, (str(error).strip().splitlines() or [type(error).__name__])[0]


def watched(
    folder: Where, how: dict[str, Any], done: set[str], poll: float, idle: float | None = None
) -> Iterator[Taken]:
    """The frames of a folder as they arrive.

    A file is taken once it has been the same at two looks and can be read, or has not changed for a
    while.

    It ends after `idle` seconds without a new frame, or never; what still cannot be read then is
    handed over as it is.
    """
    before: dict[Path, tuple[int, int] | None] = {}
    last = time.monotonic()
    while True:
        ending = idle is not None and time.monotonic() - last > idle
        looks = {path: _look(path) for path in images(Path(folder)) if path.name not in done}
        for path, look in looks.items():
            if not ending and (look is None or look[0] == 0 or before.get(path) != look):
                continue
            frame = read(path.name, path, how)
            if (
                frame[2] is None
                and look is not None
                and not ending
                and time.time() - look[1] / 1e9 < PATIENCE
            ):
                continue
            done.add(path.name)
            last = time.monotonic()
            yield frame
        if ending:
            return
        before = looks
        time.sleep(poll)


def _look(path: Path) -> tuple[int, int] | None:
    """A file's size and time of change, or None where it is gone."""
    try:
        status = path.stat()
    except OSError:
        return None
    return status.st_size, status.st_mtime_ns
