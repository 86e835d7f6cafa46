"""A night that might have been: frames as files, with drift, roll, cloud, a satellite, hot pixels
that come with the cold, a mirrored readout, slews, a look at another field, and damaged files; and
the truth beside them.
"""

from __future__ import annotations

import json
from dataclasses import asdict, dataclass, replace
from pathlib import Path
from typing import Any

import numpy as np
from astropy.io import fits

from .arrays import Records, Samples, Where
from .attitude import Pointing, matrix_of, vectors
from .following import now
from .folder import LEVELS, PIXEL, STAR, UNIT, Settings
from .simulation import Weather, render

# Where the night begins, and by how many degrees the axis and the roll go on from frame to frame.
START, DRIFT, ROLL = Pointing(83.5, -1.0, 350.0), 0.03, 0.02
# The stretches of the night, as parts of it.
CLOUD, SATELLITE, MIRRORED, SLEW, OTHER = (0.2, 0.3), (0.4, 0.45), (0.55, 0.62), 0.75, (0.85, 0.9)
STRETCHES = {"cloud": CLOUD, "satellite": SATELLITE, "mirrored": MIRRORED, "other": OTHER}
# The other field that the gimbal looks at for a while, the brightest of the night; and where a
# catalogue with a twin of it has that twin.
FIELD, TWIN = Pointing(180.0, 56.0, 20.0), Pointing(40.0, -48.0, 200.0)
# So many pixels are hot by the end.
HOT = 6
# By how many degrees the gimbal slews, and the night's first second.
SLEWED, BEGAN = 14.0, 1_790_000_000
# A frame of these in every 40 is damaged: cut short, empty, no image, of another size.
DAMAGES = {13: "short", 17: "empty", 27: "text", 37: "small"}
# What some stretches do to the weather.
SPOILT: dict[str, dict[str, Any]] = {
    "cloud": {"faintest": -3.0, "background": 70.0},
    "mirrored": {"mirror": True},
}


@dataclass(frozen=True)
class Moment:
    """One frame of the night: what it is like, the attitude, and the weather."""

    kind: str
    pointing: Pointing
    weather: Weather


def moment(number: int, frames: int) -> Moment:
    """The frame of that number in a night of so many."""
    part = number / frames
    pointing, weather = _pointing(number, part), Weather(jitter=0.05)
    damage = DAMAGES.get(number % 40)
    if damage:
        return Moment(damage, pointing, weather)
    for kind, (low, high) in STRETCHES.items():
        if low <= part < high:
            return Moment(kind, pointing, replace(weather, **SPOILT.get(kind, {})))
    return Moment("clear", pointing, weather)


def _pointing(number: int, part: float) -> Pointing:
    """Where the camera points: along the night's way, with its slew, or at the other field."""
    if OTHER[0] <= part < OTHER[1]:
        return replace(FIELD, ra=FIELD.ra + DRIFT * number)
    ra = START.ra + DRIFT * number + (SLEWED if part >= SLEW else 0)
    return Pointing(ra, START.dec + DRIFT * number / 2, (START.roll + ROLL * number) % 360)


def twinned(catalogue: Records, settings: Settings) -> Records:
    """A catalogue in which the other field has a twin: its stars once more, turned to a place that
    has no others. An answer there has a rival.
    """
    corner = np.hypot(settings.width, settings.height) * PIXEL / 2 / settings.focal
    near = float(np.cos(1.5 * np.arctan(corner)))
    field, twin, sky = matrix_of(FIELD), matrix_of(TWIN), vectors(catalogue)
    seen, free = catalogue[sky @ field[2] > near].copy(), catalogue[sky @ twin[2] <= near]
    turned = np.rint(vectors(seen) @ field.T @ twin * UNIT).astype(int)
    for place, axis in enumerate("xyz"):
        seen[axis] = turned[:, place]
    seen["identity"] = catalogue["identity"].max() + 1 + np.arange(len(seen))
    return np.concatenate([free, seen], dtype=STAR)


def make(folder: Where, settings: Settings, catalogue: Records, frames: int, seed: int = 0) -> Path:
    """Writes the frames of a night as FITS files into a folder, and truth.jsonl beside it; hands
    back that file.
    """
    folder = Path(folder)
    folder.mkdir(parents=True)
    truth = folder.parent / "truth.jsonl"
    with open(truth, "w", encoding="utf-8") as file:
        for number in range(frames):
            here = moment(number, frames)
            made = render(
                settings,
                catalogue,
                np.random.default_rng((seed, number)),
                here.weather,
                matrix_of(here.pointing),
            )
            name = f"frame-{number:04}.fits"
            samples, hot = _heated(made.samples, number / frames, seed)
            samples = _crossed(samples, number) if here.kind == "satellite" else samples
            _write(folder / name, here.kind, samples, number)
            stars = {star.identity: [star.column, star.row] for star in made.stars}
            told = {"file": name, "kind": here.kind, **asdict(here.pointing)}
            file.write(json.dumps({**told, "stars": stars, "hot": hot}) + "\n")
    return truth


def _heated(samples: Samples, part: float, seed: int) -> tuple[Samples, list[list[int]]]:
    """The frame with its hot pixels, and their rows and columns: always the same ones, and more of
    them as the night gets colder.
    """
    height, width = samples.shape
    random = np.random.default_rng(seed)
    places = random.integers((4, 4), (height - 4, width - 4), (HOT, 2))[: int(HOT * part)]
    heated = samples.copy()
    heated[tuple(places.T)] = LEVELS // 2
    return heated, places.tolist()


def _crossed(samples: Samples, number: int) -> Samples:
    """A satellite's trail, farther on in each frame; two rows wide, as no hot pixel is."""
    crossed = samples.copy()
    column = 20 + 23 * (number % 7)
    for step in range(12):
        crossed[40 + 2 * step : 42 + 2 * step, column + step : column + step + 2] = LEVELS - 1
    return crossed


def _write(path: Path, kind: str, samples: Samples, number: int) -> None:
    """A frame's file, in 16 bits and with the bottom row first; or what is left of one."""
    values = (16 * samples.astype(np.uint16))[::-1]
    header = fits.Header([("DATE-OBS", now(BEGAN + number))])
    fits.writeto(path, values[:50] if kind == "small" else values, header)
    if kind == "short":
        path.write_bytes(path.read_bytes()[:20000])
    elif kind == "empty":
        path.write_bytes(b"")
    elif kind == "text":
        path.write_text("no image\n")
