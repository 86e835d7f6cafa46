"""Frames that might have been: a catalogue seen by a folder's camera, with everything that spoils a
frame, from a seed.
"""

from __future__ import annotations

from collections.abc import Callable, Iterable
from dataclasses import asdict, dataclass, field, replace
from typing import Any

import numpy as np
from astropy.modeling.functional_models import Gaussian2D
from astropy.nddata import NoOverlapError, overlap_slices

from .arrays import Floats, Records, Samples
from .attitude import (
    Pointing,
    in_frame,
    matrix_of,
    pointing_of,
    random_matrix,
    random_matrix_near,
    vectors,
)
from .folder import LEVELS, MAGNITUDE, PIXEL, Settings
from .refusals import Mistake

TRIES = 20000
# What a frame is drawn from; and the height of a star of a magnitude.
Seed = int | tuple[int, ...]
Peak = Callable[[float], float]


@dataclass(frozen=True)
class Weather:
    """What the sky and the camera do to a frame. Lengths are in pixels, levels in samples."""

    spread: float = 0.8
    background: float = 40.0
    noise: float = 4.0
    hot: int = 0
    false: int = 0
    jitter: float = 0.0
    mirror: bool = False
    faintest: float | None = None
    least: int = 3
    around: tuple[float, float] | None = None
    within: float | None = None

    def check(self) -> None:
        """Numbers that mean nothing are a mistake."""
        if not self.spread > 0:
            raise Mistake("the point spread must be above 0")
        if min(self.background, self.noise, self.jitter, self.hot, self.false, self.least) < 0:
            raise Mistake("background, noise, jitter and counts must not be below 0")


@dataclass(frozen=True)
class Put:
    """Something put into a frame, at a column and row in pixels; a false star has no identity."""

    column: float
    row: float
    identity: int | None = None


@dataclass(frozen=True)
class Simulated:
    """A frame with the truth about it."""

    samples: Samples
    matrix: Floats
    stars: tuple[Put, ...]
    false: tuple[Put, ...]
    hot: tuple[Put, ...]
    seed: Seed | None = None
    draws: int = 1
    weather: Weather = field(default_factory=Weather)

    @property
    def pointing(self) -> Pointing:
        """Where the camera pointed."""
        return pointing_of(self.matrix)

    def truth(self) -> dict[str, Any]:
        """The truth in plain numbers, for JSON."""
        lists = {
            name: [asdict(put) for put in getattr(self, name)] for name in ("stars", "false", "hot")
        }
        return {
            "seed": self.seed,
            **asdict(self.pointing),
            "matrix": self.matrix.tolist(),
            **lists,
            "weather": asdict(self.weather),
        }


def simulate(
    settings: Settings,
    catalogue: Records,
    seed: Seed,
    weather: Weather = Weather(),
    pointing: Pointing | None = None,
    sky: Records | None = None,
) -> Simulated:
    """A frame of the catalogue: at the given pointing, else at any attitude, all equally likely,
    that has enough stars in the frame.

    With `sky`, the records of a star list, the frame has all of these instead: those too that the
    catalogue leaves out.
    """
    weather.check()
    random = np.random.default_rng(seed)
    matrix, draws = (
        _attitude(random, vectors(catalogue), settings, weather)
        if pointing is None
        else (matrix_of(pointing), 1)
    )
    return replace(
        render(settings, catalogue if sky is None else sky, random, weather, matrix),
        seed=seed,
        draws=draws,
    )


def as_bright_as(weather: Weather, catalogue: Records) -> Weather:
    """The weather in which a star as faint as the catalogue's faintest reaches twice the threshold,
    unless it says how bright stars are.
    """
    return (
        weather
        if weather.faintest is not None
        else replace(weather, faintest=float(catalogue["magnitude"].max()) / MAGNITUDE)
    )


def render(
    settings: Settings,
    catalogue: Records,
    random: np.random.Generator,
    weather: Weather,
    matrix: Floats,
) -> Simulated:
    """The frame of the catalogue at one attitude."""
    frame = np.full((settings.height, settings.width), weather.background)
    peak = _peak(catalogue, settings, weather)
    stars = _put_stars(frame, random, catalogue, matrix, settings, weather, peak)
    false = _put_false(frame, random, catalogue, settings, weather, peak)
    frame += random.normal(0, weather.noise, frame.shape)
    hot = _put_hot(frame, random, settings, weather)
    samples = np.clip(np.rint(frame), 0, LEVELS - 1).astype(np.uint16)
    if weather.mirror:
        samples = np.ascontiguousarray(samples[:, ::-1])
    put = [_seen(puts, weather, settings) for puts in (stars, false, hot)]
    return Simulated(samples, matrix, put[0], put[1], put[2], weather=weather)


def _attitude(
    random: np.random.Generator, sky: Floats, settings: Settings, weather: Weather
) -> tuple[Floats, int]:
    """An attitude with enough catalogue stars in the frame, and how many were drawn for it."""
    if weather.around is None or weather.within is None:
        region = _region(sky, settings)
    else:
        region = matrix_of(Pointing(*weather.around, 0))[2], np.deg2rad(weather.within)
    for draws in range(1, TRIES + 1):
        matrix = random_matrix(random) if region is None else random_matrix_near(random, *region)
        if np.count_nonzero(in_frame(matrix, sky, settings)[2]) >= weather.least:
            return matrix, draws
    raise Mistake(
        f"of {TRIES} attitudes none had {weather.least} stars of the catalogue in the frame"
    )


def _region(sky: Floats, settings: Settings) -> tuple[Floats, float] | None:
    """For a catalogue of a part of the sky its middle, and how far from it the axis can be with a
    star in the frame; else None.
    """
    middle = np.sum(sky, axis=0)
    if np.linalg.norm(middle) < 0.5 * len(sky):
        return None
    middle /= np.linalg.norm(middle)
    corner = np.arctan(np.hypot(settings.width, settings.height) * PIXEL / settings.focal)
    reach = np.arccos(np.clip((sky @ middle).min(), -1, 1)) + corner
    return (middle, reach) if reach < np.pi / 2 else None


def _peak(catalogue: Records, settings: Settings, weather: Weather) -> Peak:
    """The height of a star above the background, by magnitude: the faintest that is wanted just
    reaches twice the threshold.
    """
    faintest = (
        catalogue["magnitude"].max() / MAGNITUDE if weather.faintest is None else weather.faintest
    )
    return lambda magnitude: 2 * settings.threshold * 10 ** (-0.4 * (magnitude - faintest))


def _put_stars(
    frame: Floats,
    random: np.random.Generator,
    catalogue: Records,
    matrix: Floats,
    settings: Settings,
    weather: Weather,
    peak: Peak,
) -> list[Put]:
    """The catalogue's stars, each moved by the jitter."""
    columns, rows, inside = in_frame(matrix, vectors(catalogue), settings)
    stars = []
    for record in np.flatnonzero(inside):
        column, row = random.normal([columns[record], rows[record]], weather.jitter)
        _draw(frame, column, row, peak(catalogue["magnitude"][record] / MAGNITUDE), weather.spread)
        stars.append(Put(float(column), float(row), int(catalogue["identity"][record])))
    return stars


def _put_false(
    frame: Floats,
    random: np.random.Generator,
    catalogue: Records,
    settings: Settings,
    weather: Weather,
    peak: Peak,
) -> list[Put]:
    """Stars that no catalogue has, as bright as some star of it."""
    false = []
    for _ in range(weather.false):
        column, row = random.uniform(0, settings.width - 1), random.uniform(0, settings.height - 1)
        _draw(
            frame,
            column,
            row,
            peak(random.choice(catalogue["magnitude"]) / MAGNITUDE),
            weather.spread,
        )
        false.append(Put(float(column), float(row)))
    return false


def _put_hot(
    frame: Floats, random: np.random.Generator, settings: Settings, weather: Weather
) -> list[Put]:
    """Single samples that light up."""
    hot = []
    for _ in range(weather.hot):
        row, column = random.integers(0, frame.shape[0]), random.integers(0, frame.shape[1])
        frame[row, column] = random.uniform(settings.threshold, LEVELS - 1)
        hot.append(Put(float(column), float(row)))
    return hot


def _draw(frame: Floats, column: float, row: float, height: float, spread: float) -> None:
    """Adds one star's point spread, to 5.5 times its width."""
    side = 2 * int(np.ceil(5.5 * spread)) + 1
    try:
        part, _ = overlap_slices(frame.shape, (side, side), (row, column), mode="trim")
    except NoOverlapError:
        return
    rows, columns = np.mgrid[part]
    frame[part] += Gaussian2D.evaluate(columns, rows, height, column, row, spread, spread, 0)


def _seen(puts: Iterable[Put], weather: Weather, settings: Settings) -> tuple[Put, ...]:
    """Where things are in the frame that is handed over: a mirrored one has its columns the other
    way round.
    """
    if not weather.mirror:
        return tuple(puts)
    return tuple(Put(settings.width - 1 - put.column, put.row, put.identity) for put in puts)
