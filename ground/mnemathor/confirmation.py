"""Whether an answer is confirmed by the stars that it did not use.

The answer names at most eight stars. The catalogue has more that its attitude puts into the frame,
and these the search did not look at: where the answer is right a measured pixel lies by many of
them, where it is wrong by as many as chance gives.
"""

from __future__ import annotations

from dataclasses import asdict, dataclass, replace
from typing import Any

import numpy as np

from . import library
from .arrays import Flags, Floats, Numbers, Records, Samples, Where
from .attitude import in_frame, vectors
from .folder import MAGNITUDE, PIXEL, Settings
from .kept import Rate, rate
from .library import Verdict
from .rates import at_least
from .solving import Solution

# A further star is found if a measured position is within so many pixels of it.
NEAR = 2.0
# Half a window, and so much around a named star that belongs to it; stars nearer to a side than
# half a window are not looked for.
HALF = 3
AROUND = 2 * HALF + 1
# Chance is judged in a square with this half-width around each further star, so that crowded parts
# of a frame count as crowded.
SURROUNDINGS = 20
# This look goes down to so many times the noise above the sky, and to at most one measured pixel in
# so many.
ABOVE, CROWD = 4.0, 250
# The deviation of normal noise, over its median distance from the middle.
NORMAL = 1.482602218505602
# Fewer further stars say nothing; an answer is confirmed if chance gives as many found at most this
# often.
FEWEST, ODDS = 3, 1 / 300


@dataclass(frozen=True)
class Further:
    """A star that the answer did not use: where the attitude puts it, and whether a measured
    position is near.
    """

    identity: int
    magnitude: float
    column: float
    row: float
    found: bool


@dataclass(frozen=True)
class Confirmation:
    """The further stars of an answer; `expected` are as many as chance would find, `odds` the
    chance of as many as were found.
    """

    stars: tuple[Further, ...]
    expected: float
    odds: float | None
    threshold: int
    measured: int

    @property
    def found(self) -> int:
        """How many were found."""
        return sum(star.found for star in self.stars)

    @property
    def verdict(self) -> bool | None:
        """True for confirmed, False for not confirmed, None where nothing can be said."""
        return None if self.odds is None else self.odds <= ODDS

    def as_dict(self) -> dict[str, Any]:
        """The confirmation in plain numbers, for JSON."""
        plain = {
            name: getattr(self, name)
            for name in ("verdict", "found", "expected", "odds", "threshold", "measured")
        }
        return {"further": len(self.stars), **plain, "stars": [asdict(star) for star in self.stars]}

    def __str__(self) -> str:
        """In words."""
        if self.odds is None:
            return (
                f"neither confirmed nor not: {_stars(len(self.stars))} in the frame, at least"
                f" {FEWEST} are wanted"
            )
        word = "confirmed" if self.verdict else "not confirmed"
        return (
            f"{word}: {self.found} of {_stars(len(self.stars))} found, {self.expected:.1f} by"
            f" chance ({in_words(self.odds)})"
        )


@dataclass(frozen=True)
class Worth:
    """What an answer is worth: its confirmation, and where that says nothing how often as many
    names come by chance.
    """

    confirmation: Confirmation
    rate: Rate | None

    def as_dict(self) -> dict[str, Any]:
        """In plain numbers, for JSON."""
        return {
            "confirmation": self.confirmation.as_dict(),
            "false_alarms": None if self.rate is None else self.rate.as_dict(),
        }

    def __str__(self) -> str:
        """In words."""
        return str(self.confirmation) if self.rate is None else f"{self.confirmation}; {self.rate}"


def worth(
    folder: Where, settings: Settings, samples: Samples, catalogue: Records, solution: Solution
) -> Worth:
    """The worth of a solution; the folder keeps the rate of false alarms."""
    confirmation = confirm(settings, samples, catalogue, solution)
    known = (
        None
        if confirmation.verdict is not None
        else rate(folder, settings, catalogue, len(solution.stars), len(solution.named))
    )
    return Worth(confirmation, known)


def confirm(
    settings: Settings, samples: Samples, catalogue: Records, solution: Solution
) -> Confirmation:
    """The confirmation of a solution of this frame, by the same catalogue."""
    threshold, verdicts = look(samples, settings)
    positions = [(v.centroid.x, v.centroid.y) for v in verdicts if v.centroid is not None]
    measured = np.array(positions, np.float64).reshape(-1, 2) / PIXEL
    columns, rows, _ = in_frame(library.cosines(solution.matrix), vectors(catalogue), settings)
    further = _further(settings, catalogue, solution, columns, rows)
    named = np.array([(star.column, star.row) for star in solution.named]).reshape(-1, 2)
    free = measured[_far(measured, named, AROUND)]
    stars = tuple(
        Further(
            int(catalogue["identity"][k]),
            int(catalogue["magnitude"][k]) / MAGNITUDE,
            float(columns[k]),
            float(rows[k]),
            _is_near(free, columns[k], rows[k]),
        )
        for k in further
    )
    chances = [_chance(settings, free, named, star) for star in stars]
    expected = float(sum(chances))
    odds = (
        at_least(sum(star.found for star in stars), len(stars), expected / len(stars))
        if len(stars) >= FEWEST
        else None
    )
    return Confirmation(stars, expected, odds, threshold, len(verdicts))


def look(samples: Samples, settings: Settings) -> tuple[int, list[Verdict]]:
    """The threshold of this look and the library's verdicts on all pixels that are measured with
    it.
    """
    peaks = _peaks(samples)
    sky, noise = sky_of(samples)
    most = samples.size // CROWD
    heights = np.sort(samples[peaks])[::-1]
    crowded = int(heights[most]) + 1 if len(heights) > most else 1
    threshold = int(np.clip(max(np.ceil(sky + ABOVE * noise), crowded), 1, settings.threshold))
    lower = replace(settings, threshold=threshold)
    rows, columns = np.nonzero(peaks & (samples >= threshold))
    # Where even the list's own threshold leaves too many, the brightest are asked about.
    order = np.argsort(-samples[rows, columns].astype(int), kind="stable")[: 4 * most + 8]
    verdicts = (library.verdict(samples, lower, int(rows[k]), int(columns[k])) for k in order)
    return threshold, [verdict for verdict in verdicts if verdict.kind == "measured"]


def sky_of(samples: Samples) -> tuple[float, float]:
    """A frame's median, and its noise by the median distance from it: by counting, which is quicker
    for samples of 12 bits.
    """
    counts = np.bincount(samples.ravel())
    sky = _middle(counts)
    away = abs(2 * np.arange(len(counts)) - round(2 * sky))
    return sky, _middle(np.bincount(away, counts).astype(int)) / 2 * NORMAL


def _middle(counts: Numbers) -> float:
    """The median of whole numbers, from how often each occurs."""
    total = int(counts.sum())
    return float(np.searchsorted(np.cumsum(counts), [(total - 1) // 2, total // 2], "right").mean())


def _peaks(samples: Samples) -> Flags:
    """The pixels that no other of their window exceeds: every measured pixel is one."""
    return samples >= _largest(_largest(samples).T).T


def _largest(samples: Samples) -> Samples:
    """For each pixel the largest of its row within half a window."""
    padded = np.pad(samples, ((0, 0), (HALF, HALF)))
    return np.max(
        [padded[:, right : right + samples.shape[1]] for right in range(2 * HALF + 1)], axis=0
    )


def _further(
    settings: Settings, catalogue: Records, solution: Solution, columns: Floats, rows: Floats
) -> list[int]:
    """The record numbers of the stars in the frame that are not named and could be measured; of
    those side by side the brightest.
    """
    inside = (
        (columns >= HALF)
        & (columns <= settings.width - 1 - HALF)
        & (rows >= HALF)
        & (rows <= settings.height - 1 - HALF)
    )
    ahead = (vectors(catalogue) @ library.cosines(solution.matrix)[2]) > 0
    names = [star.identity for star in solution.named if star.identity is not None]
    taken = np.array([(star.column, star.row) for star in solution.named]).reshape(-1, 2)
    apart = _far(np.column_stack([columns, rows]), taken, AROUND)
    left = np.flatnonzero(inside & ahead & apart & ~np.isin(catalogue["identity"], names))
    kept: list[int] = []
    for k in left[np.argsort(catalogue["magnitude"][left], kind="stable")]:
        if all(
            np.hypot(columns[k] - columns[other], rows[k] - rows[other]) > 2 * NEAR
            for other in kept
        ):
            kept.append(k)
    return kept


def _far(points: Floats, others: Floats, distance: float) -> Flags:
    """Which points are farther than a distance from all others."""
    return (np.hypot(*(points[:, None] - others[None]).transpose(2, 0, 1)) > distance).all(axis=1)


def _is_near(points: Floats, column: float, row: float) -> bool:
    return bool((np.hypot(points[:, 0] - column, points[:, 1] - row) <= NEAR).any())


def _chance(settings: Settings, measured: Floats, named: Floats, star: Further) -> float:
    """The share of a further star's surroundings where it would have been found."""
    left, top = max(HALF, star.column - SURROUNDINGS), max(HALF, star.row - SURROUNDINGS)
    right, bottom = min(settings.width - 1 - HALF, star.column + SURROUNDINGS), min(
        settings.height - 1 - HALF, star.row + SURROUNDINGS
    )
    columns, rows = np.meshgrid(np.arange(left, right + 0.5), np.arange(top, bottom + 0.5))
    places = np.column_stack([columns.ravel(), rows.ravel()])
    # What is outside the surroundings by more than it reaches has no say.
    named, measured = (
        points[(abs(points - (star.column, star.row)) <= SURROUNDINGS + 1 + reach).all(axis=1)]
        for points, reach in ((named, AROUND), (measured, NEAR))
    )
    places = places[_far(places, named, AROUND)]
    return float(np.mean(~_far(places, measured, NEAR))) if len(places) else 1.0


def _stars(count: int) -> str:
    return f"{count} further star{'' if count == 1 else 's'}"


def in_words(odds: float) -> str:
    """A chance as 1 in so many."""
    return (
        "more often than not"
        if odds > 0.5
        else f"1 in {float(f'{1 / odds:.2g}'):,.0f}" if odds > 1e-9 else "less than 1 in 10^9"
    )
