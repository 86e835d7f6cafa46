"""How many stars of a catalogue a camera has in its frame, over attitudes anywhere in a region."""

from dataclasses import dataclass

import numpy as np

from .arrays import Flags, Floats, Numbers, Records
from .attitude import in_frame, vectors
from .folder import PIXEL, Settings
from .region import Region

# A star nearer to a side than half a window is not measured.
HALF = 3
ATTITUDES = 2000


@dataclass(frozen=True)
class Coverage:
    """How many catalogue stars each attitude has in the frame, where they can be measured."""

    counts: Numbers

    def share(self, stars: int) -> float:
        """The share of the attitudes with at least so many."""
        return float(np.mean(self.counts >= stars))

    @property
    def fewest(self) -> int:
        """As many as nine in ten have, at least."""
        return int(np.sort(self.counts)[len(self.counts) // 10])


def coverage(
    settings: Settings,
    catalogue: Records,
    region: Region,
    attitudes: int = ATTITUDES,
    seed: int = 0,
) -> Coverage:
    """Counts the catalogue's stars in the frame at so many attitudes of the region."""
    random, sky = np.random.default_rng(seed), vectors(catalogue)
    drawn = (measurable(region.attitude(random), sky, settings) for _ in range(attitudes))
    return Coverage(np.array([np.count_nonzero(seen) for seen in drawn]))


def measurable(matrix: Floats, sky: Floats, settings: Settings) -> Flags:
    """Which directions fall where a star can be measured, half a window from every side."""
    columns, rows, inside = in_frame(matrix, sky, settings)
    across = (columns >= HALF) & (columns <= settings.width - 1 - HALF)
    return inside & across & (rows >= HALF) & (rows <= settings.height - 1 - HALF)


def half_diagonal(settings: Settings) -> float:
    """The angle from the axis to a corner of the frame, in degrees; 0 without a lens."""
    if not settings.focal:
        return 0.0
    corner = np.hypot(settings.width, settings.height) * PIXEL / 2
    return float(np.rad2deg(np.arctan(corner / settings.focal)))
