"""An even choice of stars: those that have fewer than K brighter ones within R degrees."""

import numpy as np
from astropy import units as u

from .arrays import Flags, Floats, Records
from .attitude import vectors
from .configuration import field
from .folder import Settings
from .refusals import Mistake

# K is the length of a frame's list, unless said; a catalogue has room for so many stars.
LIST, ROOM = 8, 512
# Of longer lists so many stars are looked at, the brightest; each so many at a time.
LOOKED_AT, CHUNK = 20000, 500


def distances(records: Records, count: int) -> Floats:
    """How far, in degrees, the `count`-th nearest of the brighter stars is from each.

    Stars of the same magnitude are not brighter; where there are too few it is infinitely far.
    """
    order = np.argsort(records["magnitude"], kind="stable")
    sky, magnitudes = vectors(records[order]), records["magnitude"][order]
    far = np.full(len(records), np.inf)
    for begin in range(0, len(order), CHUNK):
        some, before = slice(begin, begin + CHUNK), slice(0, begin + CHUNK)
        near = sky[some] @ sky[before].T
        near[magnitudes[None, before] >= magnitudes[some, None]] = -np.inf
        if near.shape[1] >= count:
            nearest = np.partition(near, -count, axis=1)[:, -count]
            angles = np.rad2deg(np.arccos(np.clip(nearest, -1, 1)))
            far[order[some]] = np.where(np.isinf(nearest), np.inf, angles)
    return far


def even(records: Records, count: int, radius: float) -> Flags:
    """Which stars have fewer than `count` brighter ones within `radius` degrees."""
    return distances(records, count) > radius


def choose(records: Records, settings: Settings) -> tuple[int, float]:
    """K and R for a camera: K is the list's length, R half the frame's shorter side.

    So every circle that fits into a frame has the list's stars. Where that would be more stars than
    a catalogue has room for, R is the smallest, to a hundredth, that leaves no more.
    """
    if not settings.focal:
        raise Mistake("--even takes K and R from the lens: run settings first, or say --even K R")
    radius = min(field(settings)).to_value(u.deg) / 2
    far = np.sort(distances(records, LIST))[::-1]
    if len(far) > ROOM:
        radius = max(radius, far[ROOM])
    if not np.isfinite(radius):
        raise Mistake(f"more than {ROOM} stars have no {LIST} brighter ones: --limit chooses fewer")
    return LIST, float(np.ceil(100 * radius) / 100)
