"""A check beside the flight's answer: the rotation that fits all named stars best, by singular
values, where TRIAD takes the first two.

It changes nothing: the flight's matrix stays the answer. Where the two differ by more than the
stars' own scatter allows, a line says so.
"""

from __future__ import annotations

from collections.abc import Iterator
from dataclasses import asdict, dataclass
from typing import Any

import numpy as np

from . import library
from .arrays import Floats, Records
from .attitude import Pointing, angle_between, pointing_of, vectors
from .folder import PIXEL, UNIT, Settings
from .solving import Solution

# TRIAD's two stars are close if they are nearer than this part of the frame's shorter side.
CLOSE = 1 / 8
# A difference is too large beyond so many times what the scatter gives; a scatter below this part
# of a pixel is not believed.
SIGMAS, LEAST = 4.0, 1 / 20
ARCSEC = np.rad2deg(1) * 3600


@dataclass(frozen=True)
class Best:
    """The best rotation's pointing and residuals, and how far TRIAD's is from it; angles in arc
    seconds, pointing in degrees.
    """

    pointing: Pointing
    residuals: tuple[float, ...]
    scatter: float
    axis: float
    roll: float
    allowed: float
    separation: float
    warnings: tuple[str, ...]

    def as_dict(self) -> dict[str, Any]:
        """In plain numbers, for JSON."""
        return {**asdict(self), "pointing": asdict(self.pointing)}

    def lines(self) -> Iterator[str]:
        """In lines to read."""
        where = self.pointing
        yield (
            f"check over all {len(self.residuals)} named stars: right ascension {where.ra:.5f} "
            f" declination {where.dec:+.5f}  roll {where.roll:.4f}; from the answer above"
            f" {self.axis:.0f}″ in the axis, {self.roll:+.0f}″ in the roll; residuals"
            f" {max(self.residuals):.0f}″ at most"
        )
        yield from (f"WARNING: {warning}" for warning in self.warnings)


def rotation(seen: Floats, sky: Floats) -> Floats:
    """The rotation that carries the sky's directions best, in least squares, to those that were
    seen; never a reflection.
    """
    left, _, right = np.linalg.svd(np.asarray(seen).T @ np.asarray(sky))
    return left @ np.diag([1, 1, np.sign(np.linalg.det(left) * np.linalg.det(right))]) @ right


def best(settings: Settings, catalogue: Records, solution: Solution) -> Best:
    """The best rotation over a solution's named stars, beside its own."""
    named = solution.named
    seen = (
        np.array(
            [
                library.direction(settings, round(star.column * PIXEL), round(star.row * PIXEL))
                for star in named
            ]
        )
        / UNIT
    )
    seen /= np.linalg.norm(seen, axis=1, keepdims=True)
    places = {int(identity): place for place, identity in enumerate(catalogue["identity"])}
    sky = vectors(catalogue[[places[star.identity] for star in named if star.identity is not None]])
    sky /= np.linalg.norm(sky, axis=1, keepdims=True)
    rows, flight = rotation(seen, sky), library.cosines(solution.matrix)
    residuals = angle_between(seen, sky @ rows.T)
    # Two numbers a star were measured, and three of a rotation were fitted.
    scatter = float(np.sqrt(np.sum(residuals**2) / max(2 * len(named) - 3, 1)))
    separation = float(angle_between(seen[0], seen[1]))
    allowed = _allowed(settings, scatter, seen[0], separation)
    axis = float(angle_between(rows[2], flight[2]))
    return Best(
        pointing_of(rows),
        tuple(map(float, residuals)),
        scatter,
        axis,
        _roll(rows, flight),
        allowed,
        separation,
        tuple(_warnings(settings, axis, allowed, separation)),
    )


def _allowed(settings: Settings, scatter: float, first: Floats, separation: float) -> float:
    """How far TRIAD's axis may be off: by the error of its first star, and by that of the pair's
    direction, which grows with the axis's distance from that star.
    """
    sigma = max(scatter, LEAST * PIXEL / settings.focal * ARCSEC)
    lever = float(np.hypot(first[0], first[1])) / np.sin(separation / ARCSEC)
    return SIGMAS * sigma * float(np.sqrt(1 + lever**2))


def _roll(rows: Floats, others: Floats) -> float:
    """The roll of the first camera less that of the second, in arc seconds, about the axis."""
    across = np.asarray(others) @ np.asarray(rows).T
    return float(np.arctan2(across[0, 1] - across[1, 0], across[0, 0] + across[1, 1])) * ARCSEC


def _warnings(settings: Settings, axis: float, allowed: float, separation: float) -> Iterator[str]:
    shorter = (
        2 * np.arctan(min(settings.width, settings.height) * PIXEL / 2 / settings.focal) * ARCSEC
    )
    if separation < CLOSE * shorter:
        yield (
            f"the answer's matrix rests on two stars only {separation / 3600:.2f} degrees apart;"
            " the check over all named stars is surer"
        )
    if axis > allowed:
        yield (
            f"the answer's axis is {axis:.0f}″ from the check's, and the stars' scatter allows"
            f" {allowed:.0f}″: a position or a name may be wrong"
        )
