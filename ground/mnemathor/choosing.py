"""Which pair of settings to take: enough good frames accepted, no wrong name, and false alarms
under a bound.
"""

from __future__ import annotations

from collections.abc import Iterable
from typing import TYPE_CHECKING

if TYPE_CHECKING:
    from .alarms import Alarms
    from .trials import Cell

# A pair is good enough if it accepts so much of what the best one does.
ENOUGH = 0.9


def choose(cells: Iterable[Cell], alarms: Alarms | None, limit: float) -> Cell | None:
    """The pair to take, or None.

    Of the pairs without a wrong name whose false alarms, with their upper bound, stay below the
    limit, and that accept nearly as many frames as the best of these, the one with the smallest
    needed count, and of these the one with the widest tolerance. Without a count of false alarms it
    is the pair that accepts most; of equal ones the larger needed count, then the smaller
    tolerance.
    """
    clean = [cell for cell in cells if cell.accepted and not cell.wrong_names]
    if alarms is None:
        return (
            max(clean, key=lambda cell: (cell.accepted, cell.needed, -cell.tolerance))
            if clean
            else None
        )
    quiet = [cell for cell in clean if is_quiet(cell, alarms, limit)]
    most = max((cell.accepted for cell in quiet), default=0)
    good = [cell for cell in quiet if cell.accepted >= ENOUGH * most]
    return min(good, key=lambda cell: (cell.needed, -cell.tolerance)) if good else None


def is_quiet(cell: Cell, alarms: Alarms, limit: float) -> bool:
    """Whether a pair's false alarms stay below the limit, as far as the lists can tell."""
    counted = alarms.cell(cell.tolerance, cell.needed)
    return counted is not None and counted.bound is not None and counted.bound < limit
