"""Rates from counts, exactly: the upper bound of a rate by Clopper and Pearson, and the tail of the
binomial distribution.
"""

from __future__ import annotations

from functools import lru_cache

import numpy as np

from .arrays import Floats

LEVEL = 0.05


@lru_cache(8)
def _logs(tries: int) -> Floats:
    """The logarithms of 0! to tries!."""
    return np.concatenate([[0.0], np.cumsum(np.log(np.arange(1, tries + 1)))])


def _chances(tries: int, chance: float) -> Floats:
    """The chance of each count from 0 to tries."""
    counts, logs = np.arange(tries + 1), _logs(tries)
    ways = logs[-1] - logs - logs[::-1]
    with np.errstate(divide="ignore", invalid="ignore"):
        powers = np.where(counts > 0, counts * np.log(chance), 0) + np.where(
            counts < tries, (tries - counts) * np.log1p(-chance), 0
        )
    return np.exp(ways + powers)


def at_least(count: int, tries: int, chance: float) -> float:
    """The chance that of so many independent tries at least `count` come true."""
    return 1.0 if count <= 0 else float(min(1.0, _chances(tries, chance)[count:].sum()))


def upper_bound(count: int, tries: int, level: float = LEVEL) -> float | None:
    """The largest rate at which at most `count` of so many tries come true with a chance of 5 %;
    None without a try.

    Where none came true it is 1 - 0.05^(1 / tries), about 3 / tries.
    """
    if tries == 0:
        return None
    low, high = 0.0, 1.0
    for _ in range(60):
        middle = (low + high) / 2
        few = float(_chances(tries, middle)[: count + 1].sum())
        low, high = (middle, high) if few > level else (low, middle)
    return high if count < tries else 1.0


def in_words(count: int, tries: int) -> str:
    """A count as a rate with its upper bound: "0 (< 0.03 %)", "12.5 % (< 13.1 %)"."""
    bound = upper_bound(count, tries)
    if bound is None:
        return "-"
    told = f"(< {_percent(100 * bound)} %)"
    return f"{_percent(100 * count / tries)} % {told}" if count else f"0 {told}"


def _percent(share: float) -> str:
    return f"{share:.1f}" if share >= 10 else f"{share:.2f}" if share >= 0.1 else f"{share:.3f}"
