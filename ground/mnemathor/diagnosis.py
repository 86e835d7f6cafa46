"""What a frame has, and why it has no solution: sky, noise and list as measured, and what would fit
instead.
"""

from __future__ import annotations

from collections.abc import Iterator
from dataclasses import asdict, dataclass, replace
from typing import Any

import numpy as np
from astropy import units as u
from astropy.stats import sigma_clipped_stats

from . import library
from .arrays import Records, Samples
from .attitude import vectors
from .configuration import angle_of, field
from .folder import LEVELS, PIXEL, UNIT, Settings
from .library import Centroid, Report
from .refusals import Refused
from .solving import mirrored_fits

# The refusals that are the frame's: too few stars, no fit, two stars that are too close.
TOO_FEW, NO_FIT, TOO_CLOSE = OF_THE_FRAME = 12, 13, 14
# Another focal length is looked for within this part of the settings', in steps that the tolerance
# can bridge.
FOCAL_REACH = 0.05
STEPS = 25
MIRROR = "in a mirror it would fit: is the readout mirrored? frame has --flip and --mirror"


@dataclass(frozen=True)
class Measured:
    """A frame as measured: counts, list, sky and noise, saturated samples, and how many stars the
    catalogue has for a field like this.
    """

    measured: int
    edge: int
    lone: int
    listed: tuple[Centroid, ...]
    sky: float
    noise: float
    brightest: int
    saturated: int
    threshold: int
    needed: int
    expected: float
    agreeing: int | None

    def as_dict(self) -> dict[str, Any]:
        """In plain numbers, for JSON."""
        return {**asdict(self), "listed": [asdict(star) for star in self.listed]}

    def lines(self) -> Iterator[str]:
        """In lines to read."""
        yield (
            f"measured {self.measured} edge {self.edge} lone {self.lone}; {self.needed} stars are"
            " needed"
        )
        for number, star in enumerate(self.listed):
            yield (
                f"{number:>2} column {star.x / PIXEL:>8.3f} row {star.y / PIXEL:>8.3f} brightness"
                f" {star.brightness}"
            )
        yield (
            f"sky {self.sky:.0f}, noise {self.noise:.1f}, brightest sample {self.brightest},"
            f" {self.saturated} samples saturated"
        )
        yield (
            f"threshold {self.threshold}, twice the sky is"
            f" {2 * self.sky:.0f}{self._threshold_advice()}"
        )
        yield f"the catalogue has {self.expected:.1f} stars for a field of this size, on average"
        if self.agreeing is not None:
            yield (
                f"{self.agreeing} of the {len(self.listed)} listed stars have a separation that the"
                " catalogue has too"
            )

    def _threshold_advice(self) -> str:
        if self.threshold <= 2 * self.sky:
            return (
                ": hot pixels are taken for stars; a threshold above it, with some noise to spare,"
                " tells them apart"
            )
        if self.measured < self.needed and self.brightest < self.threshold:
            return (
                ": no sample reaches the threshold; expose longer, or lower it, but not below twice"
                " the sky"
            )
        if self.measured < self.needed and self.threshold > 2 * self.sky + 10 * self.noise:
            return f": it may be lowered, to {int(2 * self.sky + 5 * self.noise) + 1} or so"
        return ""


def measure(settings: Settings, samples: Samples, catalogue: Records) -> Measured:
    """A frame as measured."""
    report = library.list_stars(samples, settings)
    _, sky, noise = sigma_clipped_stats(samples, sigma=3.0, maxiters=5)
    wide, tall = field(settings)
    # The solid angle of the frame, of the whole sphere's.
    part = np.arcsin(np.sin(wide / 2) * np.sin(tall / 2)).to_value(u.rad) / np.pi
    return Measured(
        report.measured,
        report.edge,
        report.lone,
        report.stars,
        float(sky),
        float(noise),
        int(samples.max()),
        int(np.count_nonzero(samples >= LEVELS - 1)),
        settings.threshold,
        settings.needed,
        round(float(part) * len(catalogue), 2),
        _agreeing(settings, report, catalogue),
    )


def _agreeing(settings: Settings, report: Report, catalogue: Records) -> int | None:
    """How many listed stars have, with some other, a dot product that two catalogue stars have too,
    within the tolerance; None for fewer than two.
    """
    if len(report.stars) < 2:
        return None
    rows = library.directions(settings, report).astype(float) / UNIT
    sky = vectors(catalogue)
    pairs = np.sort((sky @ sky.T)[np.triu_indices(len(sky), 1)])
    products, tolerance = rows @ rows.T, settings.tolerance / float(UNIT) ** 2
    known = np.searchsorted(pairs, products + tolerance, "right") > np.searchsorted(
        pairs, products - tolerance, "left"
    )
    np.fill_diagonal(known, False)
    return int(known.any(axis=1).sum())


def what_would_fit(settings: Settings, samples: Samples, catalogue: Records) -> dict[str, str]:
    """Of a frame that no assignment fits: what else would, as lines by name.

    These are hints: a looser rule also fits by chance.
    """
    found = {}
    if mirrored_fits(settings, samples, catalogue):
        found["mirror"] = MIRROR
    for name, changed, told in _looser(settings):
        named = 0 if name in found else _named(changed, samples, catalogue)
        if named:
            found[name] = f"with {told} it would fit, with {named} names{_caution(changed)}"
    best = max(
        (
            (_named(other, samples, catalogue), -abs(step), other)
            for step, other in _focals(settings)
        ),
        key=lambda each: each[:2],
    )
    if best[0] >= max(settings.needed, 4):
        found["focal"] = (
            f"with a focal length of {best[2].focal / PIXEL:.2f} pixels, not"
            f" {settings.focal / PIXEL:.2f}, it would fit, with {best[0]} names: lens finds it"
        )
    return found


def _looser(settings: Settings) -> Iterator[tuple[str, Settings, str]]:
    """Settings that ask for less, the nearest first."""
    for times in (2, 4):
        wider = replace(settings, tolerance=min(10**16, times * settings.tolerance))
        yield "tolerance", wider, f"a tolerance of {wider.tolerance}, {times} times as wide,"
    if settings.needed > 3:
        yield "needed", replace(
            settings, needed=settings.needed - 1
        ), f"a needed count of {settings.needed - 1}"


def _caution(settings: Settings) -> str:
    return "; three stars often agree by chance" if settings.needed == 3 else ""


def _focals(settings: Settings) -> Iterator[tuple[int, Settings]]:
    """The settings with other focal lengths near by, each with its step."""
    side = min(field(settings))
    step = np.clip(
        angle_of(settings.tolerance, side).to_value(u.rad) / side.to_value(u.rad),
        FOCAL_REACH / STEPS,
        FOCAL_REACH,
    )
    for count in range(1, int(round(FOCAL_REACH / step)) + 1):
        for sign in (1, -1):
            focal = round(settings.focal * (1 + sign * count * step))
            if 16384 <= focal <= 4194304:
                yield count, replace(settings, focal=focal)


def _named(settings: Settings, samples: Samples, catalogue: Records) -> int:
    """How many names a frame gets with these settings; 0 where it is refused."""
    try:
        return sum(
            star is not None for star in library.chain(samples, settings, catalogue).assignment
        )
    except Refused:
        return 0
