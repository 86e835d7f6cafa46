"""A folder solved: the chain, its pointing, every named star with its residual, and whether there
is a rival.
"""

from __future__ import annotations

from dataclasses import asdict, dataclass, replace
from typing import Any

import numpy as np
from numpy.typing import ArrayLike

from . import library
from .arrays import Floats, Matrix, Records, Samples, Where
from .attitude import Pointing, angle_between, pointing_of, vectors
from .folder import MAGNITUDE, PIXEL, UNIT, Settings, read_catalogue, read_frame, read_settings
from .library import Assignment, Centroid
from .refusals import Refused


@dataclass(frozen=True)
class Star:
    """A listed star: number, position in pixels, brightness, and for a named one identity,
    magnitude and residual in arc seconds.
    """

    number: int
    column: float
    row: float
    brightness: int
    identity: int | None = None
    magnitude: float | None = None
    residual: float | None = None


@dataclass(frozen=True)
class Solution:
    """What a frame gives; `rival` has another identity for some listed star, by number, and is None
    where the answer is alone.
    """

    pointing: Pointing
    matrix: Matrix
    stars: tuple[Star, ...]
    measured: int
    edge: int
    lone: int
    rival: dict[int, int] | None

    @property
    def named(self) -> tuple[Star, ...]:
        """The stars that have a name."""
        return tuple(star for star in self.stars if star.identity is not None)

    def as_dict(self) -> dict[str, Any]:
        """The solution in plain numbers, for JSON."""
        plain = {name: getattr(self, name) for name in ("measured", "edge", "lone", "rival")}
        return {
            **asdict(self.pointing),
            "matrix": self.matrix.tolist(),
            "stars": [asdict(star) for star in self.stars],
            **plain,
        }


def read_folder(folder: Where) -> tuple[Settings, Samples, Records]:
    """Settings, samples and catalogue of a folder."""
    settings = read_settings(folder)
    return settings, read_frame(folder, settings), read_catalogue(folder)


def solve(settings: Settings, samples: Samples, catalogue: Records) -> Solution:
    """The solution of a frame, or a refusal."""
    room = library.new_room()
    tracked = library.chain(samples, settings, catalogue, room)
    directions = library.directions(settings, tracked.report)
    rival = library.rival(
        directions, catalogue, settings, library.ranking_in(room, directions, catalogue)
    )
    rows = library.cosines(tracked.matrix)
    stars = tuple(
        _star(number, centroid, tracked.assignment[number], directions[number], catalogue, rows)
        for number, centroid in enumerate(tracked.report.stars)
    )
    report = tracked.report
    return Solution(
        pointing_of(rows),
        tracked.matrix,
        stars,
        report.measured,
        report.edge,
        report.lone,
        _names(rival, tracked.assignment, catalogue),
    )


def mirrored_fits(settings: Settings, samples: Samples, catalogue: Records) -> bool:
    """Whether the same frame seen in a mirror has a solution: then the readout is mirrored."""
    other = replace(settings, cx=max(0, PIXEL * (settings.width - 1) - settings.cx))
    try:
        library.chain(np.ascontiguousarray(samples[:, ::-1]), other, catalogue)
    except Refused:
        return False
    return True


def _star(
    number: int,
    centroid: Centroid,
    record: int | None,
    direction: ArrayLike,
    catalogue: Records,
    rows: Floats,
) -> Star:
    """One listed star; the residual is the angle from its direction to where the matrix puts its
    catalogue star.
    """
    seen = Star(number, centroid.x / PIXEL, centroid.y / PIXEL, centroid.brightness)
    if record is None:
        return seen
    star = catalogue[record]
    put = library.turned(rows, vectors(star))
    residual = float(angle_between(np.asarray(direction) / UNIT, put))
    return replace(
        seen,
        identity=int(star["identity"]),
        magnitude=int(star["magnitude"]) / MAGNITUDE,
        residual=residual,
    )


def _names(rival: Assignment | None, ours: Assignment, catalogue: Records) -> dict[int, int] | None:
    """A rival's identities for the listed stars that it names otherwise than we do."""
    if rival is None:
        return None
    return {
        number: int(catalogue[record]["identity"])
        for number, (record, our) in enumerate(zip(rival, ours))
        if record is not None and record != our
    }
