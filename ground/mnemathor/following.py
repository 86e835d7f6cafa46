"""A night followed: each frame solved, judged and guided, as one line of the log.

The guider is the library's, and starts where T-14 lets it: at an identification that can be
trusted, alone and, where further stars can tell, confirmed. It follows by the list of every frame
after that, and once all its guides are dropped the next such identification starts it afresh.
"""

from __future__ import annotations

import time
from collections.abc import Iterable, Iterator
from datetime import datetime, timezone

import numpy as np

from . import library, rotation
from .arrays import Records, Samples
from .attitude import in_frame, vectors
from .confirmation import confirm
from .folder import PIXEL, Settings
from .nightlog import Line, Log
from .refusals import Mistake, Refused
from .solving import Solution, solve
from .structures import GUIDES

# At so many misses a guide is dropped.
DROPPED = 5
NOTHING = dict.fromkeys(
    (
        "measured",
        "edge",
        "lone",
        "refused",
        "ra",
        "dec",
        "roll",
        "sexagesimal",
        "alone",
        "confirmed",
        "best_ra",
        "best_dec",
        "best_roll",
        "check_axis",
        "check_roll",
        "residual",
        "warning",
        "guider",
    )
)
# A frame as it comes: name, time, samples, and what was wrong with the file.
Taken = tuple[str, str, Samples | None, str | None]


class Follower:
    """What goes from frame to frame: the guider, and where each guide was at its start."""

    def __init__(self, settings: Settings, catalogue: Records, box: float) -> None:
        """The half-width of a guide's box is in pixels."""
        self.settings, self.catalogue, self.half_width = settings, catalogue, round(box * PIXEL)
        self._guider: library.Guider | None = None
        self._starts: tuple[tuple[int, int], ...] = ()

    def restore(self, line: Line) -> None:
        """Goes on behind a line of a log."""
        if line["guides"]:
            guides = [
                (guide["identity"], guide["x"], guide["y"], guide["misses"])
                for guide in line["guides"]
            ]
            self._guider = library.Guider.of(self.half_width, guides)
            self._starts = tuple(
                (guide["x"] - round(guide["dx"] * PIXEL), guide["y"] - round(guide["dy"] * PIXEL))
                for guide in line["guides"]
            )

    def frame(self, samples: Samples) -> Line:
        """What one frame gives, as a part of its line."""
        began = time.perf_counter()
        told = self._told(samples)
        return {**told, "milliseconds": round(1000 * (time.perf_counter() - began), 2)}

    def unreadable(self, error: str | None) -> Line:
        """The same for a frame that could not be read: it counts as none, and the guider stays."""
        return {
            **NOTHING,
            "error": error,
            "names": {},
            "guides": self._guides(None),
            "milliseconds": 0.0,
        }

    def _told(self, samples: Samples) -> Line:
        if samples.shape != (self.settings.height, self.settings.width):
            raise Mistake(
                f"the frame has {samples.shape[1]} x {samples.shape[0]} pixels, and the settings"
                f" say {self.settings.width} x {self.settings.height}"
            )
        told: Line = {**NOTHING, "error": None, "names": {}}
        try:
            solution = solve(self.settings, samples, self.catalogue)
            told.update(
                {name: getattr(solution, name) for name in ("measured", "edge", "lone")},
                **self._answered(samples, solution),
            )
        except Refused as refusal:
            solution = None
            told.update(refused=refusal.number, **self._counts(samples))
        told["guider"] = self._guide(samples, solution, told)
        return {**told, "guides": self._guides(solution)}

    def _counts(self, samples: Samples) -> Line:
        """The counts of a frame that has no answer, but may have a list."""
        try:
            report = library.list_stars(samples, self.settings)
        except Refused:
            return {}
        return {name: getattr(report, name) for name in ("measured", "edge", "lone")}

    def _answered(self, samples: Samples, solution: Solution) -> Line:
        where, check = solution.pointing, rotation.best(self.settings, self.catalogue, solution)
        return {
            "ra": round(where.ra, 6),
            "dec": round(where.dec, 6),
            "roll": round(where.roll, 5),
            "sexagesimal": where.sexagesimal,
            "names": {str(star.number): star.identity for star in solution.named},
            "alone": solution.rival is None,
            "confirmed": confirm(self.settings, samples, self.catalogue, solution).verdict,
            **_checked(check),
        }

    def _guide(self, samples: Samples, solution: Solution | None, told: Line) -> str | None:
        """Follows where a guide is live, else starts where the answer can be trusted; hands back
        which of the two.
        """
        if self._guider and any(guide.misses < DROPPED for guide in self._guider.guides):
            self._guider.frame(samples, self.settings)
            return "follows"
        if solution is None or not told["alone"] or told["confirmed"] is False:
            return None
        chosen = choose(solution, self.half_width)
        if not chosen:
            return None
        self._guider, self._starts = library.Guider(self.half_width, chosen), tuple(
            (x, y) for _, x, y in chosen
        )
        return "started"

    def _guides(self, solution: Solution | None) -> list[Line]:
        """The guides as they stand: how far from their start, and from where an answer puts their
        star, in pixels.
        """
        if self._guider is None:
            return []
        put = {} if solution is None else self._put(solution)
        told = []
        for guide, (x, y) in zip(self._guider.guides, self._starts):
            place = put.get(guide.identity)
            off = (
                None
                if place is None or guide.misses
                else round(
                    float(np.hypot(guide.x / PIXEL - place[0], guide.y / PIXEL - place[1])), 3
                )
            )
            dx, dy = (guide.x - x) / PIXEL, (guide.y - y) / PIXEL
            told.append(
                {
                    "identity": guide.identity,
                    "x": guide.x,
                    "y": guide.y,
                    "dx": dx,
                    "dy": dy,
                    "misses": guide.misses,
                    "off": off,
                }
            )
        return told

    def _put(self, solution: Solution) -> dict[int, tuple[float, float]]:
        """Where an answer puts the guides' stars."""
        guides = self._guider.guides if self._guider else ()
        wanted = self.catalogue[
            np.isin(self.catalogue["identity"], [guide.identity for guide in guides])
        ]
        columns, rows, _ = in_frame(
            library.cosines(solution.matrix), vectors(wanted), self.settings
        )
        return {
            int(identity): (column, row)
            for identity, column, row in zip(wanted["identity"], columns, rows)
        }


def _checked(check: rotation.Best) -> Line:
    """The check over all named stars, for a line: its pointing, how far the answer is from it, its
    largest residual, and what it warns of.
    """
    return {
        "best_ra": round(check.pointing.ra, 6),
        "best_dec": round(check.pointing.dec, 6),
        "best_roll": round(check.pointing.roll, 5),
        "check_axis": round(check.axis, 1),
        "check_roll": round(check.roll, 1),
        "residual": round(max(check.residuals), 1),
        "warning": "; ".join(check.warnings) or None,
    }


def choose(solution: Solution, half_width: int) -> list[tuple[int, int, int]]:
    """Identity, x and y of the named stars that guide: the brightest, up to four, that no other
    listed star comes near.

    Near is twice the half-width, across and down: then neither star comes into the other's box
    before it has left its own.
    """
    chosen = []
    for star in solution.named:
        assert star.identity is not None
        others = [other for other in solution.stars if other.number != star.number]
        if all(
            max(abs(other.column - star.column), abs(other.row - star.row)) * PIXEL > 2 * half_width
            for other in others
        ):
            chosen.append((star.identity, round(star.column * PIXEL), round(star.row * PIXEL)))
    return chosen[:GUIDES]


def follow(follower: Follower, log: Log, taken: Iterable[Taken], first: int = 0) -> Iterator[Line]:
    """Logs each frame of `taken`: name, time, and the samples or what was wrong with the file.

    Yields the lines.
    """
    for number, (name, when, samples, error) in enumerate(taken, first):
        try:
            told = follower.unreadable(error) if samples is None else follower.frame(samples)
        except Mistake as mistake:
            told = follower.unreadable(str(mistake))
        except Exception as fault:  # one frame must not end the night
            told = follower.unreadable(f"a fault of the tool: {type(fault).__name__}: {fault}")
        line = {"number": number, "time": when, "file": name, **told}
        log.append(line)
        yield line


def now(seconds: float) -> str:
    """A time of the machine's clock, as DATE-OBS has it."""
    return datetime.fromtimestamp(seconds, timezone.utc).strftime("%Y-%m-%dT%H:%M:%S.%f")[:-3]
