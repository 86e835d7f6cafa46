"""A night in a few lines and in one picture, from its log: read line by line, so that a long night
needs no more room than a short one.
"""

from __future__ import annotations

from collections import Counter
from collections.abc import Iterable, Iterator
from dataclasses import dataclass, field
from datetime import datetime, timezone
from typing import Any

import numpy as np
from matplotlib.axes import Axes
from matplotlib.figure import Figure

from .arrays import Floats, Where
from .attitude import Pointing, angle_between
from .following import DROPPED
from .nightlog import Line, read

# An answer that puts a guide's star so many pixels from where the guide follows it is a jump that
# the gimbal did not make.
JUMP = 3.0


@dataclass
class Summary:
    """The counts of a night."""

    frames: int = 0
    unreadable: int = 0
    accepted: int = 0
    alone: int = 0
    confirmed: Counter[bool | None] = field(default_factory=Counter)
    refused: Counter[int] = field(default_factory=Counter)
    starts: int = 0
    dropped: int = 0
    jumps: list[str] = field(default_factory=list)
    jumped: int = 0
    warnings: list[str] = field(default_factory=list)
    warned: int = 0
    apart: float = 0.0
    farthest: float = 0.0
    slowest: float = 0.0
    milliseconds: float = 0.0
    first: tuple[str, Pointing] | None = None
    last: tuple[str, Pointing] | None = None
    step: tuple[float, str] | None = None

    def add(self, line: Line) -> None:
        """Counts one line."""
        self.frames += 1
        self.unreadable += line["error"] is not None
        self.milliseconds += line["milliseconds"]
        self.slowest = max(self.slowest, line["milliseconds"])
        self.starts += line["guider"] == "started"
        self.dropped += line["guider"] == "follows" and all(
            guide["misses"] == DROPPED for guide in line["guides"]
        )
        if line["refused"] is not None:
            self.refused[line["refused"]] += 1
        if line["ra"] is not None:
            self._answer(line)

    def _answer(self, line: Line) -> None:
        self.accepted += 1
        self.alone += line["alone"]
        self.confirmed[line["confirmed"]] += 1
        self._check(line)
        if any(guide["off"] is not None and guide["off"] > JUMP for guide in line["guides"]):
            self.jumped += 1
            # The first ten are named.
            self.jumps = [*self.jumps, line["file"]][:10]
        elif line["alone"] and line["confirmed"] is not False:
            where = (line["time"], Pointing(line["ra"], line["dec"], line["roll"]))
            self._step(line["file"], where[1])
            self.first, self.last = self.first or where, where

    def _check(self, line: Line) -> None:
        """What the check over all named stars says of an answer."""
        self.apart += line["check_axis"]
        self.farthest = max(self.farthest, line["check_axis"])
        if line["warning"] is not None:
            self.warned += 1
            self.warnings = [*self.warnings, line["file"]][:10]

    def _step(self, file: str, where: Pointing) -> None:
        """The longest way from one trusted answer to the next."""
        if self.last is not None:
            away = _away(self.last[1], where)
            self.step = max(self.step or (0.0, ""), (away, file), key=lambda step: step[0])

    def lines(self) -> Iterator[str]:
        """In lines to read."""
        yield (
            f"{self.frames} frames: {self.accepted} accepted, {sum(self.refused.values())} refused,"
            f" {self.unreadable} unreadable"
        )
        if self.refused:
            yield "refused: " + ", ".join(
                f"{count} with {number}" for number, count in sorted(self.refused.items())
            )
        yield (
            f"of the accepted {self.alone} are alone and {self.accepted - self.alone} have a rival;"
            f" {self.confirmed[True]} confirmed, {self.confirmed[False]} not confirmed,"
            f" {self.confirmed[None]} with too few further stars to tell"
        )
        yield (
            f"the guider started {self.starts} times, and lost all its guides {self.dropped} times"
        )
        if self.jumped:
            yield (
                f"WARNING: {self.jumped} answers put a guide's star elsewhere than the guide, by"
                f" more than {JUMP:g} pixels: {', '.join(self.jumps)}"
            )
        yield from self._check_lines()
        if self.first and self.last:
            yield _drift(self.first, self.last, self.step)
        if self.frames > self.unreadable:
            yield (
                f"{self.milliseconds / (self.frames - self.unreadable):.1f} ms a frame without"
                f" reading it, {self.slowest:.1f} ms at most"
            )

    def _check_lines(self) -> Iterator[str]:
        if self.accepted:
            yield (
                "the check over all named stars:"
                f" {self.apart / self.accepted:.0f}″ from the answers' axes on average,"
                f" {self.farthest:.0f}″ at most"
            )
        if self.warned:
            yield (
                f"WARNING: the check warns of {self.warned} answers, for the reasons that the log"
                f" has: {', '.join(self.warnings)}"
            )

    def as_dict(self) -> dict[str, Any]:
        """In plain numbers, for JSON."""
        plain = {
            name: getattr(self, name)
            for name in (
                "frames",
                "unreadable",
                "accepted",
                "alone",
                "starts",
                "dropped",
                "jumped",
                "warned",
                "milliseconds",
                "slowest",
            )
        }
        words = {True: "confirmed", False: "not_confirmed", None: "cannot_tell"}
        return {
            **plain,
            "refused": dict(sorted(self.refused.items())),
            **{word: self.confirmed[verdict] for verdict, word in words.items()},
        }


def _drift(
    start: tuple[str, Pointing], end: tuple[str, Pointing], step: tuple[float, str] | None
) -> str:
    """How far the camera moved between two answers that can be trusted, in words, and the longest
    step on its way.
    """
    (began, first), (ended, last) = start, end
    turned = (last.roll - first.roll + 180) % 360 - 180
    told = (
        f"from {began} to {ended} the axis went {_away(first, last):.3f} degrees away, and the roll"
        f" changed by {turned:+.3f} degrees"
    )
    if step is None:
        return told
    return f"{told}; the longest step between two answers is {step[0]:.3f} degrees, to {step[1]}"


def _away(one: Pointing, other: Pointing) -> float:
    """The angle from one pointing's axis to another's, in degrees."""
    return float(angle_between(_axis(one), _axis(other))) / 3600


def _axis(pointing: Pointing) -> Floats:
    ra, dec = np.deg2rad((pointing.ra, pointing.dec))
    return np.array([np.cos(dec) * np.cos(ra), np.cos(dec) * np.sin(ra), np.sin(dec)])


def summarise(lines: Iterable[Line]) -> Summary:
    """The summary of a log's lines."""
    summary = Summary()
    for line in lines:
        summary.add(line)
    return summary


def picture(path: Where) -> Figure:
    """Pointing, guides and counts of a log, over the time, or over the frames where times are
    missing or not in order.
    """
    figure = Figure(figsize=(9, 9), dpi=100, layout="constrained")
    pointing, roll, guides, counts = figure.subplots(4, 1, sharex=True)
    numbers = np.array([_numbers(line) for line in read(path)], float).reshape(-1, 7)
    frame, ra, dec, turn, measured, refused, seconds = numbers.T
    when, label = _over_time(seconds)
    for axes, values, name in (
        (pointing, ra, "right ascension"),
        (pointing, dec, "declination"),
        (roll, turn, "roll"),
    ):
        known = np.flatnonzero(np.isfinite(values))
        middle = values[known[0]] if len(known) else 0
        axes.plot(
            when,
            (values - middle + 180) % 360 - 180,
            ".",
            markersize=3,
            label=f"{name} from {middle:.3f}°" if len(known) else name,
        )
    _plot_guides(guides, path, dict(zip(frame, when)))
    counts.plot(when, measured, ".", markersize=3, label="measured")
    counts.plot(
        when[np.isfinite(refused)],
        refused[np.isfinite(refused)],
        "x",
        markersize=4,
        label="number of the refusal",
    )
    units = ("degrees", "degrees", "offset, pixels", "count")
    for axes, unit in zip((pointing, roll, guides, counts), units):
        axes.set_ylabel(unit)
        if axes.get_legend_handles_labels()[0]:
            axes.legend(fontsize=8)
    counts.set_xlabel(label)
    return figure


def _numbers(line: Line) -> list[float]:
    numbers = [
        np.nan if line[name] is None else line[name]
        for name in ("number", "ra", "dec", "roll", "measured", "refused")
    ]
    return [*numbers, np.nan if line["error"] is not None else _seconds(line["time"])]


def _seconds(told: str) -> float:
    """A time as DATE-OBS has it, in seconds of the machine's clock; no number where it is none."""
    try:
        return datetime.fromisoformat(told).replace(tzinfo=timezone.utc).timestamp()
    except ValueError:
        return np.nan


def _over_time(seconds: Floats) -> tuple[Floats, str]:
    """Where each frame stands along the plots: minutes after the first, or its number where the
    clock goes back or says nothing.

    A file that cannot be read has no time of its own, and stands between its neighbours.
    """
    numbers, known = np.arange(len(seconds), dtype=float), np.isfinite(seconds)
    told = seconds[known]
    if len(told) < 2 or (np.diff(told) < 0).any() or np.ptp(told) == 0:
        return numbers, "frame"
    minutes = (np.interp(numbers, numbers[known], told) - told[0]) / 60
    began = datetime.fromtimestamp(told[0], timezone.utc)
    return minutes, f"minutes after {began:%Y-%m-%d %H:%M:%S}"


def _plot_guides(axes: Axes, path: Where, when: dict[float, float]) -> None:
    """Each live guide's way across and down, by place in the guider."""
    ways: dict[int, list[tuple[float, float, float]]] = {}
    for line in read(path):
        for place, guide in enumerate(line["guides"]):
            if guide["misses"] == 0:
                moved = guide["dx"], guide["dy"]
                ways.setdefault(place, []).append((when[line["number"]], *moved))
    for place, way in sorted(ways.items()):
        moments, across, down = np.array(way).T
        axes.plot(
            moments,
            across,
            ".",
            markersize=2,
            color=f"C{place}",
            label=f"guide {place + 1}, across and (hollow) down",
        )
        hollow = {"fillstyle": "none", "markeredgewidth": 0.5}
        axes.plot(moments, down, "o", markersize=2, color=f"C{place}", **hollow)
