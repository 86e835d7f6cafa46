"""Settings chosen by trial: many simulated frames, solved for every tolerance and needed count of a
grid.
"""

from __future__ import annotations

import math
import multiprocessing
import signal
import time
from collections.abc import Callable, Iterable, Iterator
from dataclasses import asdict, dataclass, replace
from typing import Any, TypeVar

import numpy as np
from astropy import units as u
from tqdm import tqdm

from . import alarms as false_alarms
from . import library
from .arrays import Bytes, Records, Words
from .attitude import angle_between, turn_between, vectors
from .choosing import choose
from .configuration import angle_of, pixel_angle, tolerance_of
from .folder import PIXEL, UNIT, Settings
from .library import Centroid, Tracked
from .rates import in_words
from .refusals import Mistake, Refused
from .rotation import rotation as best_rotation
from .simulation import Simulated, Weather, simulate
from .structures import INDEX_RECORD

# A name is right if its star was put within this many pixels of the measured position: half a
# window.
NEAR = 3.0
# The grid's tolerances, as parts of a pixel at the separation of the frame's shorter side, and its
# needed counts.
PARTS = (1 / 16, 1 / 8, 1 / 4, 1 / 2, 1)
NEEDED = (3, 4, 5, 6)
# A catalogue's index and its floor.
Index = tuple[Bytes, int]
# A job that is the same for every frame, and what comes of a frame.
Task, Part = TypeVar("Task"), TypeVar("Part")


@dataclass(frozen=True)
class Outcome:
    """One frame under one pair of settings; errors in arc seconds, None where it was refused."""

    refusal: int = 0
    wrong_names: int = 0
    axis_error: float | None = None
    turn_error: float | None = None
    rival: bool | None = None
    check_error: float | None = None
    milliseconds: float | None = None


@dataclass(frozen=True)
class Cell:
    """All frames under one pair of settings; the errors are those of frames without a wrong name.

    Where rivals were asked for, `alone` are the accepted frames that have none, and `wrong_alone`
    those of them with a wrong name. Where the check was asked for, its axis errors are beside, and
    `slowest` is the longest that the chain took, without an index, in the processor's milliseconds.
    """

    tolerance: int
    needed: int
    frames: int
    accepted: int
    wrong_names: int
    wrong_pointing: int
    refusals: dict[int, int]
    axis_median: float | None
    axis_95: float | None
    turn_median: float | None
    turn_95: float | None
    alone: int | None = None
    wrong_alone: int | None = None
    check_median: float | None = None
    check_95: float | None = None
    slowest: float | None = None

    @property
    def bound(self) -> float | None:
        """The 95 % upper bound of a rate of which none was seen among the accepted frames; None
        where none was accepted.
        """
        return none_seen(self.accepted)


@dataclass(frozen=True)
class Trial:
    """The whole grid, and how many random attitudes had too few stars to be tried; the false
    alarms, where they were counted, and their limit.
    """

    cells: tuple[Cell, ...]
    frames: int
    seed: int
    off: float
    drawn: int
    alarms: false_alarms.Alarms | None = None
    limit: float = 0.001
    wanted: int | None = None

    @property
    def stopped(self) -> bool:
        """Whether it was interrupted before the last frame that was wanted."""
        return self.wanted is not None and self.frames < self.wanted

    @property
    def recommended(self) -> Cell | None:
        """The pair to take, by the rule of `choosing`."""
        return choose(self.cells, self.alarms, self.limit)

    def as_dict(self) -> dict[str, Any]:
        """The trial in plain numbers, for JSON."""
        best = self.recommended
        pair = None if best is None else {"tolerance": best.tolerance, "needed": best.needed}
        cells = [{**asdict(cell), "bound": cell.bound} for cell in self.cells]
        alarms = None if self.alarms is None else self.alarms.as_dict()
        told = {
            "frames": self.frames,
            "seed": self.seed,
            "off": self.off,
            "drawn": self.drawn,
            "recommended": pair,
            "limit": self.limit,
        }
        return {**told, "cells": cells, "alarms": alarms}


def frames_for(cell: Cell, bound: float) -> int:
    """How many frames would bring a pair's bound down to this one, with no wrong name among them
    and as many accepted of each hundred.
    """
    return math.ceil(math.log(0.05) / math.log(1 - bound)) * cell.frames // cell.accepted + 1


def none_seen(tries: int) -> float | None:
    """The largest rate at which none of so many tries fails with a chance of 5 %: 1 - 0.05^(1 /
    tries), about 3 / tries.
    """
    return 1 - 0.05 ** (1 / tries) if tries else None


def shorter_side(settings: Settings) -> u.Quantity:
    """The angle of the frame's shorter side."""
    return (
        2 * np.arctan(min(settings.width, settings.height) * PIXEL / (2 * settings.focal)) * u.rad
    )


def default_tolerances(settings: Settings) -> list[int]:
    """The grid's tolerances for a camera."""
    _has_lens(settings)
    return [tolerance_of(part * pixel_angle(settings), shorter_side(settings)) for part in PARTS]


def trial(
    settings: Settings,
    catalogue: Records,
    frames: int,
    tolerances: Iterable[int],
    needed: Iterable[int],
    weather: Weather,
    seed: int = 0,
    off: float = 1.0,
    rivals: bool = False,
    processes: int | None = None,
    quiet: bool = False,
    sky: Records | None = None,
    check: bool = False,
    camera: Settings | None = None,
) -> Trial:
    """Simulates the frames and tries every pair of settings on each; `off` is the axis error, in
    pixels, from which a pointing is wrong.

    With `sky`, the records of the list that the catalogue was taken from, the frames have the stars
    too that were left out. With `check` the chain runs as it does in flight, without an index, and
    the rotation over all named stars is held against the truth too. With `camera` the frames are
    seen by one with another lens than the settings have.
    """
    pairs = [replace(settings, tolerance=int(t), needed=int(n)) for t in tolerances for n in needed]
    if frames < 1 or not pairs:
        raise Mistake("a trial wants at least one frame, one tolerance and one needed count")
    _has_lens(settings)
    for pair in pairs:
        refuse_early(pair, catalogue)
    if sky is not None and not np.isin(catalogue, sky).all():
        raise Mistake(
            "the sky lacks stars of the catalogue: name the list that the catalogue was made from"
        )
    index = None if check else index_of_pairs(settings, catalogue)
    job = (camera or settings, catalogue, index, pairs, weather, seed, rivals, sky)
    results = gathered(over_frames(_one, job, frames, processes, quiet))
    limit = (off * pixel_angle(settings)).to_value(u.arcsec)
    cells = tuple(
        _cell(pair, [outcomes[k] for outcomes, _ in results], limit) for k, pair in enumerate(pairs)
    )
    return Trial(cells, len(results), seed, off, sum(draws for _, draws in results), wanted=frames)


def _has_lens(settings: Settings) -> None:
    if settings.focal == 0:
        raise Mistake("the folder's settings have no lens yet: run settings first")


def gathered(results: Iterable[Part]) -> list[Part]:
    """All results; where the trial is interrupted, those that were there."""
    gathered = []
    try:
        for result in results:
            gathered.append(result)
    except KeyboardInterrupt:
        if not gathered:
            raise
    return gathered


def refuse_early(settings: Settings, catalogue: Records) -> None:
    """Settings that the library would refuse for every frame are refused before the first."""
    try:
        library.chain(np.zeros((settings.height, settings.width), np.uint16), settings, catalogue)
    except Refused as refusal:
        if refusal.number != 12:
            raise


def index_of_pairs(settings: Settings, catalogue: Records) -> Index:
    """The catalogue's index for the pairs that the frame can hold, and its floor: answers stay, and
    come sooner.
    """
    diagonal = 2 * np.arctan(
        np.hypot(settings.width, settings.height) * PIXEL / (2 * settings.focal)
    )
    floor = int(float(UNIT) ** 2 * np.cos(min(1.1 * diagonal, np.pi)))
    room = np.zeros(INDEX_RECORD * len(catalogue) * (len(catalogue) - 1) // 2, np.uint8)
    count = library.index(catalogue, floor, room)
    return room[: INDEX_RECORD * count], floor


# The outcomes of a frame, and how many attitudes were drawn for it; and what every frame needs.
Result = tuple[list[Outcome], int]
Job = tuple[Settings, Records, Index | None, list[Settings], Weather, int, bool, Records | None]
# What a process of the pool does with each frame's number, and the job that it does it for.
_work: tuple[Callable[[Any, int], Any], Any]


def _start(one: Callable[[Task, int], Part], job: Task) -> None:
    """Keeps the work in a process of the pool, which leaves an interruption to the one that started
    it.
    """
    global _work
    signal.signal(signal.SIGINT, signal.SIG_IGN)
    _work = one, job


def _numbered(number: int) -> Any:
    """What the process's work makes of a frame's number."""
    one, job = _work
    return one(job, number)


def over_frames(
    one: Callable[[Task, int], Part], job: Task, frames: int, processes: int | None, quiet: bool
) -> Iterator[Part]:
    """What `one` makes of the job and each frame's number, in order, from several processes."""
    with multiprocessing.Pool(processes, _start, (one, job)) as pool:
        results = pool.imap(_numbered, range(frames), chunksize=4)
        yield from tqdm(results, total=frames, unit="frame", disable=True if quiet else None)


def _one(job: Job, number: int) -> Result:
    """One frame: its outcomes for all pairs, and how many attitudes were drawn for it.

    Its seed is the trial's with its number.
    """
    camera, catalogue, index, pairs, weather, seed, rivals, sky = job
    frame = simulate(camera, catalogue, (seed, number), weather, sky=sky)
    return [judge(frame, pair, catalogue, index, rivals) for pair in pairs], frame.draws


def judge(
    frame: Simulated, settings: Settings, catalogue: Records, index: Index | None, rivals: bool
) -> Outcome:
    """The outcome of one simulated frame under one pair of settings."""
    room, began = library.new_room(), time.thread_time()
    lent = frame.samples, settings, catalogue
    try:
        if index is None:
            tracked = library.chain(*lent, room)
        else:
            tracked = library.chain_by_index(*lent, *index, room)
    except Refused as refusal:
        return Outcome(refusal.number, milliseconds=_since(began) if index is None else None)
    took = _since(began) if index is None else None
    rows = library.cosines(tracked.matrix)
    errors = float(angle_between(rows[2], frame.matrix[2])), float(turn_between(rows, frame.matrix))
    rival = _has_rival(tracked, settings, catalogue, room) if rivals else None
    checked = _check_error(tracked, frame, settings, catalogue) if index is None else None
    return Outcome(0, wrong_names(tracked, frame, catalogue), *errors, rival, checked, took)


def _since(began: float) -> float:
    """Milliseconds of the processor since a time of it."""
    return 1000 * (time.thread_time() - began)


def _check_error(
    tracked: Tracked, frame: Simulated, settings: Settings, catalogue: Records
) -> float:
    """How far the axis of the best rotation over all named stars is from the truth."""
    named = [(place, star) for place, star in enumerate(tracked.assignment) if star is not None]
    places, stars = [place for place, _ in named], [star for _, star in named]
    seen = library.directions(settings, tracked.report)[places].astype(float) / UNIT
    rows = best_rotation(seen, vectors(catalogue[stars]))
    return float(angle_between(rows[2], frame.matrix[2]))


def _has_rival(tracked: Tracked, settings: Settings, catalogue: Records, room: Words) -> bool:
    """Whether another identification of an accepted frame fits."""
    directions = library.directions(settings, tracked.report)
    return (
        library.rival(
            directions, catalogue, settings, library.ranking_in(room, directions, catalogue)
        )
        is not None
    )


def wrong_names(tracked: Tracked, frame: Simulated, catalogue: Records) -> int:
    """How many listed stars have a name whose star was not put near the measured position."""
    places = {star.identity: (star.column, star.row) for star in frame.stars}
    named = [
        (s, int(catalogue["identity"][k]))
        for s, k in zip(tracked.report.stars, tracked.assignment)
        if k is not None
    ]
    return sum(1 for star, name in named if not _near(places.get(name), star))


def _near(place: tuple[float, float] | None, star: Centroid) -> bool:
    return (
        place is not None and np.hypot(place[0] - star.x / PIXEL, place[1] - star.y / PIXEL) <= NEAR
    )


def _cell(settings: Settings, outcomes: list[Outcome], limit: float) -> Cell:
    """The sums over all frames for one pair."""
    accepted = [outcome for outcome in outcomes if not outcome.refusal]
    refusals = sorted(outcome.refusal for outcome in outcomes if outcome.refusal)
    right = [outcome for outcome in accepted if not outcome.wrong_names]
    axis, turn, check = (
        [getattr(outcome, name) for outcome in right if getattr(outcome, name) is not None]
        for name in ("axis_error", "turn_error", "check_error")
    )
    took = [each.milliseconds for each in outcomes if each.milliseconds is not None]
    return Cell(
        settings.tolerance,
        settings.needed,
        len(outcomes),
        len(accepted),
        sum(1 for outcome in accepted if outcome.wrong_names),
        sum(1 for outcome in accepted if (outcome.axis_error or 0.0) > limit),
        {number: refusals.count(number) for number in sorted(set(refusals))},
        *_middle_and_most(axis),
        *_middle_and_most(turn),
        *_alone(accepted),
        *_middle_and_most(check),
        max(took, default=None),
    )


def _alone(accepted: list[Outcome]) -> tuple[int | None, int | None]:
    """How many accepted frames have no rival, and how many of these a wrong name; None where rivals
    were not asked for.
    """
    if not accepted or accepted[0].rival is None:
        return None, None
    alone = [outcome for outcome in accepted if not outcome.rival]
    return len(alone), sum(1 for outcome in alone if outcome.wrong_names)


def _middle_and_most(errors: list[float]) -> tuple[float | None, float | None]:
    """The median and the value that 95 % do not exceed."""
    if not errors:
        return None, None
    median, most = np.percentile(errors, [50, 95])
    return float(median), float(most)


def table(trial: Trial, settings: Settings) -> str:
    """A trial as lines to read."""
    side = shorter_side(settings)
    lines = [
        (
            f"{trial.frames} frames, seed {trial.seed}; {trial.drawn - trial.frames} more attitudes"
            " had too few stars, and count in `of all`"
        ),
        f"{'tolerance':>17} {f'at {side.to_value(u.deg):.1f}°':>9} {'needed':>6} {'accepted':>8}"
        f" {'of all':>7} {'wrong names':>16} {'wrong pointing':>16} {'axis error':>14}"
        f" {'turn error':>14}" + ("" if trial.alarms is None else f" {'false alarms':>20}"),
    ]
    return "\n".join([*lines, *(_line(trial, cell, side) for cell in trial.cells), _advice(trial)])


def _line(trial: Trial, cell: Cell, side: u.Quantity) -> str:
    """A pair's line in the table."""
    told = [
        f"{cell.tolerance:>17}",
        f"{f'{angle_of(cell.tolerance, side).value:.1f}″':>9}",
        f"{cell.needed:>6}",
        f"{100 * cell.accepted / cell.frames:>7.1f}%",
        f"{100 * cell.accepted / trial.drawn:>6.1f}%",
        f"{_counted(cell.wrong_names, cell.bound):>16}",
        f"{_counted(cell.wrong_pointing, cell.bound):>16}",
        f"{_errors(cell.axis_median, cell.axis_95):>14}",
        f"{_errors(cell.turn_median, cell.turn_95):>14}",
    ]
    if trial.alarms is not None:
        told.append(f"{_alarms(trial.alarms.cell(cell.tolerance, cell.needed)):>20}")
    if cell.check_median is not None:
        check = _errors(cell.check_median, cell.check_95)
        told.append(f" check {check}, {cell.slowest:.1f} ms at most")
    if cell.alone is not None:
        wrong = _counted(cell.wrong_alone, none_seen(cell.alone))
        told.append(f" {100 * cell.alone / cell.frames:.1f}% alone, wrong names {wrong}")
    return " ".join(told)


def _counted(count: int | None, bound: float | None) -> str:
    """How often something was seen among the accepted frames, or the bound where it was not."""
    if bound is None:
        return "-"
    return str(count) if count else f"0 (< {100 * bound:.2f} %)"


def _alarms(cell: false_alarms.Cell | None) -> str:
    """The share of the lists with no star behind them that were accepted."""
    return "-" if cell is None else in_words(cell.accepted, cell.lists)


def _errors(median: float | None, most: float | None) -> str:
    """Median and 95 % in arc seconds."""
    return "-" if median is None else f"{median:.0f}″, {most:.0f}″"


def _advice(trial: Trial) -> str:
    best = trial.recommended
    if best is None and trial.alarms is None:
        return "no pair can be recommended: each has wrong names, or accepts nothing"
    if best is None:
        return (
            "no pair can be recommended: each has wrong names, accepts nothing, or has false"
            f" alarms that may reach {_one_in(trial.limit)}"
        )
    assert best.bound is not None  # it has accepted frames
    told = (
        f"recommended: tolerance {best.tolerance}, needed {best.needed}; accepts {best.accepted} of"
        f" {best.frames} frames, no wrong name seen, so fewer than {100 * best.bound:.2f} % of the"
        " accepted (95 %, exact binomial)"
    )
    if trial.alarms is None:
        return told
    alarms = trial.alarms.cell(best.tolerance, best.needed)
    assert alarms is not None and alarms.bound is not None  # they stay below the limit
    return (
        f"{told}; of {alarms.lists} lists with no star behind them {alarms.accepted} accepted, so"
        f" fewer than {_one_in(alarms.bound)}"
    )


def _one_in(rate: float) -> str:
    """A small rate in words."""
    return f"1 in {1 / rate:,.0f}"
