"""False alarms: lists of positions with no catalogue star behind them, and how many of them the
search accepts all the same.
"""

from __future__ import annotations

import multiprocessing
import signal
from collections import Counter
from collections.abc import Callable, Iterable, Sequence
from dataclasses import asdict, dataclass, replace
from typing import Any

import numpy as np
from astropy import units as u
from tqdm import tqdm

from . import library
from .arrays import Numbers, Records, Rows, Words
from .attitude import in_frame, random_matrix, vectors
from .configuration import angle_of
from .folder import PIXEL, UNIT, Settings
from .possible import Possible
from .rates import in_words, upper_bound
from .refusals import Mistake, Refused
from .simulation import TRIES, Weather, render

# A list has at most so many stars, and an identification wants at least three.
STARS = (4, 5, 6, 7, 8)
MOST, LEAST = 8, 3
# No two measured pixels are nearer than this in both directions, and none is nearer to a side: half
# a window.
APART = 3
# The first round has so many lists, and at each end there are so many times as many; a pair that
# has accepted so many by then is known to about a third.
FIRST, ROUNDS, ENOUGH = 200, 5, 10
# The library refuses a list that matches nothing sooner than the quick test finds out, for
# catalogues smaller than this.
FEW = 200

# Column and row in 1/256 pixel; tolerance and needed count; for each pair that accepts a list
# whether it is alone.
Position = tuple[int, int]
Pair = tuple[int, int]
Answers = dict[Pair, bool]
# How many positions a list has, and its answers; a star list's records with a weather.
Result = tuple[int, Answers]
Strange = tuple[Records, Weather]


@dataclass(frozen=True)
class Cell:
    """All lists under one pair of settings: how many were accepted, and how many of these had no
    rival; by the number of positions too.
    """

    tolerance: int
    needed: int
    lists: int
    accepted: int
    alone: int
    by_stars: dict[int, dict[str, int]]

    @property
    def bound(self) -> float | None:
        """The 95 % upper bound of the rate of accepted lists."""
        return upper_bound(self.accepted, self.lists)

    @property
    def alone_bound(self) -> float | None:
        """The same for lists that are accepted and alone."""
        return upper_bound(self.alone, self.lists)


@dataclass(frozen=True)
class Alarms:
    """The cells of a grid, and how many lists were judged of those asked for: fewer where it was
    stopped, or no pair was left to judge.
    """

    cells: tuple[Cell, ...]
    asked: int
    lists: int
    seed: int
    kind: str
    stopped: bool = False

    def cell(self, tolerance: int, needed: int) -> Cell | None:
        """The cell of a pair of settings, or None."""
        return next(
            (cell for cell in self.cells if (cell.tolerance, cell.needed) == (tolerance, needed)),
            None,
        )

    def as_dict(self) -> dict[str, Any]:
        """The grid in plain numbers, for JSON."""
        cells = [
            {**asdict(cell), "bound": cell.bound, "alone_bound": cell.alone_bound}
            for cell in self.cells
        ]
        return {
            "lists": self.lists,
            "asked": self.asked,
            "stopped": self.stopped,
            "seed": self.seed,
            "kind": self.kind,
            "cells": cells,
        }


def random_positions(random: np.random.Generator, settings: Settings, count: int) -> list[Position]:
    """Positions in 1/256 pixel where measured stars could be, all equally likely."""
    low, high = (
        np.array([APART, APART]) * PIXEL,
        (np.array([settings.width, settings.height]) - 1 - APART) * PIXEL,
    )
    places: list[Numbers] = []
    for _ in range(TRIES):
        place = random.integers(low, high + 1)
        if all(max(abs(place - other)) > APART * PIXEL for other in places):
            places.append(place)
        if len(places) == count:
            return [(int(x), int(y)) for x, y in places]
    raise Mistake(f"a frame of {settings.width} x {settings.height} has no room for {count} stars")


def strange_positions(
    random: np.random.Generator,
    settings: Settings,
    catalogue: Records,
    sky: Records,
    weather: Weather,
) -> list[Position]:
    """The list of a simulated frame of stars of the sky, at an attitude that has none of the
    catalogue in the frame.
    """
    ours, theirs = vectors(catalogue), vectors(sky)
    for _ in range(TRIES):
        matrix = random_matrix(random)
        if in_frame(matrix, ours, settings)[2].any():
            continue
        if np.count_nonzero(in_frame(matrix, theirs, settings)[2]) < weather.least:
            continue
        report = library.list_stars(
            render(settings, sky, random, weather, matrix).samples, settings
        )
        return [(star.x, star.y) for star in report.stars]
    raise Mistake(
        f"of {TRIES} attitudes none had {weather.least} stars of the list in the frame and none of"
        " the catalogue"
    )


def measure(
    settings: Settings,
    catalogue: Records,
    tolerances: Iterable[int],
    needed: Iterable[int],
    lists: int,
    stars: Sequence[int] = STARS,
    seed: int = 0,
    strange: Strange | None = None,
    rivals: bool = True,
    processes: int | None = None,
    quiet: bool = False,
) -> Alarms:
    """Judges so many lists for every pair of settings; `strange` is a star list's records and a
    weather, else positions are random.

    The lists come in rounds, and a pair that has accepted enough by the end of one is judged no
    further; its cell says how many lists it has. Without `rivals` none is asked whether it is
    alone. Stopped by Ctrl-C, it hands back what was judged so far.
    """
    _check(settings, catalogue, tolerances, needed, lists, stars)
    pairs = [(int(t), int(n)) for t in sorted(set(tolerances)) for n in sorted(set(needed))]
    results: list[Result] = []
    cells: dict[Pair, Cell] = {}
    left, end = pairs, 0
    while left and len(results) == end < lists:
        begin, end = end, min(lists, ROUNDS * end or FIRST)
        job = (Judge(settings, catalogue, left, rivals), tuple(stars), seed, strange)
        results += gathered(job, _one, range(begin, end), processes, quiet)
        cells.update({pair: _cell(pair, results) for pair in left} if results else {})
        left = [pair for pair in left if pair in cells and cells[pair].accepted < ENOUGH]
    kind = "random" if strange is None else "strange"
    judged = len(results)
    return Alarms(tuple(cells.values()), lists, judged, seed, kind, judged < end)


def _check(
    settings: Settings,
    catalogue: Records,
    tolerances: Iterable[int],
    needed: Iterable[int],
    lists: int,
    stars: Sequence[int],
) -> None:
    """What the library would refuse for every list is refused before the first."""
    if lists < 1 or not tolerances or not needed or not stars:
        raise Mistake(
            "at least one list, one tolerance, one needed count and one number of positions are"
            " wanted"
        )
    if settings.focal == 0:
        raise Mistake("the folder's settings have no lens yet")
    if not LEAST <= min(stars) <= max(stars) <= MOST:
        raise Mistake(f"a list has {LEAST} to {MOST} positions, not {' '.join(map(str, stars))}")
    for tolerance in tolerances:
        for count in needed:
            try:
                library.chain(
                    np.zeros((settings.height, settings.width), np.uint16),
                    replace(settings, tolerance=int(tolerance), needed=int(count)),
                    catalogue,
                )
            except Refused as refusal:
                if refusal.number != 12:
                    raise


class Judge:
    """Everything that is the same for all lists of a camera."""

    def __init__(
        self, settings: Settings, catalogue: Records, pairs: Iterable[Pair], rivals: bool = True
    ) -> None:
        """Pairs are tolerance and needed count."""
        self.settings, self.catalogue, self.rivals = settings, catalogue, rivals
        self.needed = {
            t: sorted(n for tolerance, n in pairs if tolerance == t)
            for t in sorted({t for t, _ in pairs}, reverse=True)
        }
        corner = np.hypot(settings.width, settings.height) * PIXEL
        across = 2 * np.arctan(corner / settings.focal)
        self.possible = Possible(
            catalogue, max(self.needed), float(UNIT) ** 2 * np.cos(min(across, np.pi))
        )
        self.asked: Counter[Pair] = Counter()
        self.whole: Counter[Pair] = Counter()

    def found(self, positions: Sequence[Position]) -> Answers:
        """For each pair that accepts a list whether that is alone.

        What does not fit a tolerance does not fit a smaller one either.
        """
        rows = np.array(
            [library.direction(self.settings, *position) for position in positions], np.int32
        ).reshape(-1, 3)
        answers, refused = {}, len(rows) + 1
        for tolerance in self.needed:
            alone, refused = self._found(rows, tolerance, refused)
            answers.update({(tolerance, needed): answer for needed, answer in alone.items()})
        return answers

    def _found(self, rows: Rows, tolerance: int, refused: int) -> tuple[dict[int, bool], int]:
        """The same for one tolerance, and the smallest needed count known to be refused.

        An assignment with more names than are needed is the first that fits for those counts as
        well.
        """
        alone: dict[int, bool] = {}
        names, ranking = 0, None
        for needed in self.needed[tolerance]:
            if needed >= refused:
                break
            settings = replace(self.settings, tolerance=tolerance, needed=needed)
            if needed > names or self.rivals:
                stars = self._stars(rows, tolerance, needed)
                if len(stars) < needed:
                    return alone, needed
                ranking = (
                    library.rank(rows, self.catalogue, settings, library.new_room())
                    if ranking is None
                    else ranking
                )
                part = (
                    self.catalogue[stars],
                    settings,
                    _among(ranking.reshape(len(rows), -1), stars),
                )
            if needed > names:
                names = _names(rows, *part)
            if needed > names:
                return alone, needed
            alone[needed] = self.rivals and library.rival(rows, *part) is None
        return alone, refused

    def _stars(self, rows: Rows, tolerance: int, needed: int) -> Numbers:
        """The stars to search among: those that are usable, or all where that is quicker: of a
        small catalogue, or if mostly half of it is usable.
        """
        pair, count = (tolerance, needed), len(self.catalogue)
        if count < FEW or self.whole[pair] > 0.7 * self.asked[pair] + 3:
            return np.arange(count)
        stars = self.possible.usable(rows, tolerance, needed)
        self.asked[pair] += 1
        self.whole[pair] += len(stars) > count / 2
        return stars


def _among(ranking: Words, stars: Numbers) -> Words:
    """A ranking's rows with these stars alone, in order, by their numbers among themselves."""
    number = np.full(ranking.shape[1], -1)
    number[stars] = np.arange(len(stars))
    part = number[ranking]
    return np.ascontiguousarray(part[part >= 0], np.uint16)


def _names(rows: Rows, catalogue: Records, settings: Settings, ranking: Words) -> int:
    """How many names the search gives, 0 where the chain would refuse: no assignment fits, or there
    is no attitude.
    """
    try:
        answer = library.search(rows, catalogue, settings, ranking)
        first, second = [k for k, star in enumerate(answer) if star is not None][:2]
        stars = [[int(catalogue[answer[k]][axis]) for axis in "xyz"] for k in (first, second)]
        library.attitude(rows[first], rows[second], *stars)
    except Refused as refusal:
        if refusal.number not in (13, 14):
            raise
        return 0
    return sum(star is not None for star in answer)


Job = tuple[Judge, tuple[int, ...], int, Strange | None]
_job: Job


def _start(job: Job) -> None:
    """Keeps the job in a process of the pool; Ctrl-C is the first process's to answer."""
    global _job
    _job = job
    signal.signal(signal.SIGINT, signal.SIG_IGN)


def gathered(
    job: Job, one: Callable[[int], Result], numbers: range, processes: int | None, quiet: bool
) -> list[Result]:
    """What `one` gives for each number, in order, from several processes; after Ctrl-C as many as
    there are.
    """
    results = []
    with multiprocessing.Pool(processes, _start, (job,)) as pool:
        try:
            for result in tqdm(
                pool.imap(one, numbers, chunksize=8),
                total=len(numbers),
                unit="list",
                disable=True if quiet else None,
            ):
                results.append(result)
        except KeyboardInterrupt:
            pool.terminate()
    return results


def _one(number: int) -> Result:
    """One list, by its number: how many positions it has, and which pairs accept it."""
    judge, stars, seed, strange = _job
    random = np.random.default_rng((seed, number))
    if strange is None:
        positions = random_positions(random, judge.settings, stars[number % len(stars)])
    else:
        positions = strange_positions(random, judge.settings, judge.catalogue, *strange)
    return len(positions), judge.found(positions)


def _cell(pair: Pair, results: list[Result]) -> Cell:
    """The sums over all lists for one pair."""
    lists: Counter[int] = Counter()
    accepted: Counter[int] = Counter()
    alone: Counter[int] = Counter()
    for count, answers in results:
        lists[count] += 1
        accepted[count] += pair in answers
        alone[count] += answers.get(pair, False)
    by_stars = {
        count: {"lists": lists[count], "accepted": accepted[count], "alone": alone[count]}
        for count in sorted(lists)
    }
    return Cell(*pair, len(results), sum(accepted.values()), sum(alone.values()), by_stars)


def table(alarms: Alarms, side: u.Quantity) -> str:
    """Alarms as lines to read; `side` is the separation at which tolerances are told as angles."""
    if not alarms.cells:
        return "stopped before the first list"
    counts = list(alarms.cells[0].by_stars)
    most = counts[-1]
    spread = f"{most}" if len(counts) == 1 else f"{counts[0]} to {most}"
    what = "random positions" if alarms.kind == "random" else "stars of strange frames"
    short = f", stopped before {alarms.asked}" if alarms.stopped else ""
    lines = [
        (
            f"{alarms.lists} lists of {spread} {what}, no catalogue star behind any{short}; seed"
            f" {alarms.seed}; in brackets the 95 % upper bound, exact"
        ),
        (
            f"(a pair that has accepted {ENOUGH} of the first {FIRST}, {FIRST * ROUNDS}, ... is"
            " judged on these alone)"
        ),
        (
            f"{'tolerance':>17} {f'at {side.to_value(u.deg):.1f}°':>9} {'needed':>6}"
            f" {'accepted':>20} {'accepted and alone':>20} {f'accepted, lists of {most}':>22}"
        ),
    ]
    for cell in alarms.cells:
        angle = f"{angle_of(cell.tolerance, side).value:.1f}″"
        full = cell.by_stars[most]
        rates = f"{in_words(cell.accepted, cell.lists):>20} {in_words(cell.alone, cell.lists):>20}"
        last = in_words(full["accepted"], full["lists"])
        lines.append(f"{cell.tolerance:>17} {angle:>9} {cell.needed:>6} {rates} {last:>22}")
    return "\n".join(lines)
