"""Checks before a flight by trial: enough stars, no wrong names, few false alarms and rivals."""

from dataclasses import dataclass
from pathlib import Path

from astropy import units as u

from . import alarms, trials
from .arrays import Records
from .checks import BAD, DOUBTFUL, GOOD, Check, at_least, at_most, command
from .configuration import pixel_angle
from .coverage import Coverage, coverage
from .folder import Settings
from .rates import in_words
from .region import Region
from .simulation import Weather

# Wrong names and false alarms are good below these rates, with their upper bound; so many lists
# without one are enough for that, and beyond the last rate false alarms are bad.
WRONG, ALARMS, ENOUGH, TOO_MANY = 0.01, 0.001, 3000, 0.01
# The longest search, in milliseconds of this machine: good up to the first, bad beyond the second.
QUICK, SLOW = 100.0, 1000.0


@dataclass(frozen=True)
class Tried:
    """A trial of the folder's own settings: simulated frames, lists of nothing, and the stars."""

    cell: trials.Cell
    drawn: int
    alarms: alarms.Cell
    coverage: Coverage
    region: str


def tried(
    settings: Settings,
    catalogue: Records,
    region: Region,
    weather: Weather,
    frames: int,
    lists: int,
    seed: int = 0,
) -> Tried:
    """Runs the trial; an interrupt ends it."""
    pair = [settings.tolerance], [settings.needed]
    made = trials.trial(settings, catalogue, frames, *pair, weather, seed, rivals=True, check=True)
    stars = (alarms.MOST,)
    empty = None
    if not made.stopped:
        empty = alarms.measure(settings, catalogue, *pair, lists, stars, seed, rivals=False)
    if empty is None or empty.stopped:
        raise KeyboardInterrupt
    counted = coverage(settings, catalogue, region)
    return Tried(made.cells[0], made.drawn, empty.cells[0], counted, str(region))


def check_coverage(folder: Path, settings: Settings, told: Tried) -> Check:
    """Whether nearly everywhere that the flight points enough catalogue stars are in the frame."""
    share = told.coverage.share(settings.needed)
    figure = (
        f"{100 * share:.1f} % of {len(told.coverage.counts):,} attitudes ({told.region}) have the "
        f"{settings.needed} catalogue stars that are needed"
    )
    mend = f"{command('catalogue', 'STARS', folder)}, of the region alone, or deeper"
    return Check("coverage", figure, at_least(share, 0.9, 0.5), mend, {"share": share})


def check_accepted(folder: Path, cell: trials.Cell) -> Check:
    """How many simulated frames are accepted, of those with three catalogue stars or more."""
    share = cell.accepted / cell.frames
    refused = ", ".join(f"{count} refused with {number}" for number, count in cell.refusals.items())
    figure = f"{cell.accepted} of {cell.frames} simulated frames accepted"
    figure += f"; {refused}" if refused else ""
    mend = f"{command('trial', folder, '--set')}, or another catalogue"
    numbers = {"accepted": cell.accepted, "frames": cell.frames, "refusals": cell.refusals}
    return Check("accepted", figure, at_least(share, 0.8, 0.5), mend, numbers)


def check_names(folder: Path, cell: trials.Cell) -> Check:
    """Wrong names among the accepted frames: none, and surely few; never where alone."""
    figure = f"wrong names in {in_words(cell.wrong_names, cell.accepted)} of the accepted"
    numbers = {"wrong": cell.wrong_names, "wrong_alone": cell.wrong_alone, "bound": cell.bound}
    verdict = GOOD
    if cell.wrong_alone:
        figure += f", {cell.wrong_alone} of them alone"
        verdict = BAD
    elif cell.wrong_names or cell.bound is None or cell.bound > WRONG:
        verdict = DOUBTFUL
    mend = command("trial", folder, "--set")
    if verdict == DOUBTFUL and cell.accepted and not cell.wrong_names:
        figure += f"; {100 * WRONG:g} % is wanted"
        mend = command("preflight", folder, "--trial", trials.frames_for(cell, WRONG))
    return Check("wrong names", figure, verdict, mend, numbers)


def check_alarms(folder: Path, cell: alarms.Cell) -> Check:
    """Lists with no star behind them that are accepted all the same."""
    figure = (
        f"{in_words(cell.accepted, cell.lists)} of {cell.lists:,} lists with no star behind them "
        f"are accepted; fewer than {100 * ALARMS:g} % are wanted"
    )
    numbers = {"accepted": cell.accepted, "lists": cell.lists, "bound": cell.bound}
    if cell.bound is not None and cell.bound < ALARMS:
        return Check("false alarms", figure, GOOD, numbers=numbers)
    mend = command("trial", folder, "--set")
    if not cell.accepted:
        mend = command("preflight", folder, "--lists", ENOUGH)
    verdict = BAD if cell.accepted > TOO_MANY * cell.lists else DOUBTFUL
    return Check("false alarms", figure, verdict, mend, numbers)


def check_rivals(folder: Path, cell: trials.Cell) -> Check:
    """How many accepted frames have another identification that fits as well."""
    rivals = cell.accepted - (cell.alone or 0)
    share = rivals / cell.accepted if cell.accepted else 1.0
    figure = f"{rivals} of {cell.accepted} accepted frames have another answer that fits"
    mend = f"{command('catalogue', 'STARS', folder, '--apart', 'DEG')}; more names needed"
    return Check("rivals", figure, at_most(share, 0.02, 0.2), mend, {"rivals": rivals})


def check_accuracy(settings: Settings, cell: trials.Cell) -> Check:
    """The answer's axis against the truth, and that of the check over all named stars."""
    if cell.axis_95 is None:
        return Check("accuracy", "no accepted frame to measure it by", BAD)
    pixel = pixel_angle(settings).to_value(u.arcsec)
    figure = (
        f"the axis is within {cell.axis_95:.0f}″ of the truth in 95 of 100 accepted frames, that "
        f"of the check over all named stars within {cell.check_95:.0f}″; a pixel has {pixel:.0f}″"
    )
    numbers = {"axis_95": cell.axis_95, "check_95": cell.check_95}
    return Check("accuracy", figure, at_most(cell.axis_95, pixel / 2, pixel), numbers=numbers)


def check_time(cell: trials.Cell) -> Check:
    """The longest chain over the trial."""
    longest = cell.slowest or 0.0
    figure = f"{longest:.1f} ms of this machine for the longest chain of {cell.frames} frames"
    mend = "a smaller tolerance, fewer stars, or an index; FLIGHT says what a board takes"
    numbers = {"milliseconds": longest}
    return Check("longest search", figure, at_most(longest, QUICK, SLOW), mend, numbers)
