"""What frames of the camera show before a flight, and the checks that follow from it."""

from collections import Counter
from collections.abc import Iterator
from dataclasses import dataclass, replace
from pathlib import Path
from typing import Any

import numpy as np
from astropy import units as u
from tqdm import tqdm

from . import arriving, diagnosis, library
from .arrays import Records, Samples
from .attitude import angle_between, vectors
from .checks import BAD, DOUBTFUL, GOOD, Check, at_least, at_most, command
from .confirmation import HALF, sky_of
from .configuration import angle_of, field
from .folder import LEVELS, PIXEL, UNIT, Settings
from .following import Follower
from .refusals import Mistake
from .solving import mirrored_fits

# A threshold is good if its half lies so many times the noise above the sky, doubtful above it.
SPARE, ADVISED = 4.0, 5.0
# So many frames that nothing fits are asked what else would.
ASKED = 3
# Up to this share of the pixels may be hot; up to these of the listed stars may be saturated.
HOT, SATURATED, MANY = 1 / 1000, 0.05, 0.5
# A hot pixel is lone in more than this share of the frames.
MOST = 0.5


@dataclass(frozen=True)
class Look:
    """One frame: its line as follow writes it, sky and noise, and what is in it."""

    file: str
    line: dict[str, Any]
    sky: float = 0.0
    noise: float = 0.0
    listed: int = 0
    saturated: int = 0
    lone: tuple[tuple[int, int], ...] = ()
    mirrored: bool = False
    scale: float | None = None
    samples: Samples | None = None

    @property
    def accepted(self) -> bool:
        """Whether the frame has an answer."""
        return self.line["ra"] is not None


def looks(
    settings: Settings, catalogue: Records, words: list[str], how: dict[str, Any]
) -> list[Look]:
    """A look at each of the frames named."""
    found = arriving.listed(words)
    if not found:
        raise Mistake(f"{words[0]} has no image files")
    reading = (arriving.read(name, path, how) for name, path in found)
    taken = tqdm(reading, total=len(found), unit="frame", disable=None)
    seen: list[Look] = []
    ends: Counter[int | None] = Counter()
    for name, _, samples, error in taken:
        each = look(settings, catalogue, name, samples, error)
        ends[each.line["refused"]] += 1
        # The samples of a few are looked at again; a night of them would not fit into memory.
        seen.append(each if ends[each.line["refused"]] <= ASKED else replace(each, samples=None))
    return seen


def look(
    settings: Settings, catalogue: Records, name: str, samples: Samples | None, error: str | None
) -> Look:
    """A look at one frame; `error` says why there is none."""
    follower = Follower(settings, catalogue, 0.0)
    if samples is None:
        return Look(name, follower.unreadable(error))
    try:
        line = follower.frame(samples)
        listed = library.list_stars(samples, settings).stars
    except Mistake as mistake:
        return Look(name, follower.unreadable(str(mistake)))
    no_fit = line["refused"] == diagnosis.NO_FIT
    sky, noise = sky_of(samples)
    return Look(
        name,
        line,
        sky,
        noise,
        len(listed),
        sum(_is_saturated(samples, star) for star in listed),
        tuple(lone_pixels(samples, settings)),
        no_fit and mirrored_fits(settings, samples, catalogue),
        _scale(settings, catalogue, samples, line) if line["ra"] is not None else None,
        samples,
    )


def _is_saturated(samples: Samples, star: library.Centroid) -> bool:
    """Whether a sample of a star's window has the largest value there is."""
    row, column = round(star.y / PIXEL), round(star.x / PIXEL)
    window = samples[max(row - HALF, 0) : row + HALF + 1, max(column - HALF, 0) : column + HALF + 1]
    return bool((window >= LEVELS - 1).any())


def lone_pixels(samples: Samples, settings: Settings) -> Iterator[tuple[int, int]]:
    """Row and column of each pixel that the library calls lone."""
    bright = np.pad(2 * samples.astype(int) >= settings.threshold, 1)
    steps = [(down, right) for down in (-1, 0, 1) for right in (-1, 0, 1)]
    around = np.sum([np.roll(bright, step, (0, 1)) for step in steps], axis=0)
    alone = (around[1:-1, 1:-1] == 1) & (samples >= settings.threshold)
    for row, column in np.argwhere(alone).tolist():
        if library.verdict(samples, settings, row, column).kind == "lone":
            yield row, column


def _scale(
    settings: Settings, catalogue: Records, samples: Samples, line: dict[str, Any]
) -> float | None:
    """Catalogue separations of the named stars over the measured ones, all pairs together."""
    directions = library.directions(settings, library.list_stars(samples, settings))
    places = {int(identity): place for place, identity in enumerate(catalogue["identity"])}
    seen = directions[[int(number) for number in line["names"]]].astype(float) / UNIT
    sky = vectors(catalogue[[places[name] for name in line["names"].values()]])
    first, second = np.triu_indices(len(seen), 1)
    measured = angle_between(seen[first], seen[second]).sum()
    return float(angle_between(sky[first], sky[second]).sum() / measured) if measured else None


def check_frames(folder: Path, seen: list[Look]) -> Check:
    """How many frames have an answer, alone and not contradicted."""
    read = [each for each in seen if each.line["error"] is None]
    good = [each.line for each in read if each.accepted]
    refused = Counter(each.line["refused"] for each in read if not each.accepted)
    alone = sum(line["alone"] for line in good)
    verdicts = Counter(line["confirmed"] for line in good)
    parts = [f"{len(good)} of {len(seen)} accepted, {alone} alone, {verdicts[True]} confirmed"]
    parts += [f"{count} refused with {number}" for number, count in sorted(refused.items())]
    damaged = [each.file for each in seen if each.line["error"] is not None]
    parts += [f"{len(damaged)} unreadable ({damaged[0]})"] if damaged else []
    parts += [f"{verdicts[False]} not confirmed"] if verdicts[False] else []
    numbers = {"frames": len(seen), "accepted": len(good), "alone": alone, "refused": dict(refused)}
    share = len(good) / len(read) if read else 0.0
    verdict = at_least(share, 0.8, 0.01)
    if verdict == GOOD and (verdicts[False] or len(read) < len(seen)):
        verdict = DOUBTFUL
    mend = f"{command('frame', 'IMAGE', folder)}; {command('solve', folder)} says why"
    return Check("frames", ", ".join(parts), verdict, mend, numbers)


def check_threshold(folder: Path, settings: Settings, seen: list[Look]) -> Check:
    """The threshold against twice the sky and the noise, by the frame with the brightest sky."""
    worst = max(seen, key=lambda each: each.sky + SPARE * each.noise)
    half, spare = settings.threshold / 2, SPARE * worst.noise
    wanted = int(2 * (worst.sky + ADVISED * worst.noise)) + 1
    mend = f"threshold = {wanted} in CAMERA.toml; {command('settings', 'CAMERA.toml', folder)}"
    figure = (
        f"{settings.threshold}, twice the sky is at most {2 * worst.sky:.0f} with a noise of "
        f"{worst.noise:.1f} ({worst.file})"
    )
    verdict = GOOD if half >= worst.sky + spare else DOUBTFUL if half > worst.sky else BAD
    if verdict != GOOD:
        figure += ": hot pixels are taken for stars"
    return Check("threshold", figure, verdict, mend, {"sky": worst.sky, "noise": worst.noise})


def check_saturation(seen: list[Look]) -> Check:
    """How many of the listed stars have a sample at the camera's largest value."""
    listed, full = (sum(getattr(each, name) for each in seen) for name in ("listed", "saturated"))
    share = full / listed if listed else 0.0
    figure = f"{full} of {listed} listed stars have a sample of {LEVELS - 1:,}"
    numbers = {"listed": listed, "saturated": full}
    verdict = at_most(share, SATURATED, MANY)
    return Check("saturation", figure, verdict, "expose shorter, or lower the gain", numbers)


@dataclass(frozen=True)
class Hot:
    """The hot pixels of a camera: row and column of those that are lone in most frames or hot in a
    dark image, of how many frames; and how many of a dark image are measured as stars.
    """

    pixels: tuple[tuple[int, int], ...]
    frames: int
    darks: int
    measured: int


def hot_pixels(settings: Settings, seen: list[Look], darks: list[Samples]) -> Hot:
    """The map of the hot pixels."""
    counts = Counter(pixel for each in seen for pixel in each.lone)
    steady = {pixel for pixel, count in counts.items() if count > MOST * len(seen)}
    measured = 0
    for dark in darks:
        steady |= set(lone_pixels(dark, settings))
        measured += library.list_stars(dark, settings).measured
    return Hot(tuple(sorted(steady)), len(seen), len(darks), measured)


def check_hot(settings: Settings, hot: Hot) -> Check:
    """Hot pixels are harmless while they are lone and few; in a dark image nothing is a star."""
    count = len(hot.pixels)
    shown = ", ".join(f"{row} {column}" for row, column in hot.pixels[:8])
    more = "" if count <= 8 else f" and {count - 8} more"
    places = f" (row and column {shown}{more})" if count else ""
    figure = f"{count} lone in most of {hot.frames} frames or in {hot.darks} dark ones{places}"
    verdict = at_most(count, HOT * settings.width * settings.height, np.inf)
    if hot.measured:
        figure += f"; {hot.measured} measured as stars in the dark"
        verdict = BAD
    numbers = {"pixels": [list(pixel) for pixel in hot.pixels], "measured_in_dark": hot.measured}
    mend = "a higher threshold, a colder camera, or on the ground frame --dark IMAGE"
    return Check("hot pixels", figure, verdict, mend, numbers)


def check_mirror(seen: list[Look]) -> Check:
    """Whether frames fit only when they are seen in a mirror."""
    accepted = sum(each.accepted for each in seen)
    mirrored = [each.file for each in seen if each.mirrored]
    numbers = {"accepted": accepted, "mirrored": len(mirrored)}
    if not mirrored:
        figure = "no frame fits in a mirror alone" if accepted else "no frame fits either way"
        verdict = GOOD if accepted else DOUBTFUL
        return Check("readout", figure, verdict, "frames of a clear sky", numbers)
    figure = f"{len(mirrored)} frames fit in a mirror alone, {accepted} as they are: {mirrored[0]}"
    verdict = BAD if len(mirrored) > accepted else DOUBTFUL
    mend = "--flip or --mirror for frame, follow and this; in flight turn the readout round"
    return Check("readout", figure, verdict, mend, numbers)


def check_best(seen: list[Look]) -> Check:
    """The check over all named stars beside the flight's answers."""
    lines = [each.line for each in seen if each.accepted]
    warned = [each.file for each in seen if each.accepted and each.line["warning"]]
    if not lines:
        return Check("all stars", "no answer to check", DOUBTFUL, "frames of a clear sky")
    apart = [line["check_axis"] for line in lines]
    figure = (
        f"the best rotation over all named stars is {np.median(apart):.0f}″ from the answer's "
        f"axis, {max(apart):.0f}″ at most; it warns of {len(warned)} of {len(lines)}"
    )
    numbers = {"median": float(np.median(apart)), "most": max(apart), "warned": len(warned)}
    verdict = at_most(len(warned) / len(lines), 0.05, 0.5)
    mend = f"solve says why, on the frame {warned[0]}" if warned else None
    return Check("all stars", figure, verdict, mend, numbers)


def check_scale(folder: Path, settings: Settings, catalogue: Records, seen: list[Look]) -> Check:
    """The lens by the named stars' separations, else by what would fit frames that nothing fits."""
    scales = [each.scale for each in seen if each.scale is not None]
    mend = command("lens", folder)
    if not scales:
        other = next(_other_lenses(settings, catalogue, seen), None)
        if other is not None:
            return Check("lens by stars", other, BAD, mend)
        return Check("lens by stars", "no answer to measure it by", DOUBTFUL, mend)
    side = min(field(settings))
    off = abs(float(np.median(scales)) - 1)
    across = off * side.to_value(u.arcsec)
    allowed = angle_of(settings.tolerance, side).to_value(u.arcsec)
    figure = (
        f"off by {100 * off:.3f} %, {across:.0f}″ over the shorter side; the tolerance is "
        f"{allowed:.0f}″ there"
    )
    verdict = at_most(across, allowed / 2, allowed)
    return Check("lens by stars", figure, verdict, mend, {"off": off, "across": across})


def _other_lenses(settings: Settings, catalogue: Records, seen: list[Look]) -> Iterator[str]:
    """What is said of another focal length that would fit the first frames that nothing fits."""
    refused = [each for each in seen if each.line["refused"] == diagnosis.NO_FIT]
    for each in refused:
        if each.samples is None:
            return
        hints = diagnosis.what_would_fit(settings, each.samples, catalogue)
        if "focal" in hints:
            yield f"{each.file}: {hints['focal']}"
