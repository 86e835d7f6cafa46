"""The subcommands of ./mnemathor that need Python: their words, their help, and what they print."""

from __future__ import annotations

import argparse
import json
import os
import re
import sys
from collections.abc import Callable, Iterable, Iterator, Sequence
from dataclasses import fields, replace
from pathlib import Path
from typing import TYPE_CHECKING, Any, NoReturn, TypeAlias

from . import configuration, evenly, frames, stars
from .arrays import Records, Samples
from .attitude import Pointing
from .endings import REFUSED, end
from .folder import PIXEL, SAMPLE, Settings, settings_bytes
from .folder import read_catalogue, read_frame, read_settings
from .horizon import Night
from .keeping import may_write, record_of, write_file, write_folder
from .refusals import Mistake, Refused
from .words import moment, number, whole

# What takes its time to load is loaded by the subcommand that needs it.
if TYPE_CHECKING:
    from .confirmation import Worth
    from .following import Follower, Taken
    from .nightlog import Line, Log
    from .rotation import Best
    from .simulation import Weather
    from .solving import Solution
    from .trials import Trial

Words = argparse.Namespace
# The console script of pyproject.toml; without it the subcommands are those of ./mnemathor.
SCRIPT = "mnemathor-ground"
# The words that say how an image becomes a frame, beside --bin.
IMAGE = "dark crop full flip mirror hdu plane"


def main(words: Sequence[str]) -> int:
    """Runs a subcommand; the status is that of `endings`."""
    return end(run, words)


def run(words: Sequence[str]) -> None:
    """Runs a subcommand.

    A file or folder whose name begins with a dash is one, where there is no such option.
    """
    arguments = parser().parse_args(
        [
            f"./{word}" if re.match("-[^-h0-9.]", word) and os.path.exists(word) else word
            for word in words
        ]
    )
    arguments.run(arguments)


class _Parser(argparse.ArgumentParser):
    """Wrong words are a mistake as any other, told in a line."""

    def error(self, message: str) -> NoReturn:
        raise Mistake(f"{message}; {self.prog} --help tells more")


Subcommands: TypeAlias = "argparse._SubParsersAction[_Parser]"


def parser() -> argparse.ArgumentParser:
    """All subcommands."""
    called = Path(sys.argv[0]).name
    top = _Parser(
        prog=called if called == SCRIPT else "./mnemathor",
        description="The star camera on the ground.",
    )
    subcommands = top.add_subparsers(required=True, metavar="SUBCOMMAND")
    for add in (
        _add_frame,
        _add_catalogue,
        _add_settings,
        _add_lens,
        _add_solve,
        _add_follow,
        _add_compare_nights,
        _add_preflight,
        _add_picture,
        _add_page,
        _add_simulate,
        _add_trial,
    ):
        add(subcommands)
    return top


class _Help(argparse.ArgumentDefaultsHelpFormatter):
    """Tells the defaults, where there is one."""

    def _get_help_string(self, action: argparse.Action) -> str | None:
        told = not (action.default is None or action.default is False)
        return super()._get_help_string(action) if told else action.help


def _add(
    subcommands: Subcommands, name: str, run: Callable[[Words], None], line: str, description: str
) -> argparse.ArgumentParser:
    """A subcommand with its line and its description."""
    words = subcommands.add_parser(
        name,
        help=line,
        description=f"{line[0].upper()}{line[1:]}. {description}",
        formatter_class=_Help,
    )
    words.set_defaults(run=run)
    return words


def _add_force(words: argparse.ArgumentParser, what: str) -> None:
    """The word that lets a file go that the tools did not make."""
    words.add_argument("--force", action="store_true", help=f"overwrite a {what}")


def _given(words: Words, names: str) -> dict[str, Any]:
    """Some of the words, by their names."""
    return {name: getattr(words, name) for name in names.split()}


# frame


def _add_frame(subcommands: Subcommands) -> None:
    words = _add(
        subcommands,
        "frame",
        _frame,
        "turns an image into frame.bin",
        (
            "FITS, PNG, TIFF, PGM or .npy. A value v becomes v x 4096 / FULL, rounded down. FULL is"
            " 2^bits of the file's unsigned type (256, 65536), 2^(bits - 1) of a signed one;"
            " floats, more than 16 bits, and 12 bits in words of 16 need --full. Values below 0"
            " become 0, values above 4,095 become 4,095; both are counted and told. The frame's"
            " size goes into settings.bin, and with a new size the centre goes to the middle,"
            " unless it was calibrated. solve and picture take frames up to 1,024 x 1,024, the"
            " program itself up to 32,000 samples: --bin and --crop make frames smaller. How the"
            " frame was binned goes into made.json, where settings reads it."
        ),
    )
    words.add_argument("image", metavar="IMAGE", help="the image file")
    words.add_argument(
        "folder",
        metavar="FOLDER",
        help="where frame.bin and settings.bin go; made if it is not there",
    )
    _add_dark(words)
    _add_image(words)
    _add_force(
        words,
        "frame.bin that frame or simulate did not make, and move a calibrated centre to the middle",
    )


def _add_image(words: argparse.ArgumentParser) -> None:
    """How an image becomes a frame."""
    words.add_argument(
        "--bin",
        type=whole(1),
        default=1,
        metavar="N",
        help="each sample the mean of N x N pixels; left over rows and columns are dropped",
    )
    words.add_argument(
        "--crop",
        type=whole(),
        nargs=4,
        metavar=("LEFT", "TOP", "WIDTH", "HEIGHT"),
        help="a part of the image, in its pixels, before binning",
    )
    _add_readout(words)


def _add_dark(words: argparse.ArgumentParser) -> None:
    """The image that is taken off every other."""
    words.add_argument("--dark", metavar="IMAGE", help="an image to take off first, pixel by pixel")


def _add_readout(words: argparse.ArgumentParser) -> None:
    """What the file says of the camera, and what it does not."""
    words.add_argument(
        "--full",
        type=number(above=0),
        help=(
            "the value that would be just too large for the camera, as 4096 for 12 bits in 16-bit"
            " words"
        ),
    )
    words.add_argument(
        "--flip", action="store_true", help="top row last, for a readout that is upside down"
    )
    words.add_argument(
        "--mirror", action="store_true", help="left column last, for a readout that is mirrored"
    )
    words.add_argument(
        "--hdu",
        type=whole(),
        metavar="N",
        help="the unit of a FITS file that has several images, counted from 0",
    )
    words.add_argument(
        "--plane",
        type=whole(),
        metavar="N",
        help="the plane of a cube, or the colour of a picture, counted from 0",
    )


def _how(words: Words, names: str = IMAGE) -> dict[str, Any]:
    """How images become frames, as the words say."""
    return _given(words, names) | {"binning": words.bin}


def _frame(words: Words) -> None:
    how = _how(words, f"{IMAGE} force")
    frame, settings, notes = frames.convert(words.image, words.folder, **how)
    low, high = int(frame.samples.min()), int(frame.samples.max())
    print(
        f"frame {settings.width} x {settings.height}, samples {low} to {high}, full scale"
        f" {frame.full:g}"
    )
    for note in (*frame.notes, *notes):
        print(note)
    for count, what in (
        (frame.negative, "below 0, set to 0"),
        (frame.clipped, "above 4,095, set to 4,095"),
        (frame.blank, "without a value, set to 0"),
    ):
        if count:
            print(f"{count} pixels {what}")


# catalogue


def _add_catalogue(subcommands: Subcommands) -> None:
    words = _add(
        subcommands,
        "catalogue",
        _catalogue,
        "turns a star list into catalogue.bin",
        (
            "CSV (commas, semicolons, tabs or bars), VizieR's TSV, ECSV, VOTable or FITS table with"
            " columns for identity, right ascension, declination and magnitude; the usual names are"
            " known, those of HYG, Hipparcos and Yale too. Text is hours and degrees; numbers have"
            " their column's unit, else they are degrees, unless they could be hours: then --hours"
            " or --degrees has to say. Places are taken as they are: bring them to the camera's"
            " date first if that matters. A catalogue has at most 512 stars. What is left out of"
            " the list is told with its lines."
        ),
    )
    words.add_argument("stars", metavar="STARS", help="the star list")
    words.add_argument(
        "folder", metavar="FOLDER", help="where catalogue.bin goes; made if it is not there"
    )
    _add_columns(words)
    _add_choice(words)
    _add_force(words, "catalogue.bin that catalogue did not make")


def _add_columns(words: argparse.ArgumentParser) -> None:
    """How the list is read."""
    words.add_argument(
        "--columns",
        nargs="+",
        metavar="NAME",
        help="the columns of identity, right ascension, declination, magnitude, in this order",
    )
    words.add_argument(
        "--number",
        action="store_true",
        help="count the rows from 1 for identities (and name three columns only)",
    )
    unit = words.add_mutually_exclusive_group()
    unit.add_argument(
        "--hours", action="store_true", help="right ascensions that are numbers are hours"
    )
    unit.add_argument(
        "--degrees",
        action="store_true",
        help="right ascensions that are numbers are degrees, though none reaches 24",
    )


def _add_choice(words: argparse.ArgumentParser) -> None:
    """Which stars of the list the catalogue has."""
    words.add_argument(
        "--limit", type=number(-100, 100), metavar="MAG", help="leave fainter stars out"
    )
    words.add_argument(
        "--around",
        type=number(-360, 360),
        nargs=2,
        metavar=("RA", "DEC"),
        help="only stars near this place, degrees",
    )
    words.add_argument(
        "--within", type=number(0, 180), metavar="DEG", help="how near, with --around"
    )
    _add_night(words)
    choice = words.add_mutually_exclusive_group()
    choice.add_argument(
        "--brightest", type=whole(1), metavar="N", help="of what is left, only the N brightest"
    )
    choice.add_argument(
        "--even",
        type=number(0, 512),
        nargs="*",
        metavar=("K", "R"),
        help="of what is left, only stars with fewer than K brighter ones within R degrees; "
        "unless said 8, and half the frame's shorter side, or as far as leaves at most 512",
    )
    words.add_argument(
        "--apart",
        type=number(0, 180),
        metavar="DEG",
        help="then leave both stars of every closer pair out, by the library's own cut",
    )
    words.add_argument(
        "--names", action="store_true", help="keep the list's common names, for solve and picture"
    )


def _add_night(words: argparse.ArgumentParser) -> None:
    """Where and when a gimbal looks at the sky."""
    words.add_argument(
        "--site",
        type=number(-360, 360),
        nargs=2,
        metavar=("LAT", "LON"),
        help="only stars that come into a frame there, degrees north and east",
    )
    since = "from this time, as 2026-09-21T20:00, UTC"
    words.add_argument("--from", type=moment, dest="begin", metavar="TIME", help=since)
    words.add_argument("--to", type=moment, dest="end", metavar="TIME", help="to this time")
    words.add_argument(
        "--elevation",
        type=number(-90, 90),
        nargs=2,
        metavar=("MIN", "MAX"),
        help="the elevations of the axis, degrees; else 0 to 90",
    )


def _night_of(words: Words) -> Night | None:
    """The night that the words speak of, or None."""
    wanted = words.site, words.begin, words.end
    if all(word is None for word in (*wanted, words.elevation)):
        return None
    if None in wanted:
        raise Mistake("--site, --from and --to go together, and --elevation with them")
    if abs(words.site[0]) > 90:
        raise Mistake(f"--site: the latitude {words.site[0]:g} is not -90 to 90; it comes first")
    if words.begin >= words.end:
        raise Mistake("--from must be earlier than --to")
    low, high = words.elevation or (0.0, 90.0)
    if low > high:
        raise Mistake(f"--elevation {low:g} {high:g}: the lower one comes first")
    latitude, longitude = words.site
    return Night(latitude, longitude, words.begin, words.end, low, high)


def _even(words: Words) -> stars.Even | None:
    """K and R, or the choice by the lens; None where no even choice is asked for."""
    if not words.even:
        return None if words.even is None else evenly.choose
    count, radius = words.even if len(words.even) == 2 else (0, 0)
    if count < 1 or count != int(count) or radius > 180:
        raise Mistake("--even wants a whole K and R in degrees, as --even 8 14, or neither")
    return int(count), radius


def _catalogue(words: Words) -> None:
    _check_around(words)
    hours = True if words.hours else False if words.degrees else None
    which = _given(words, "columns number limit around within brightest apart names force")
    which |= {"night": _night_of(words), "even": _even(words)}
    chosen = stars.convert(words.stars, words.folder, hours=hours, **which)
    print(f"{len(chosen.records)} stars, from the columns {', '.join(chosen.columns.values())}")
    for note in chosen.notes:
        print(note)
    for reason, count in chosen.left_out.items():
        print(f"{count} left out: {reason}")


# settings


def _add_settings(subcommands: Subcommands) -> None:
    words = _add(
        subcommands,
        "settings",
        _settings,
        "turns a TOML file into settings.bin, or back",
        (
            "Which of the two is the TOML file is told by its ending, .toml. It has threshold,"
            " needed, tolerance and lens, and may have width, height and centre (else those of the"
            " folder, and the frame's middle). tolerance is a number, or { angle = '60 arcsec',"
            " separation = '10 deg' }, which is 10^18 x |cos(separation + angle) -"
            " cos(separation)|. lens is { pixels = 64.0 }, or { millimetres = 12.0, micrometres ="
            " 7.5 } for focal length and pixel pitch, those of the camera before binning: how the"
            " folder's frame was binned is read from made.json, unless binning says it. centre is"
            " [column, row] in the frame's pixels. Printed are the settings as they are then, with"
            " the angle of a pixel and of the frame; with --covers also the tolerance that is sure"
            " to cover such an error of every position, in any field (SETTINGS has the law and what"
            " comes on top)."
        ),
    )
    words.add_argument("source", metavar="FILE.toml", help="the TOML file; or the folder to read")
    words.add_argument(
        "target", metavar="FOLDER", help="where settings.bin goes; or the TOML file to write"
    )
    words.add_argument(
        "--covers",
        type=number(0, 100),
        metavar="PIXELS",
        help="also print the tolerance that covers positions off by at most this",
    )
    _add_force(
        words, "settings.bin or TOML file that the tools did not make, or that was changed since"
    )


def _settings(words: Words) -> None:
    binning = 1
    if Path(words.source).suffix == ".toml":
        settings, binning = configuration.convert(words.source, words.target, words.force)
    elif Path(words.target).suffix == ".toml":
        settings = configuration.convert_back(words.source, words.target, words.force)
    else:
        raise Mistake("one of the two must end in .toml")
    if binning > 1:
        print(f"# the folder's frame is binned {binning} x {binning}, and the lens with it")
    print(configuration.toml_of(settings), end="")
    if words.covers is not None:
        wanted = configuration.covering_tolerance(settings.focal, words.covers)
        beyond = (
            ", which is more than a tolerance may be"
            if wanted > configuration.MOST_TOLERANT
            else ""
        )
        print(
            f"# a tolerance of {wanted}{beyond} covers positions off by at most"
            f" {words.covers:g} pixel, in any field"
        )


# lens


def _add_lens(subcommands: Subcommands) -> None:
    words = _add(
        subcommands,
        "lens",
        _lens,
        "finds the focal length from frames, where the lens is not well known",
        "FRAMES are image files, or folders of them; without any it is the folder's own frame. "
        "Focal lengths within --reach of the settings' are tried, in steps that the settings' "
        "tolerance bridges. The one with which most stars get names is fitted, by least squares "
        "over these stars, and the centre with it where that is clearly off. Told are both with "
        "their errors, how many stars got names, how many the next best candidate has, and which "
        "tolerance goes with the scatter. Refused with 13 where nothing fits; status 2 where "
        "another candidate is nearly as good: then give more frames. --set writes focal length, "
        "centre and tolerance into the settings.",
    )
    guessed = "has settings.bin, with a guess of the lens, and catalogue.bin"
    words.add_argument("folder", metavar="FOLDER", help=guessed)
    images = "image files, or a folder of them; else frame.bin of FOLDER"
    words.add_argument("frames", metavar="FRAMES", nargs="*", default=None, help=images)
    words.add_argument(
        "--reach",
        type=number(0.01, 50),
        default=10.0,
        metavar="PERCENT",
        help="how far from the settings' focal length to look, each way",
    )
    words.add_argument(
        "--most",
        type=whole(1, 1000),
        default=8,
        metavar="N",
        help="of more frames so many are taken, evenly spread",
    )
    words.add_argument("--json", action="store_true", help="print JSON")
    written = "write focal length, centre and tolerance into the settings"
    words.add_argument("--set", action="store_true", help=written)
    _add_dark(words)
    _add_image(words)
    _add_force(words, "settings.bin that the tools did not make, or that was changed since")


def _lens(words: Words) -> None:
    from . import lens, library

    settings, catalogue = read_settings(words.folder), read_catalogue(words.folder)
    configuration.check(settings)
    library.check_catalogue(catalogue)
    found = lens.find(settings, _samples(words, settings), catalogue, words.reach / 100)
    binning = words.bin
    if not words.frames:
        binning = record_of(words.folder, "frame.bin").get("binning", 1)
    told = "\n".join(found.lines(settings, binning))
    print(json.dumps(found.as_dict(), indent=1) if words.json else told, flush=True)
    if not found.sure:
        more = "more frames, or some with more stars"
        raise Mistake(f"too few names to be sure of this lens: {more}; the settings stay")
    if words.set:
        files = {"settings.bin": settings_bytes(found.settings)}
        write_folder(words.folder, files, "lens", force=words.force)


def _samples(words: Words, settings: Settings) -> list[Samples]:
    """The frames to find the lens from, evenly spread; those that cannot be used are told."""
    from . import arriving

    if not words.frames:
        return [read_frame(words.folder, settings)]
    listed = arriving.listed(words.frames)
    if not listed:
        raise Mistake(f"{words.frames[0]} has no image files")
    count = min(words.most, len(listed))
    chosen = [listed[place * len(listed) // count] for place in range(count)]
    used = []
    for name, path in chosen:
        _, _, samples, error = arriving.read(name, path, _how(words))
        if samples is not None and samples.shape == (settings.height, settings.width):
            used.append(samples)
        else:
            wrong = error if samples is None else _other_size(samples, settings)
            print(f"mnemathor: {name}: {wrong}", file=sys.stderr)
    if not used:
        raise Mistake("none of the frames can be used")
    return used


def _other_size(samples: Samples, settings: Settings) -> str:
    """That a frame's size is not the settings'."""
    height, width = samples.shape
    wanted = f"{settings.width} x {settings.height}"
    return f"has {width} x {height} pixels, and the settings say {wanted}"


# solve


def _add_solve(subcommands: Subcommands) -> None:
    words = _add(
        subcommands,
        "solve",
        _solve,
        "says where the camera points, with every named star",
        (
            "Runs the chain and the rival call. Right ascension and declination are those of the"
            " camera's axis, which goes through the settings' centre; roll is the position angle of"
            " the frame's upward direction, from north through east; all in degrees, in the"
            " catalogue's own coordinates. A residual is the angle from a star's measured direction"
            " to where the matrix puts it; the attitude rests on the first two named stars, so the"
            " first has none. The last line says whether the stars that the answer did not use"
            " confirm it: how many of the catalogue's others in the frame lie within two pixels of"
            " a measured position, and how many would by chance. Where they are too few to tell, it"
            " says how often random positions get as many names; that is counted once and kept in"
            " alarms.json. For a frame that is refused with 12, 13 or 14 the list, sky, noise and"
            " saturated samples are told, and after 13 whether a mirror image, a wider tolerance,"
            " one needed fewer or another focal length near by would fit. The check over all named"
            " stars is the rotation that fits them best in least squares. It is no part of the"
            " answer, which is the flight's own; it warns where the answer's two stars are close"
            " together, or where the two differ by more than the stars' scatter allows."
        ),
    )
    words.add_argument(
        "folder", metavar="FOLDER", help="has settings.bin, catalogue.bin and frame.bin"
    )
    words.add_argument("--json", action="store_true", help="print JSON")
    words.add_argument(
        "--wcs",
        metavar="OUT",
        help=(
            "write the frame's world coordinates for other tools: .fits with the frame in it, .wcs"
            " alone"
        ),
    )
    _add_force(words, "file OUT that the tools did not make")


def _solve(words: Words) -> None:
    from . import commonnames, confirmation, diagnosis, headers, rotation, solving

    settings, samples, catalogue = solving.read_folder(words.folder)
    try:
        solution = solving.solve(settings, samples, catalogue)
    except Refused as refusal:
        hints = _tell_refused(refusal, settings, samples, catalogue, words.json)
        raise refusal.with_note("; ".join(hints) or None) from refusal
    if words.wcs:
        write_file(words.wcs, headers.written(words.wcs, settings, samples, solution), words.force)
    worth = confirmation.worth(words.folder, settings, samples, catalogue, solution)
    check = rotation.best(settings, catalogue, solution)
    names = commonnames.read(words.folder)
    if words.json:
        measured = diagnosis.measure(settings, samples, catalogue)
        listed = [star.identity for star in solution.named if star.identity in names]
        common = {identity: names[identity] for identity in listed}
        told = {
            "refused": None,
            **solution.as_dict(),
            "common_names": common,
            "sexagesimal": solution.pointing.sexagesimal,
            "check": check.as_dict(),
        }
        print(json.dumps({**told, **measured.as_dict(), **worth.as_dict()}, indent=1))
    else:
        _tell(solution, worth, check, names)


def _tell_refused(
    refusal: Refused, settings: Settings, samples: Samples, catalogue: Records, as_json: bool
) -> list[str]:
    """Prints what was measured of a frame that has too few stars, or that nothing fits; hands back
    what to try.
    """
    from . import diagnosis

    if refusal.number not in diagnosis.OF_THE_FRAME:
        return [configuration.about(refusal.number, settings) or refusal.about or ""]
    measured = diagnosis.measure(settings, samples, catalogue)
    hints = (
        diagnosis.what_would_fit(settings, samples, catalogue)
        if refusal.number == diagnosis.NO_FIT
        else {}
    )
    if as_json:
        refused = {"number": refusal.number, "place": refusal.place, "sentence": refusal.sentence}
        print(json.dumps({"refused": refused, **measured.as_dict(), "would_fit": hints}, indent=1))
    else:
        print("\n".join(measured.lines()))
    return list(hints.values())


def _in_degrees(where: Pointing) -> str:
    """A pointing as solve and simulate print it."""
    place = f"right ascension {where.ra:.5f}  declination {where.dec:+.5f}"
    return f"{place}  roll {where.roll:.4f}  (degrees)"


def _tell(solution: Solution, worth: Worth, check: Best, names: dict[int, str]) -> None:
    where = solution.pointing
    print(_in_degrees(where))
    print(f"right ascension and declination {where.sexagesimal}")
    print(f"measured {solution.measured} edge {solution.edge} lone {solution.lone}")
    named = f"{'identity':>10} {'magnitude':>9} {'residual':>9}"
    print(f"{'':>2} {'column':>9} {'row':>9} {'brightness':>10} {named}")
    for star in solution.stars:
        name = f"{'-':>10}"
        if star.identity is not None:
            name = f"{star.identity:>10} {star.magnitude:>9.3f} {star.residual:>8.1f}″"
            name += f" {names[star.identity]}" if star.identity in names else ""
        print(f"{star.number:>2} {star.column:>9.3f} {star.row:>9.3f} {star.brightness:>10} {name}")
    if solution.rival is not None:
        other = ", ".join(
            f"star {number} as {identity}" for number, identity in solution.rival.items()
        )
        print(f"WARNING: another identification fits as well; it has {other}")
    print("\n".join(check.lines()))
    print(worth)


# follow


def _add_follow(subcommands: Subcommands) -> None:
    words = _add(
        subcommands,
        "follow",
        _follow,
        "follows a night's frames, with guides and a log",
        (
            "FRAMES are image files, or folders of them. Each frame is solved as solve does, and"
            " gets a line in the log FOLDER/night.jsonl and .csv: time (DATE-OBS, else the file's),"
            " file, counts, refusal or pointing, names, alone or not, confirmed or not, the check"
            " over all named stars, and each guide's offset from its start in pixels and misses in"
            " a row. Every line is on the disk before the next frame. The guider starts at the"
            " first answer that is alone and, where further stars can tell, confirmed, with up to"
            " four named stars, the brightest that stand apart; when all guides are dropped the"
            " next such answer starts it afresh. A file that cannot be read is a line. At the end,"
            " or after Ctrl-C, stands a summary of the whole log; --resume goes on with a log that"
            " was broken off. Status 0 however many frames are refused; 130 after Ctrl-C."
        ),
    )
    words.add_argument(
        "folder", metavar="FOLDER", help="has settings.bin and catalogue.bin; the log goes there"
    )
    words.add_argument(
        "frames", metavar="FRAMES", nargs="+", help="image files, or a folder of them"
    )
    _add_order(words)
    words.add_argument(
        "--box",
        type=number(0, 10),
        default=5.0,
        metavar="PIXELS",
        help="half the width of a guide's box",
    )
    _add_log(words)
    _add_dark(words)
    _add_image(words)
    _add_force(words, "file OUT.png that the tools did not make")


def _add_log(words: argparse.ArgumentParser) -> None:
    """Where the night's log goes, and what is made of it."""
    words.add_argument(
        "--log", metavar="OUT", help="the log is OUT.jsonl and OUT.csv; else night in FOLDER"
    )
    words.add_argument("--resume", action="store_true", help="go on with a log that is there")
    words.add_argument(
        "--plot", metavar="OUT.png", help="draw pointing, guides and counts; .png, .pdf or .svg"
    )
    words.add_argument("--json", action="store_true", help="print the summary as JSON")


def _add_order(words: argparse.ArgumentParser) -> None:
    """In which order frames come, and how they arrive while they are followed."""
    words.add_argument(
        "--order",
        choices=("name", "date"),
        default="name",
        help="frames of a folder by their file's name, or all by DATE-OBS",
    )
    words.add_argument(
        "--watch",
        action="store_true",
        help=(
            "FRAMES is one folder in which frames arrive; a file still being written is waited for"
        ),
    )
    words.add_argument(
        "--poll",
        type=number(0.01, 3600),
        default=1.0,
        metavar="SECONDS",
        help="how often --watch looks",
    )
    words.add_argument(
        "--idle",
        type=number(0, 10**6),
        metavar="SECONDS",
        help="--watch ends so long after the last frame; else by Ctrl-C",
    )


def _follow(words: Words) -> None:
    from . import arriving, following, library, nightlog, nightsummary

    if words.watch and (len(words.frames) != 1 or not Path(words.frames[0]).is_dir()):
        raise Mistake("--watch wants one folder")
    settings, catalogue = read_settings(words.folder), read_catalogue(words.folder)
    configuration.check(settings)
    library.check_catalogue(catalogue)
    draw = _night_plotting(words) if words.plot else lambda path: None
    found = [] if words.watch else arriving.listed(words.frames, words.order)
    if not words.watch and not found:
        raise Mistake(f"{words.frames[0]} has no image files")
    how = _how(words)
    follower = following.Follower(settings, catalogue, words.box)
    head = nightlog.head(settings, catalogue, words.box, how)
    log = nightlog.Log(words.log or Path(words.folder) / "night", head, words.resume)
    try:
        done = _behind(log, follower)
        waiting = [each for each in found if each[0] not in done]
        arrived = (
            arriving.watched(words.frames[0], how, done, words.poll, words.idle)
            if words.watch
            else (arriving.read(*each, how) for each in waiting)
        )
        lines = following.follow(follower, log, arrived, len(done))
        stopped = _through(lines, None if words.watch else len(waiting), words)
    finally:
        log.close()
    summary = nightsummary.summarise(nightlog.read(log.lines))
    told = json.dumps(summary.as_dict(), indent=1) if words.json else "\n".join(summary.lines())
    print(told, flush=True)
    draw(log.lines)
    if stopped:
        print(
            f"mnemathor: {log.lines} has {summary.frames} frames; --resume goes on", file=sys.stderr
        )
        raise KeyboardInterrupt


def _behind(log: Log, follower: Follower) -> set[str]:
    """The names of the frames that a log has; the follower stands behind the last of them."""
    from .nightlog import read

    done, last = set(), None
    for last in read(log.lines):
        done.add(last["file"])
    if last is not None:
        follower.restore(last)
    return done


def _through(lines: Iterable[Line], total: int | None, words: Words) -> bool:
    """Goes through the frames with a bar; says whether that was interrupted.

    Frames that arrive are told a line each.
    """
    from tqdm import tqdm

    try:
        for line in tqdm(lines, total=total, unit="frame", disable=True if words.watch else None):
            if words.watch and not words.json:
                print(_in_a_line(line), flush=True)
    except KeyboardInterrupt:
        return True
    return False


def _in_a_line(line: Line) -> str:
    """A frame's line for somebody who watches."""
    if line["error"] is not None:
        return f"{line['time']} {line['file']}: {line['error']}"
    guides = ", ".join(
        f"{guide['identity']} {guide['dx']:+.2f} {guide['dy']:+.2f} ({guide['misses']})"
        for guide in line["guides"]
    )
    if line["refused"] is not None:
        return (
            f"{line['time']} {line['file']}: refused {line['refused']}; guides {guides or 'none'}"
        )
    words = (
        "alone" if line["alone"] else "rival",
        {
            True: "confirmed",
            False: "not confirmed",
            None: "cannot tell",
        }[line["confirmed"]],
    )
    return (
        f"{line['time']} {line['file']}: {line['ra']:.4f} {line['dec']:+.4f} {line['roll']:.3f},"
        f" {', '.join(words)}; guides {guides or 'none'}"
    )


def _night_plotting(words: Words) -> Callable[[Path], None]:
    """What draws a night; whether that can be written is asked before, not after."""
    from . import nightsummary, pictures

    kind = pictures.kind_of(words.plot)
    may_write(words.plot, words.force)
    return lambda path: write_file(
        words.plot, pictures.drawn(nightsummary.picture(path), kind), words.force
    )


# compare-nights


def _add_compare_nights(subcommands: Subcommands) -> None:
    words = _add(
        subcommands,
        "compare-nights",
        _compare_nights,
        "tells which answers of two nights differ, and why",
        (
            "A and B are two logs of follow (OUT.jsonl, or a folder that has night.jsonl), held"
            " against each other by the frames' names. With --frames they are two cameras' folders,"
            " which follow the same frames here and now; no log is written, and each difference of"
            " the cameras is tried alone to say which one it is. Printed are what the cameras"
            " differ in, a line for each frame whose answer changed, and the sums. Status 0 however"
            " many changed."
        ),
    )
    words.add_argument("a", metavar="A", help="a log, or with --frames a camera's folder")
    words.add_argument("b", metavar="B", help="the other one")
    words.add_argument(
        "--frames", metavar="IMAGE", nargs="+", help="image files, or a folder of them"
    )
    words.add_argument(
        "--box",
        type=number(0, 10),
        default=5.0,
        metavar="PIXELS",
        help="half the width of a guide's box, with --frames",
    )
    words.add_argument("--json", action="store_true", help="print JSON")
    _add_dark(words)
    _add_image(words)


def _compare_nights(words: Words) -> None:
    from .nightcompare import compare_cameras, compare_logs

    how = _how(words)
    if words.frames:
        made = compare_cameras(words.a, words.b, words.frames, how, words.box)
    else:
        made = compare_logs(words.a, words.b)
    print(json.dumps(made.as_dict(), indent=1) if words.json else "\n".join(made.lines()))


# preflight


def _add_preflight(subcommands: Subcommands) -> None:
    words = _add(
        subcommands,
        "preflight",
        _preflight,
        "checks a camera's folder before the flight",
        (
            "Prints a line for each check, with a verdict, good, doubtful or bad, the figure, and"
            " what mends it: files valid by the library's own refusals, lens and field, a trial of"
            " the folder's own settings (stars in the frame over the catalogue's region, wrong"
            " names, false alarms, rivals, accuracy, the longest search), the frames named"
            " (answers, threshold against the sky, saturation, hot pixels, a mirrored readout, the"
            " check over all named stars, the lens by the stars), the index and the archive of the"
            " board. Nothing of the folder is changed. Status 0 where all is good, 1 where"
            " something is doubtful or bad."
        ),
    )
    words.add_argument("folder", metavar="FOLDER", help="has settings.bin and catalogue.bin")
    _add_looked_at(words)
    _add_tried(words)
    words.add_argument("--json", action="store_true", help="print JSON")
    words.add_argument(
        "--page",
        metavar="OUT.html",
        help="also write a page for the log book, with its plots in it",
    )
    _add_image(words)
    _add_force(words, "file OUT.html that the tools did not make")


def _add_looked_at(words: argparse.ArgumentParser) -> None:
    """The images of the camera, and what flies beside the two files."""
    words.add_argument(
        "--frames",
        metavar="IMAGE",
        nargs="+",
        default=[],
        help="frames of the camera: image files, or a folder of them",
    )
    words.add_argument(
        "--dark",
        metavar="IMAGE",
        nargs="+",
        default=[],
        help="images with the lens covered, to look for hot pixels; taken off nowhere",
    )
    words.add_argument(
        "--index", nargs=2, metavar=("FILE", "FLOOR"), help="the index that flies, and its floor"
    )
    words.add_argument(
        "--board", metavar="BOARD", help="the board whose archive flies; else this machine's"
    )


def _add_tried(words: argparse.ArgumentParser) -> None:
    """How large the trial is, and where in the sky."""
    words.add_argument(
        "--trial", type=whole(1, 10**7), default=400, metavar="N", help="simulated frames"
    )
    words.add_argument(
        "--lists",
        type=whole(1, 10**7),
        default=3000,
        metavar="N",
        help="lists with no star behind them, for false alarms",
    )
    words.add_argument("--seed", type=whole(), default=0, help="the same seed gives the same trial")
    words.add_argument(
        "--around",
        type=number(-360, 360),
        nargs=2,
        metavar=("RA", "DEC"),
        help="the flight points near this place, degrees; else the catalogue's region",
    )
    words.add_argument(
        "--within", type=number(0, 180), metavar="DEG", help="how near, with --around"
    )


def _preflight(words: Words) -> None:
    from . import checks, logbook, preflight

    _check_around(words)
    if words.page:
        may_write(words.page, words.force)
    how = _how(words, "crop full flip mirror hdu plane")
    rest = _given(words, "trial lists seed around within index board")
    made = preflight.preflight(words.folder, preflight.Asked(words.frames, words.dark, how, **rest))
    if words.page:
        write_file(words.page, logbook.page(made), words.force)
    told = json.dumps(made.as_dict(), indent=1) if words.json else "\n".join(made.lines())
    print(told, flush=True)
    if made.verdict != checks.GOOD:
        raise SystemExit(REFUSED)


# picture


def _add_picture(subcommands: Subcommands) -> None:
    words = _add(
        subcommands,
        "picture",
        _picture,
        "draws the frame with what was found in it",
        (
            "Listed stars are ringed, with number and identity; edge and lone pixels and stars"
            " beyond the first eight are marked by kind; catalogue stars stand where the matrix"
            " puts them, and those that the answer did not use have a small ring, whole where a"
            " measured position is near, dotted where none is. A frame without a solution is drawn"
            " too, with the refusal above it."
        ),
    )
    words.add_argument(
        "folder", metavar="FOLDER", help="has settings.bin, catalogue.bin and frame.bin"
    )
    words.add_argument(
        "out", metavar="OUT.png", help="the picture; its ending says which kind: .png, .pdf or .svg"
    )
    words.add_argument(
        "--pixel",
        type=whole(),
        nargs=2,
        metavar=("ROW", "COLUMN"),
        help="add this pixel's window, enlarged, and the reason in words",
    )
    words.add_argument(
        "--dpi",
        type=whole(20, 1200),
        default=100,
        help="dots an inch; the frame is 7.5 inches wide",
    )
    _add_force(words, "file OUT that the tools did not make")


def _picture(words: Words) -> None:
    from . import commonnames, pictures, solving

    kind = pictures.kind_of(words.out)
    figure = pictures.picture(
        *solving.read_folder(words.folder),
        pixel=words.pixel,
        dpi=words.dpi,
        names=commonnames.read(words.folder),
    )
    write_file(words.out, pictures.drawn(figure, kind), words.force)
    print(f"{words.out}: {figure.axes[0].get_title()}")


# page


def _add_page(subcommands: Subcommands) -> None:
    words = _add(
        subcommands,
        "page",
        _page,
        "makes the night page: the proved library in a browser, in one file",
        (
            "The file opens by a double click, without network, server or installation, and"
            " computes with the proved code itself, compiled for WebAssembly. Alone it takes"
            " frames, settings and catalogues that are dropped onto it; with FOLDER these are"
            " inside already, and with --frames many frames in the place of frame.bin, made from"
            " images as frame makes them. The self-test plays recorded calls through the page's own"
            " module: some of every kind, or all with --self-test, which makes the file some 3 MB"
            " larger."
        ),
    )
    words.add_argument(
        "folder",
        metavar="FOLDER",
        nargs="?",
        help="has settings.bin, and may have catalogue.bin and frame.bin",
    )
    words.add_argument("out", metavar="OUT.html", help="the page")
    words.add_argument(
        "--frames",
        metavar="FRAMES",
        nargs="+",
        default=[],
        help="image files, or folders of them, to be inside; needs FOLDER",
    )
    words.add_argument("--self-test", action="store_true", help="put all recorded calls inside")
    _add_dark(words)
    _add_image(words)
    _add_force(words, "file OUT.html that the tools did not make")


def _page(words: Words) -> None:
    from . import page

    if Path(words.out).suffix.lower() not in (".html", ".htm"):
        raise Mistake(f"{words.out} must end in .html")
    if words.frames and words.folder is None:
        raise Mistake("--frames needs a folder with settings.bin before OUT.html")
    may_write(words.out, words.force)
    shots = list(_shots(words)) if words.frames else []
    folder = None if words.folder is None else Path(words.folder)
    contents = page.page(folder, shots, words.self_test)
    write_file(words.out, contents, words.force)
    print(f"{words.out}: {len(contents):,} bytes{f', {len(shots)} frames inside' if shots else ''}")


def _shots(words: Words) -> Iterator[tuple[str, str, Samples]]:
    """The frames of --frames with names and times; one that cannot be read, or has another size
    than the settings say, is told and left out.
    """
    from . import arriving

    how = _how(words)
    settings = read_settings(words.folder)
    found = arriving.listed(words.frames)
    if not found:
        raise Mistake(f"{words.frames[0]} has no image files")
    for name, path in found:
        _, when, samples, error = arriving.read(name, path, how)
        if samples is None:
            print(f"left out: {error}")
        elif samples.shape != (settings.height, settings.width):
            print(f"left out: {path} {_other_size(samples, settings)}")
        else:
            yield name, when, samples


# simulate


def _add_weather(words: argparse.ArgumentParser, **usual: float) -> None:
    """What can be wrong with a simulated frame."""
    from .simulation import Weather

    plain = replace(Weather(), **usual)
    words.add_argument(
        "--seed", type=whole(), default=0, help="the same seed gives the same frames"
    )
    words.add_argument(
        "--spread",
        type=number(above=0),
        default=plain.spread,
        metavar="PIXELS",
        help="width (sigma) of a star's point spread",
    )
    words.add_argument(
        "--background",
        type=number(0, 4095),
        default=plain.background,
        metavar="LEVEL",
        help="the sky's samples",
    )
    words.add_argument(
        "--noise",
        type=number(0, 4095),
        default=plain.noise,
        metavar="LEVEL",
        help="their noise (sigma)",
    )
    _add_spoilt(words, plain)
    _add_place(words, plain)


def _add_spoilt(words: argparse.ArgumentParser, plain: Weather) -> None:
    """What is in a simulated frame and in no catalogue, and how far stars are off."""
    words.add_argument(
        "--hot", type=whole(0, 10**6), default=plain.hot, metavar="N", help="hot pixels"
    )
    words.add_argument(
        "--false",
        type=whole(0, 10**6),
        default=plain.false,
        metavar="N",
        help="stars that the catalogue does not have, as bright as some of it",
    )
    words.add_argument(
        "--jitter",
        type=number(0, 1000),
        default=plain.jitter,
        metavar="PIXELS",
        help="by how much (sigma) each star is moved",
    )
    words.add_argument(
        "--mirror",
        action="store_true",
        help="columns the other way round, as by a mirrored readout",
    )


def _add_place(words: argparse.ArgumentParser, plain: Weather) -> None:
    """Which stars a simulated frame has, and where it points."""
    words.add_argument(
        "--faintest",
        type=number(-100, 100),
        metavar="MAG",
        help="a star of this magnitude reaches twice the threshold; else the catalogue's faintest",
    )
    words.add_argument(
        "--least",
        type=whole(0, 512),
        default=plain.least,
        metavar="N",
        help="draw attitudes anew that have fewer catalogue stars in the frame",
    )
    words.add_argument(
        "--around",
        type=number(-360, 360),
        nargs=2,
        metavar=("RA", "DEC"),
        help="point near this place, degrees; else anywhere that has stars",
    )
    words.add_argument(
        "--within", type=number(0, 180), metavar="DEG", help="how near, with --around"
    )


def _check_around(words: Words) -> None:
    """A place of the sky, and how far from it, or neither."""
    if (words.around is None) != (words.within is None):
        raise Mistake("--around and --within go together")
    if words.around and abs(words.around[1]) > 90:
        raise Mistake(f"--around: the declination {words.around[1]:g} is not -90 to 90")


def _weather(words: Words) -> Weather:
    from .simulation import Weather

    _check_around(words)
    return Weather(**{field.name: getattr(words, field.name) for field in fields(Weather)})


def _add_simulate(subcommands: Subcommands) -> None:
    words = _add(
        subcommands,
        "simulate",
        _simulate,
        "makes a frame of the folder's catalogue",
        (
            "The frame is seen by the folder's camera, at a given pointing or at a random attitude."
            " frame.bin is written, and truth.json with the attitude and everything that was put"
            " into the frame."
        ),
    )
    words.add_argument(
        "folder",
        metavar="FOLDER",
        help="has settings.bin and catalogue.bin; frame.bin and truth.json go there",
    )
    words.add_argument(
        "--pointing",
        type=number(-360, 360),
        nargs=3,
        metavar=("RA", "DEC", "ROLL"),
        help="degrees, as solve prints them; else random",
    )
    _add_force(words, "frame.bin that simulate did not make, such as that of an image")
    _add_weather(words)


def _simulate(words: Words) -> None:
    from . import library, simulation

    settings, catalogue = read_settings(words.folder), read_catalogue(words.folder)
    configuration.check(settings)
    library.check_catalogue(catalogue)
    pointing = None if words.pointing is None else Pointing(*words.pointing)
    made = simulation.simulate(settings, catalogue, words.seed, _weather(words), pointing)
    truth = json.dumps(made.truth(), indent=1).encode()
    write_folder(
        words.folder,
        {"frame.bin": made.samples.astype(SAMPLE).tobytes(), "truth.json": truth},
        "simulate",
        ("simulate",),
        words.force,
    )
    print(_in_degrees(made.pointing))
    print(
        f"{len(made.stars)} catalogue stars, {len(made.false)} false stars, {len(made.hot)} hot"
        " pixels"
    )


# trial


def _add_trial(subcommands: Subcommands) -> None:
    words = _add(
        subcommands,
        "trial",
        _trial,
        "finds tolerance and needed count by simulated frames",
        (
            "Simulates frames with the folder's lens, threshold and catalogue, solves each for"
            " every pair of the grid, and prints how many were accepted, and of these how many had"
            " a wrong name (its star was not put within 3 pixels of the measured position) or a"
            " wrong pointing (the axis is off by more than --off). Where none was seen stands the"
            " 95 % upper bound, exact binomial: 1 - 0.05^(1/n). Then lists of random positions,"
            " with no star behind any, are searched: those that are accepted are false alarms."
            " Recommended is, of the pairs without a wrong name whose false alarms stay below"
            " --alarms and that accept nearly as many frames as the best of these (nine tenths),"
            " the one with the smallest needed count, and of these the one with the widest"
            " tolerance. --empty and --strange count false alarms alone. With --against catalogues"
            " are compared, for the folder's lens, tolerance and needed count: frames of the whole"
            " --sky, at attitudes anywhere in the region that the folder's catalogue was made for"
            " (or --around), solved with each; attitudes with too few stars count as refused."
            " Ctrl-C ends the lists early, and what was counted is printed."
        ),
    )
    words.add_argument("folder", metavar="FOLDER", help="has settings.bin and catalogue.bin")
    _add_grid(words)
    _add_alarms(words)
    words.add_argument(
        "--processes", type=whole(1, 1024), metavar="N", help="else as many as there are processors"
    )
    words.add_argument("--plot", metavar="OUT.png", help="draw the grid; .png, .pdf or .svg")
    _add_force(words, "file OUT that the tools did not make")
    words.add_argument("--json", action="store_true", help="print JSON")
    _add_check(words)
    _add_set(words)
    _add_weather(words, hot=2, false=1, jitter=0.05)


def _add_grid(words: argparse.ArgumentParser) -> None:
    """The frames of a trial, the pairs of settings that it tries, and what it counts."""
    words.add_argument(
        "--frames", type=whole(1, 10**7), default=200, metavar="N", help="how many"
    )
    words.add_argument(
        "--tolerances",
        type=whole(0, 2**64 - 1),
        nargs="+",
        metavar="T",
        help=(
            "else 1/16, 1/8, 1/4, 1/2 and 1 pixel at the shorter side's separation; with --empty"
            " and --strange the folder's"
        ),
    )
    words.add_argument(
        "--needed",
        type=whole(),
        nargs="+",
        metavar="N",
        help="needed counts, else 3, 4, 5 and 6; with --against the folder's",
    )
    words.add_argument(
        "--off",
        type=number(0, 10000),
        default=1.0,
        metavar="PIXELS",
        help="an axis farther off than this is a wrong pointing",
    )
    words.add_argument(
        "--sky",
        metavar="STARS",
        help="frames with every star of the list that the catalogue was made from, left out or not",
    )
    _add_otherwise(words)
    words.add_argument(
        "--rivals",
        action="store_true",
        help="also count the accepted frames that have no rival, and wrong names among them",
    )


def _add_check(words: argparse.ArgumentParser) -> None:
    """Whether the check over all named stars is tried too."""
    words.add_argument(
        "--check",
        action="store_true",
        help=(
            "also the axis error of the check over all named stars, and the longest chain, without"
            " an index"
        ),
    )


def _add_set(words: argparse.ArgumentParser) -> None:
    """When the recommended pair is taken."""
    words.add_argument(
        "--set",
        action="store_true",
        help=(
            "write the recommended pair into the folder's settings, if its wrong names are within"
            " --bound"
        ),
    )
    words.add_argument(
        "--bound",
        type=number(0.0001, 100),
        default=1.0,
        metavar="PERCENT",
        help="the most wrong names that --set lets pass, 95 %% sure",
    )


def _add_otherwise(words: argparse.ArgumentParser) -> None:
    """Other catalogues to compare with, and a camera that is not the settings'."""
    words.add_argument(
        "--against",
        nargs="+",
        metavar="FOLDER",
        help="compare the catalogue with those of other folders, on frames of --sky; which to take",
    )
    words.add_argument(
        "--lens-off",
        type=number(-50, 50),
        default=0.0,
        metavar="PERCENT",
        help="frames through a lens that is so much longer than the settings have it",
    )
    words.add_argument(
        "--centre-off",
        type=number(-512, 512),
        nargs=2,
        default=(0.0, 0.0),
        metavar=("COLUMNS", "ROWS"),
        help="frames with the centre so far from the settings'",
    )


def _add_alarms(words: argparse.ArgumentParser) -> None:
    words.add_argument(
        "--lists",
        type=whole(0, 10**7),
        metavar="N",
        help="lists with no star behind them; else 3000, alone 10000; 0 leaves false alarms out",
    )
    words.add_argument(
        "--stars",
        type=whole(),
        nargs="+",
        metavar="N",
        help=(
            "how many positions such a list has, in turn; else 8, the most, and with --empty 4 to 8"
        ),
    )
    words.add_argument(
        "--alarms",
        type=number(0, 1),
        default=0.001,
        metavar="RATE",
        help="the upper bound of the false alarms must lie below this",
    )
    words.add_argument(
        "--empty", action="store_true", help="count false alarms alone, without simulated frames"
    )
    words.add_argument(
        "--strange",
        metavar="STARS",
        help=(
            "the same, of simulated frames of this star list, at places that the catalogue does not"
            " cover"
        ),
    )


def _false_alarms(words: Words, settings: Settings, catalogue: Records) -> None:
    """False alarms alone: of random positions, or of frames of a star list."""
    from . import alarms, simulation, trials

    if words.set or words.plot:
        raise Mistake(
            "--set and --plot weigh false alarms against good frames: leave --empty and"
            " --strange out"
        )
    strange = (
        None
        if words.strange is None
        else (
            stars.read_stars(words.strange).records,
            simulation.as_bright_as(_weather(words), catalogue),
        )
    )
    how = {
        "stars": words.stars or alarms.STARS,
        "seed": words.seed,
        "strange": strange,
        "processes": words.processes,
    }
    tolerances = words.tolerances or [settings.tolerance]
    made = alarms.measure(
        settings,
        catalogue,
        tolerances,
        words.needed or trials.NEEDED,
        10000 if words.lists is None else words.lists,
        **how,
    )
    print(
        json.dumps(made.as_dict(), indent=1)
        if words.json
        else alarms.table(made, trials.shorter_side(settings))
    )


def _with_alarms(made: Trial, words: Words, settings: Settings, catalogue: Records) -> Trial:
    """A trial with the false alarms of the same pairs beside it."""
    from . import alarms

    lists = 3000 if words.lists is None else words.lists
    if lists == 0:
        return made
    pairs = {cell.tolerance for cell in made.cells}, {cell.needed for cell in made.cells}
    counted = alarms.measure(
        settings,
        catalogue,
        *pairs,
        lists,
        stars=words.stars or (alarms.MOST,),
        seed=words.seed,
        rivals=False,
        processes=words.processes,
    )
    return replace(made, alarms=counted, limit=words.alarms)


def _trial(words: Words) -> None:
    from . import trials

    settings, catalogue = read_settings(words.folder), read_catalogue(words.folder)
    if words.empty or words.strange is not None:
        _false_alarms(words, settings, catalogue)
        return
    if words.set and words.lists == 0:
        raise Mistake(
            "--set weighs false alarms too, and --lists 0 leaves them out; the settings stay"
        )
    if words.against:
        _compare(words, settings)
        return
    draw = _plotting(words, settings) if words.plot else lambda made: None
    made = _tried(words, settings, catalogue)
    if not made.stopped:
        made = _with_alarms(made, words, settings, catalogue)
    print(
        json.dumps(made.as_dict(), indent=1) if words.json else trials.table(made, settings),
        flush=True,
    )
    draw(made)
    if made.stopped:
        print(f"mnemathor: {made.frames} of {made.wanted} frames were tried", file=sys.stderr)
        raise KeyboardInterrupt
    if words.set:
        _set(words, settings, made)


def _tried(words: Words, settings: Settings, catalogue: Records) -> Trial:
    """The frames of the words, each tried with every pair of settings."""
    from . import simulation, trials

    sky = None if words.sky is None else stars.read_stars(words.sky).records
    weather = _weather(words)
    return trials.trial(
        settings,
        catalogue,
        words.frames,
        words.tolerances or trials.default_tolerances(settings),
        words.needed or trials.NEEDED,
        weather if sky is None else simulation.as_bright_as(weather, catalogue),
        seed=words.seed,
        off=words.off,
        rivals=words.rivals,
        processes=words.processes,
        sky=sky,
        check=words.check,
        camera=_true_camera(words, settings),
    )


def _true_camera(words: Words, settings: Settings) -> Settings:
    """The camera that the frames are seen by: the settings', with the lens off as the words say."""
    columns, rows = words.centre_off
    return replace(
        settings,
        focal=round(settings.focal * (1 + words.lens_off / 100)),
        cx=settings.cx + round(columns * PIXEL),
        cy=settings.cy + round(rows * PIXEL),
    )


def _check_against(words: Words, settings: Settings) -> None:
    """What a comparison of catalogues needs, and what it has no use for."""
    if words.sky is None:
        raise Mistake(
            "--against wants --sky STARS, the list that the catalogues were made from: the frames "
            "have the stars too that each of them leaves out"
        )
    unused = words.set, words.plot, words.rivals, words.check, words.lens_off, *words.centre_off
    if any(unused):
        others = "--set, --plot, --rivals, --check, --lens-off and --centre-off"
        raise Mistake(f"--against says which catalogue to take; leave {others} out")
    if not settings.focal:
        raise Mistake("the folder's settings have no lens yet: run settings first")


def _compare(words: Words, settings: Settings) -> None:
    """The folder's catalogue against those of other folders."""
    from . import comparison, coverage, region

    _check_against(words, settings)
    weather = _weather(words)
    where = region.of_folder(words.folder, coverage.half_diagonal(settings))
    if words.around:
        right_ascension, declination = words.around
        where = region.Region((right_ascension, declination), words.within)
    folders = words.folder, *words.against
    if len(set(folders)) < len(folders):
        raise Mistake("a folder is named twice; --against wants others than the first")
    made = comparison.compare(
        settings,
        {folder: read_catalogue(folder) for folder in folders},
        stars.read_stars(words.sky).records,
        where,
        words.frames,
        (words.tolerances or [settings.tolerance], words.needed or [settings.needed]),
        weather,
        lists=3000 if words.lists is None else words.lists,
        seed=words.seed,
        processes=words.processes,
    )
    print(
        json.dumps(made.as_dict(), indent=1) if words.json else "\n".join(made.lines()), flush=True
    )
    if made.stopped:
        print(f"mnemathor: {made.frames} of {made.wanted} frames were tried", file=sys.stderr)
        raise KeyboardInterrupt


def _plotting(words: Words, settings: Settings) -> Callable[[Trial], None]:
    """What draws the grid; whether that can be written is asked before the trial, not after it."""
    from . import pictures

    kind = pictures.kind_of(words.plot)
    may_write(words.plot, words.force)
    return lambda made: write_file(
        words.plot, pictures.drawn(pictures.trial_picture(made, settings), kind), words.force
    )


def _set(words: Words, settings: Settings, made: Trial) -> None:
    """Writes the recommended pair into the settings, if so few wrong names are sure enough."""
    from .trials import frames_for

    best, bound = made.recommended, words.bound / 100
    if best is None or best.bound is None:
        raise Mistake("no pair can be recommended; the settings stay")
    if best.bound > bound:
        raise Mistake(
            f"wrong names are only known to be fewer than {100 * best.bound:.2f} %, and --bound"
            f" wants {words.bound:g} %: the settings stay. --frames {frames_for(best, bound)} would"
            " do, if no wrong name is seen then"
        )
    changed = settings_bytes(replace(settings, tolerance=best.tolerance, needed=best.needed))
    write_folder(words.folder, {"settings.bin": changed}, "trial", kept=("settings.bin",))
