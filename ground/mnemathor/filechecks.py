"""Checks of a camera's files before a flight: valid by the library's own refusals, and the lens."""

import re
from pathlib import Path

import numpy as np
from astropy import units as u

from . import configuration, library
from .arrays import Numbers, Records
from .checks import BAD, DOUBTFUL, GOOD, Check, command
from .folder import (
    MAGNITUDE,
    PIXEL,
    UNIT,
    Settings,
    read_catalogue,
    read_frame,
    read_settings,
)
from .refusals import Mistake, Refused
from .structures import INDEX_RECORD

# Records of the older form have no magnitude.
OLDER = np.dtype([("identity", ">u4"), ("x", ">i4"), ("y", ">i4"), ("z", ">i4")])


def check_settings(folder: Path) -> tuple[Check, Settings | None]:
    """Whether settings.bin is valid; hands it back where it is."""
    mend = command("settings", "CAMERA.toml", folder)
    try:
        settings = read_settings(folder)
        configuration.check(settings)
    except Mistake as mistake:
        return Check("settings", str(mistake), BAD, mend), None
    told = f"threshold {settings.threshold}, needed {settings.needed}, tolerance"
    figure = f"valid: {told} {settings.tolerance}"
    if settings.needed == 3:
        three = f"{figure}; three stars often agree by chance"
        return Check("settings", three, DOUBTFUL, command("trial", folder, "--set")), settings
    return Check("settings", figure, GOOD), settings


def check_catalogue(folder: Path) -> tuple[Check, Records | None]:
    """Whether catalogue.bin is valid; the older form of 16 bytes a record is told."""
    mend = command("catalogue", "STARS", folder)
    path = folder / "catalogue.bin"
    try:
        catalogue = read_catalogue(folder)
        library.check_catalogue(catalogue)
    except Mistake as mistake:
        figure = _older(path) or str(mistake)
        return Check("catalogue", figure, BAD, mend), None
    brightest, faintest = (float(end) / MAGNITUDE for end in _ends(catalogue["magnitude"]))
    figure = f"valid: {len(catalogue)} stars, magnitudes {brightest:.2f} to {faintest:.2f}"
    return Check("catalogue", figure, GOOD, numbers={"stars": len(catalogue)}), catalogue


def _ends(values: Numbers) -> tuple[int, int]:
    return int(values.min()), int(values.max())


def _older(path: Path) -> str | None:
    """What to say of a file of the older form, whose records look as such ones do."""
    contents = path.read_bytes() if path.is_file() else b""
    if not contents or len(contents) % OLDER.itemsize:
        return None
    records = np.frombuffer(contents, OLDER)
    lengths = np.linalg.norm([records[axis].astype(float) for axis in "xyz"], axis=0)
    rises = (np.diff(records["identity"].astype(int)) > 0).all()
    if not rises or abs(lengths / UNIT - 1).max() > 0.01:
        return None
    return f"{path} has {len(records)} records of 16 bytes, the older form without magnitudes"


def check_frame(folder: Path, settings: Settings) -> Check:
    """Whether frame.bin, if there is one, is a frame of these settings."""
    if not (folder / "frame.bin").exists():
        return Check("frame", "no frame.bin in the folder, and none is needed", GOOD)
    try:
        library.list_stars(read_frame(folder, settings), settings)
    except Mistake as mistake:
        return Check("frame", str(mistake), BAD, command("frame", "IMAGE", folder))
    return Check("frame", f"valid: {settings.width} x {settings.height} samples", GOOD)


def check_lens(folder: Path, settings: Settings) -> Check:
    """Lens, pixel scale, field and centre, as the settings have them."""
    wide, tall = (angle.to_value(u.deg) for angle in configuration.field(settings))
    scale = configuration.pixel_angle(settings).to_value(u.arcsec)
    lens = settings.focal / PIXEL
    numbers = {"pixels": lens, "arcsec_a_pixel": scale, "field": [wide, tall]}
    figure = f"{lens:.2f} pixels, {scale:.1f}″ a pixel, a field of {wide:.2f} x {tall:.2f} degrees"
    column, row = settings.cx / PIXEL, settings.cy / PIXEL
    if column > settings.width - 1 or row > settings.height - 1:
        away = f"{figure}; the centre, column {column:g} and row {row:g}, is outside the frame"
        mend = command("settings", "CAMERA.toml", folder)
        return Check("lens", away, DOUBTFUL, mend, numbers)
    return Check("lens", figure, GOOD, numbers=numbers)


def check_index(
    folder: Path, settings: Settings, catalogue: Records, index: list[str] | None
) -> Check:
    """Whether the index that flies is the one for catalogue and floor, by the library's test."""
    if index is None:
        return Check("index", "none is used; --index FILE FLOOR has one tested", GOOD)
    path, floor = Path(index[0]), _floor(index[1])
    mend = command("index", folder / "catalogue.bin", floor, "NEW")
    try:
        pairs = np.frombuffer(path.read_bytes(), np.uint8)
        ahead = np.array([[0, 0, UNIT]], np.int32)
        library.rank_by_index(ahead, catalogue, pairs, floor, settings, library.new_room())
    except OSError as error:
        return Check("index", f"{path}: {error.strerror or error}", BAD, mend)
    except Refused as refusal:
        return Check("index", f"{path}: {refusal}", BAD, mend)
    return _covering(folder, settings, path, len(pairs) // INDEX_RECORD, floor)


def _floor(word: str) -> int:
    """The floor of an index, a signed number of 64 bits."""
    if not re.fullmatch(r"-?\d+", word) or not -(2**63) <= int(word) < 2**63:
        raise Mistake(f"the floor {word} is no signed number of 64 bits")
    return int(word)


def _covering(folder: Path, settings: Settings, path: Path, records: int, floor: int) -> Check:
    """An index that is right is used for every pair whose separation it reaches to."""
    corner = np.hypot(settings.width, settings.height) * PIXEL / 2 / settings.focal
    diagonal = float(np.rad2deg(2 * np.arctan(corner)))
    reach = float(np.rad2deg(np.arccos(np.clip(floor / float(UNIT) ** 2, -1, 1))))
    numbers = {"records": records, "reach": reach, "diagonal": diagonal}
    figure = f"{path} is the one for this catalogue: {records:,} pairs up to {reach:.2f} degrees"
    # A measured pair is looked up if its dot product less the tolerance is not below the floor.
    wanted = int(float(UNIT) ** 2 * np.cos(np.deg2rad(diagonal))) - settings.tolerance
    if floor > wanted:
        short = f"{figure}, and the frame's diagonal has {diagonal:.2f}: wider pairs take longer"
        mend = command("index", folder / "catalogue.bin", wanted, "NEW")
        return Check("index", short, DOUBTFUL, mend, numbers)
    return Check("index", figure, GOOD, numbers=numbers)
