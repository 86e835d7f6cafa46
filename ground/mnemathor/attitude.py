"""The camera on the sky: matrices that carry sky to camera, pointing in degrees, and where a star
falls in the frame.
"""

from __future__ import annotations

from dataclasses import dataclass
from typing import Any

import numpy as np
from astropy import units as u
from astropy.coordinates import Angle, SkyCoord
from astropy.coordinates.matrix_utilities import rotation_matrix
from numpy.typing import ArrayLike

from .arrays import Flags, Floats, Records
from .folder import PIXEL, UNIT, Settings


@dataclass(frozen=True)
class Pointing:
    """Where the camera's axis points, and the position angle of the frame's upward direction, from
    north through east; degrees.
    """

    ra: float
    dec: float
    roll: float

    @property
    def sexagesimal(self) -> str:
        """Right ascension in hours, declination in degrees, both with minutes and seconds."""
        # Rounded before it is brought below 24 hours.
        ra, dec = Angle(round(self.ra * 240, 2) % 86400 / 240 * u.deg), Angle(self.dec * u.deg)
        hours = ra.to_string(u.hour, sep=":", precision=2, pad=True)
        degrees = dec.to_string(u.deg, sep=":", precision=1, pad=True, alwayssign=True)
        return f"{hours} {degrees}"


def pointing_of(rows: ArrayLike) -> Pointing:
    """The pointing of a matrix: its rows are right, down and out to the sky, as directions of the
    sky.
    """
    _, down, (x, y, z) = np.asarray(rows, float)
    ra, dec = np.arctan2(y, x), np.arctan2(z, np.hypot(x, y))
    east = np.array([-np.sin(ra), np.cos(ra), 0])
    north = np.array([-np.sin(dec) * np.cos(ra), -np.sin(dec) * np.sin(ra), np.cos(dec)])
    roll = np.arctan2(-down @ east, -down @ north)
    return Pointing(
        float(np.rad2deg(ra) % 360), float(np.rad2deg(dec)), float(np.rad2deg(roll) % 360)
    )


def matrix_of(pointing: Pointing) -> Floats:
    """The matrix of a pointing."""
    turned = rotation_matrix(-pointing.dec * u.deg, "y") @ rotation_matrix(pointing.ra * u.deg, "z")
    # Now x is out to the sky, y east and z north; with north up, right is west and down is south.
    west_south_out = np.array([[0, -1, 0], [0, 0, -1], [1, 0, 0]]) @ turned
    return rotation_matrix(-pointing.roll * u.deg, "z") @ west_south_out


def random_matrix(random: np.random.Generator) -> Floats:
    """A matrix of any attitude, all equally likely: the axis anywhere, and any roll."""
    ra, sine, roll = random.uniform(0, 360), random.uniform(-1, 1), random.uniform(0, 360)
    return matrix_of(Pointing(ra, float(np.rad2deg(np.arcsin(sine))), roll))


def random_matrix_near(random: np.random.Generator, middle: Floats, reach: float) -> Floats:
    """The same for an axis within `reach` radians of a direction of the sky."""
    away, turn = np.arccos(random.uniform(np.cos(reach), 1)), random.uniform(0, 2 * np.pi)
    side = np.cross(middle, np.eye(3)[np.argmin(abs(np.asarray(middle)))])
    side /= np.linalg.norm(side)
    out = np.cos(away) * middle + np.sin(away) * (
        np.cos(turn) * side + np.sin(turn) * np.cross(middle, side)
    )
    place = _place(out)
    return matrix_of(Pointing(place.ra.deg, place.dec.deg, random.uniform(0, 360)))


def vectors(records: Records | np.void) -> Floats:
    """The directions of catalogue records as rows of floats of length 1."""
    return np.stack([records[axis] for axis in "xyz"], axis=-1).astype(float) / UNIT


def in_frame(
    rows: ArrayLike, directions: ArrayLike, settings: Settings
) -> tuple[Floats, Floats, Flags]:
    """Column and row, in pixels, where each direction of the sky falls, and whether that is in
    front and within the frame.
    """
    right, down, out = np.asarray(rows) @ np.asarray(directions).T
    ahead = out > 1e-6
    depth = np.where(ahead, out, 1)
    columns = (settings.cx + settings.focal * right / depth) / PIXEL
    lines = (settings.cy + settings.focal * down / depth) / PIXEL
    inside = (
        ahead
        & (columns > -0.5)
        & (columns < settings.width - 0.5)
        & (lines > -0.5)
        & (lines < settings.height - 0.5)
    )
    return columns, lines, inside


def angle_between(a: ArrayLike, b: ArrayLike) -> Any:
    """The angle of directions to directions, in arc seconds."""
    a, b = np.asarray(a), np.asarray(b)
    across = np.linalg.norm(np.cross(a, b), axis=-1)
    return np.rad2deg(np.arctan2(across, np.sum(a * b, axis=-1))) * 3600


def turn_between(rows: ArrayLike, others: ArrayLike) -> float:
    """The angle by which one camera is turned against another, in arc seconds."""
    across = np.asarray(rows) @ np.asarray(others).T
    sine = (
        np.linalg.norm(
            [across[2, 1] - across[1, 2], across[0, 2] - across[2, 0], across[1, 0] - across[0, 1]]
        )
        / 2
    )
    return (np.arctan2(sine, (np.trace(across) - 1) / 2) * u.rad).to_value(u.arcsec)


def _place(direction: Floats) -> SkyCoord:
    sky = SkyCoord(*direction, representation_type="cartesian")
    return SkyCoord(sky.spherical.lon, sky.spherical.lat)
