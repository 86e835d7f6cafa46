"""What a site sees in a night, by formula: nothing is downloaded."""

from dataclasses import dataclass
from datetime import datetime, timezone

import numpy as np
from astropy import units as u
from astropy.coordinates.matrix_utilities import rotation_matrix

from .arrays import Flags, Floats

J2000 = datetime(2000, 1, 1, 12, tzinfo=timezone.utc)
DAY, CENTURY = 86400.0, 36525.0
# Degrees that the sky turns in a day, against the mean equinox.
TURN = 360.98564736629
# The angles of precession since J2000, in arc seconds, by powers of the centuries (Lieske 1977).
ZETA = 2306.2181, 0.30188, 0.017998
Z = 2306.2181, 1.09468, 0.018203
THETA = 2004.3109, -0.42665, -0.041833


@dataclass(frozen=True)
class Night:
    """A site (degrees north and east), its time, and the elevations that the gimbal points at."""

    latitude: float
    longitude: float
    begin: datetime
    end: datetime
    lowest: float = 0.0
    highest: float = 90.0

    @property
    def middle(self) -> datetime:
        """The middle of the night."""
        return self.begin + (self.end - self.begin) / 2


def days_since(when: datetime) -> float:
    """Days since J2000. UT1 and UTC differ by less than a second, 15 arc seconds of the sky."""
    return (when - J2000).total_seconds() / DAY


def sidereal_time(when: datetime, longitude: float = 0.0) -> float:
    """The mean sidereal time of a place, in degrees (IAU 1982)."""
    days = days_since(when)
    centuries = days / CENTURY
    return (280.46061837 + TURN * days + 0.000387933 * centuries**2 + longitude) % 360


def to_date(when: datetime) -> Floats:
    """The matrix that carries directions of J2000 to the mean equator and equinox of a date."""
    centuries = days_since(when) / CENTURY
    zeta, z, theta = (
        sum(part * centuries**power for power, part in enumerate(angle, 1)) * u.arcsec
        for angle in (ZETA, Z, THETA)
    )
    turned = rotation_matrix(-zeta, "z")
    return rotation_matrix(-z, "z") @ rotation_matrix(theta, "y") @ turned


def elevations(night: Night, directions: Floats) -> tuple[Floats, Floats]:
    """Lowest and highest elevation, in degrees, of each direction of J2000 in a night."""
    x, y, z = to_date(night.middle) @ np.asarray(directions, float).T
    span = TURN * (night.end - night.begin).total_seconds() / DAY
    first = sidereal_time(night.begin, night.longitude) - np.rad2deg(np.arctan2(y, x))
    latitude = np.deg2rad(night.latitude)

    def elevation(hour_angle: Floats) -> Floats:
        up = np.sin(latitude) * z
        up = up + np.cos(latitude) * np.hypot(x, y) * np.cos(np.deg2rad(hour_angle))
        return np.rad2deg(np.arcsin(np.clip(up, -1, 1)))

    ends = elevation(first), elevation(first + span)
    # A direction is lowest or highest at an end of the night, unless it crosses the meridian in it.
    south, north = elevation(np.zeros_like(first)), elevation(np.full_like(first, 180))
    lowest = np.where((180 - first) % 360 <= span, north, np.minimum(*ends))
    highest = np.where(-first % 360 <= span, south, np.maximum(*ends))
    return lowest, highest


def seen(night: Night, directions: Floats, beyond: float = 0.0) -> Flags:
    """Which directions the gimbal can point at in the night, or within `beyond` degrees of them.

    What lies below the horizon, or below the lowest elevation where that is lower, is not seen.
    """
    lowest, highest = elevations(night, directions)
    floor = max(night.lowest - beyond, min(night.lowest, 0.0))
    return (highest >= floor) & (lowest <= night.highest + beyond)


def direction_at(night: Night, when: datetime, azimuth: float, elevation: float) -> Floats:
    """The direction of J2000 at an azimuth, from north through east, and an elevation."""
    around, up = np.deg2rad(azimuth), np.deg2rad(elevation)
    north, east, high = np.cos(up) * np.cos(around), np.cos(up) * np.sin(around), np.sin(up)
    latitude = np.deg2rad(night.latitude)
    # On the equator along the meridian and to the east, and to the pole.
    across = np.cos(latitude) * high - np.sin(latitude) * north
    pole = np.sin(latitude) * high + np.cos(latitude) * north
    turned = rotation_matrix(-sidereal_time(when, night.longitude) * u.deg, "z")
    return to_date(when).T @ turned @ np.array([across, east, pole])
