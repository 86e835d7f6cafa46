"""A solution as other tools read it: a FITS header with the world coordinates of the frame, alone
or with the frame in it.
"""

from __future__ import annotations

import io

import numpy as np
from astropy.io import fits

from . import library
from .arrays import Samples, Where
from .folder import PIXEL, Settings
from .refusals import Mistake
from .solving import Solution


def header(settings: Settings, solution: Solution) -> fits.Header:
    """The frame's world coordinates, a tangential projection, in the catalogue's own system.

    FITS counts from 1, and its rows go from the bottom up.
    """
    right, down, axis = library.cosines(solution.matrix)
    where = solution.pointing
    ra = np.deg2rad(where.ra)
    east = np.array([-np.sin(ra), np.cos(ra), 0])
    north = np.cross(axis, east)
    scale = np.rad2deg(PIXEL / settings.focal)
    cards = [
        ("WCSAXES", 2),
        ("CTYPE1", "RA---TAN"),
        ("CTYPE2", "DEC--TAN"),
        ("CUNIT1", "deg"),
        ("CUNIT2", "deg"),
        ("CRVAL1", where.ra),
        ("CRVAL2", where.dec),
        ("CRPIX1", settings.cx / PIXEL + 1),
        ("CRPIX2", settings.height - settings.cy / PIXEL),
        ("CD1_1", scale * float(right @ east)),
        ("CD1_2", -scale * float(down @ east)),
        ("CD2_1", scale * float(right @ north)),
        ("CD2_2", -scale * float(down @ north)),
        ("CREATOR", "mnemathor"),
    ]
    return fits.Header(cards)


def written(path: Where, settings: Settings, samples: Samples, solution: Solution) -> bytes:
    """The bytes of a file: .fits has the frame with the header, .wcs the header alone."""
    kind = str(path).lower().rpartition(".")[2]
    if kind not in ("fits", "wcs"):
        raise Mistake(
            f"{path} must end in .fits, for the frame with its coordinates, or in .wcs, for these"
            " alone"
        )
    unit = fits.PrimaryHDU(
        np.ascontiguousarray(samples[::-1]) if kind == "fits" else None, header(settings, solution)
    )
    contents = io.BytesIO()
    unit.writeto(contents)
    return contents.getvalue()
