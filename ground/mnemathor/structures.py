"""The structs and calls of include/mnemathor.h, as ctypes has them.

A test compares sizes and places with the header's.
"""

from ctypes import POINTER, Structure, c_double, c_int32, c_int64, c_size_t, c_uint32, c_uint64
from typing import Any

import numpy as np
from numpy.ctypeslib import ndpointer

STARS = 8
GUIDES = 4
ROOM = 4096
BURST_RECORD = 80
INDEX_RECORD = 12
CHANGE_RECORD = 8
MILLIMETRES, PIXELS = 0, 1


def _struct(name: str, *fields: tuple[str, Any]) -> type[Structure]:
    return type(name, (Structure,), {"_fields_": list(fields)})


def _numbers(kind: type[Any], names: str) -> list[tuple[str, Any]]:
    return [(name, kind) for name in names.split()]


Refusal = _struct("Refusal", *_numbers(c_int64, "number place"))
Lens = _struct("Lens", ("kind", c_uint32), *_numbers(c_double, "focal_length pitch"))
Settings = _struct(
    "Settings",
    *_numbers(c_size_t, "width height threshold needed"),
    *_numbers(c_int64, "cx cy"),
    ("lens", Lens),
    ("tolerance", c_uint64),
)
Centroid = _struct("Centroid", *_numbers(c_int64, "x y brightness"))
Verdict = _struct("Verdict", *_numbers(c_int64, "row column kind"), ("centroid", Centroid))
Reason = _struct(
    "Reason",
    *_numbers(c_int64, "kind sample threshold row column side largest"),
    ("centroid", Centroid),
)
Report = _struct(
    "Report", *_numbers(c_int64, "count measured edge lone"), ("stars", Centroid * STARS)
)
Direction = _struct("Direction", *_numbers(c_int32, "x y z"))
Assignment = _struct("Assignment", ("count", c_int64), ("stars", c_int64 * STARS))
Rival = _struct("Rival", ("exists", c_int64), ("stars", c_int64 * STARS))
Matrix = _struct("Matrix", ("entries", c_int64 * 3 * 3))
Tracked = _struct("Tracked", ("report", Report), ("assignment", Assignment), ("matrix", Matrix))
Cosines = _struct("Cosines", ("entries", c_double * 3 * 3))
Guide = _struct("Guide", *_numbers(c_int64, "identity x y misses"))
Guider = _struct("Guider", *_numbers(c_int64, "half_width count"), ("guides", Guide * GUIDES))

ALL = [
    Refusal,
    Lens,
    Settings,
    Centroid,
    Verdict,
    Reason,
    Report,
    Direction,
    Assignment,
    Rival,
    Matrix,
    Tracked,
    Cosines,
    Guide,
    Guider,
]


def _lent(kind: type[Any]) -> list[Any]:
    """A lent array, pointer and length; numpy hands over its own memory and refuses an array of
    another kind.
    """
    return [ndpointer(kind, flags="C_CONTIGUOUS"), c_size_t]


_SAMPLES, _WORDS, _BYTES, _LONGS, _FLOATS = map(
    _lent, (np.uint16, np.uint16, np.uint8, np.int64, np.float64)
)
_DIRECTIONS = _lent(np.int32)  # rows of three; the length is in directions
_SETTINGS = [POINTER(Settings)]
_NUMBER = [POINTER(c_int64)]

CALLS = {
    "mn_verdict": [*_SAMPLES, *_SETTINGS, c_size_t, c_size_t, POINTER(Verdict)],
    "mn_reason": [*_SAMPLES, *_SETTINGS, c_size_t, c_size_t, POINTER(Reason)],
    "mn_list": [*_SAMPLES, *_SETTINGS, POINTER(Report)],
    "mn_lens": [POINTER(Lens), *_NUMBER],
    "mn_direction": [*_SETTINGS, c_int64, c_int64, POINTER(Direction)],
    "mn_catalogue": [*_BYTES, *_NUMBER],
    "mn_ranking": [*_DIRECTIONS, *_BYTES, *_SETTINGS, *_WORDS],
    "mn_index": [*_BYTES, c_int64, *_BYTES, *_NUMBER],
    "mn_ranking_by_index": [*_DIRECTIONS, *_BYTES, *_BYTES, c_int64, *_SETTINGS, *_WORDS],
    "mn_compare": [*_BYTES, *_BYTES, *_BYTES, *_NUMBER],
    "mn_cut": [*_BYTES, c_int32, c_int64, *_NUMBER],
    "mn_search": [*_DIRECTIONS, *_BYTES, *_SETTINGS, *_WORDS, POINTER(Assignment)],
    "mn_rival": [*_DIRECTIONS, *_BYTES, *_SETTINGS, *_WORDS, POINTER(Rival)],
    "mn_attitude": [POINTER(Direction)] * 4 + [POINTER(Matrix)],
    "mn_cosines": [POINTER(Matrix), POINTER(Cosines)],
    "mn_turned": [POINTER(Cosines), _FLOATS[0], _FLOATS[0]],
    "mn_chain": [*_SAMPLES, *_SETTINGS, *_BYTES, *_WORDS, POINTER(Tracked)],
    "mn_chain_by_index": [
        *_SAMPLES,
        *_SETTINGS,
        *_BYTES,
        *_BYTES,
        c_int64,
        *_WORDS,
        POINTER(Tracked),
    ],
    "mn_burst": [*_SAMPLES, *_SETTINGS, *_BYTES, *_WORDS, *_BYTES, *_NUMBER],
    "mn_guider_start": [c_int64, *_LONGS, POINTER(Guider)],
    "mn_guider_frame": [POINTER(Guider), Refusal, POINTER(Report)],
}
