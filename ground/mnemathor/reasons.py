"""The reasons for a pixel's verdict as sentences with gaps, which pictures and the page fill."""

from .folder import PIXEL
from .library import Reason

REASONS = {
    "dark": "its sample, {sample}, is below the threshold, {threshold}",
    "beaten": "the pixel at row {row}, column {column} beats it",
    "edge": "too near the {side} side of the frame",
    "lone": (
        "a hot pixel: none of its eight neighbours reaches half the threshold; the largest is"
        " {largest}"
    ),
    "measured": "a star at row {row}, column {column}, brightness {brightness}",
}


def reason_in_words(reason: Reason) -> str:
    """A reason as a sentence."""
    gaps = vars(reason)
    if reason.centroid is not None:
        place = reason.centroid
        gaps = {"row": f"{place.y / PIXEL:.2f}", "column": f"{place.x / PIXEL:.2f}"}
        gaps["brightness"] = str(place.brightness)
    return f"{reason.kind}: {REASONS[reason.kind].format(**gaps)}"
