"""The rate of false alarms of a camera with its catalogue, counted once and kept beside them in
alarms.json.
"""

from __future__ import annotations

import hashlib
import json
from collections.abc import Mapping
from dataclasses import dataclass, replace
from pathlib import Path
from typing import Any

from .alarms import LEAST, MOST, measure
from .arrays import Records, Where
from .folder import Settings, settings_bytes
from .keeping import write_folder
from .rates import in_words, upper_bound
from .refusals import Mistake

NAME = "alarms.json"
# So many lists are counted, and the counts of so many different settings and catalogues are kept.
LISTS, ENTRIES = 2000, 50


@dataclass(frozen=True)
class Rate:
    """Of so many lists of `stars` random positions, how many the search accepts with at least so
    many names.
    """

    stars: int
    names: int
    accepted: int
    lists: int

    def as_dict(self) -> dict[str, Any]:
        """In plain numbers, for JSON."""
        return {
            "stars": self.stars,
            "names": self.names,
            "accepted": self.accepted,
            "lists": self.lists,
            "bound": upper_bound(self.accepted, self.lists),
        }

    def __str__(self) -> str:
        """In words."""
        return (
            f"of lists of {self.stars} positions with no star behind them,"
            f" {in_words(self.accepted, self.lists)} get {self.names} names or more"
        )


def rate(
    folder: Where,
    settings: Settings,
    catalogue: Records,
    stars: int,
    names: int,
    lists: int | None = None,
    quiet: bool = True,
) -> Rate:
    """The rate for a list of so many stars with so many names: looked up in the folder, else
    counted and kept there.
    """
    lists = LISTS if lists is None else lists
    key = key_of(settings, catalogue, stars, lists)
    known = _read(folder)
    if key not in known:
        known[key] = _count(settings, catalogue, stars, lists, quiet)
        _write(folder, known)
    return Rate(stars, names, int(known[key]["accepted"][str(names)]), int(known[key]["lists"]))


def key_of(settings: Settings, catalogue: Records, stars: int, lists: int) -> str:
    """What a count depends on: size, lens, tolerance, catalogue and number of positions; threshold
    and needed count have no say.
    """
    same = settings_bytes(replace(settings, threshold=0, needed=0))
    return hashlib.sha256(
        same + catalogue.tobytes() + bytes([stars]) + lists.to_bytes(8, "big")
    ).hexdigest()


def _count(
    settings: Settings, catalogue: Records, stars: int, lists: int, quiet: bool
) -> dict[str, Any]:
    needed = range(LEAST, MOST + 1)
    counted = measure(
        settings,
        catalogue,
        [settings.tolerance],
        needed,
        lists,
        stars=(stars,),
        rivals=False,
        quiet=quiet,
    )
    return {
        "lists": counted.lists,
        "accepted": {str(cell.needed): cell.accepted for cell in counted.cells},
    }


def _read(folder: Where) -> dict[str, Any]:
    """What the folder has; a file that cannot be read counts as none."""
    try:
        known = json.loads((Path(folder) / NAME).read_text(encoding="utf-8"))
    except (OSError, ValueError):
        return {}
    return known if isinstance(known, dict) else {}


def _write(folder: Where, known: Mapping[str, Any]) -> None:
    """Keeps the newest counts; a folder that cannot be written only has them counted again."""
    newest = dict(list(known.items())[-ENTRIES:])
    try:
        write_folder(folder, {NAME: json.dumps(newest, indent=1).encode()}, "solve", force=True)
    except Mistake:
        pass
