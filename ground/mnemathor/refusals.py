"""Refusals of the library: number, place, and the sentence that docs/RULES.md has for it."""

from __future__ import annotations

import re
from functools import cache
from pathlib import Path

PACKAGE = Path(__file__).resolve().parent
# The checkout that the package stands in; where it was installed, what it needs of that stands
# beside it.
CHECKOUT = PACKAGE.parents[1]


def beside(name: str, place: str) -> Path:
    """A file that was installed beside the package, else the checkout's."""
    return PACKAGE / name if (PACKAGE / name).exists() else CHECKOUT / place


RULES = beside("RULES.md", "docs/RULES.md")


@cache
def sentences() -> dict[int, str]:
    """The sentences of docs/RULES.md's refusals by number; read there, to be said once."""
    try:
        text = RULES.read_text(encoding="utf-8")
    except OSError:
        return {}
    rows = text.partition("## Refusals")[2].partition("Of all calls")[0]
    found = re.findall(r"^- \[R(\d+)\] (.*?)(?=; place: |\n- |\n\n)", rows, re.M | re.S)
    return {int(number): " ".join(sentence.split()) for number, sentence in found}


class Mistake(Exception):
    """What was handed in cannot be used; the message says why, and nothing was written."""


class Unwritten(Mistake):
    """Something could not be written: a full disk, a folder that belongs to somebody else."""


class Refused(Mistake):
    """The library refused a call: `number` and `place` are the library's, `sentence` is
    docs/RULES.md's.
    """

    def __init__(self, number: int, place: int = 0, about: str | None = None) -> None:
        self.number, self.place, self.about = int(number), int(place), about
        self.sentence = sentences().get(self.number, "docs/RULES.md has the sentence")
        told = f"refused {self.number} {self.place}: {self.sentence}"
        super().__init__(f"{told} ({about})" if about else told)

    def with_note(self, about: str | None) -> Refused:
        """The same refusal with a word about what it was met with."""
        return Refused(self.number, self.place, about)

    def __reduce__(self) -> tuple[type[Refused], tuple[int, int, str | None]]:
        return (Refused, (self.number, self.place, self.about))
