"""Checks before a flight: each a figure, a verdict, and what mends it."""

import shlex
import textwrap
from collections.abc import Iterator
from dataclasses import asdict, dataclass, field
from typing import Any

GOOD, DOUBTFUL, BAD = VERDICTS = "good", "doubtful", "bad"
# Figures are wrapped to this width, behind verdict and name.
WIDTH, VERDICT, NAME = 110, 9, 16


@dataclass(frozen=True)
class Check:
    """One check: its name, what was found in words, the verdict, what mends it, and the numbers."""

    name: str
    figure: str
    verdict: str
    mend: str | None = None
    numbers: dict[str, Any] = field(default_factory=dict)

    def as_dict(self) -> dict[str, Any]:
        """In plain words and numbers, for JSON."""
        return asdict(self)

    def lines(self) -> Iterator[str]:
        """In lines to read; what mends it is told where that is wanted."""
        behind = " " * (VERDICT + NAME)
        wrapped = textwrap.wrap(self.figure, WIDTH, break_on_hyphens=False)
        yield f"{self.verdict:<{VERDICT}}{self.name:<{NAME}}{wrapped[0]}"
        yield from (behind + line for line in wrapped[1:])
        if self.mend and self.verdict != GOOD:
            yield f"{behind}-> {self.mend}"


def worst(checks: list[Check]) -> str:
    """The worst verdict of some checks."""
    return max((check.verdict for check in checks), key=VERDICTS.index)


def at_most(value: float, good: float, doubtful: float) -> str:
    """The verdict on a number that should be small."""
    return GOOD if value <= good else DOUBTFUL if value <= doubtful else BAD


def at_least(value: float, good: float, doubtful: float) -> str:
    """The verdict on a number that should be large."""
    return at_most(-value, -good, -doubtful)


def command(*words: object) -> str:
    """A command that mends something, as it can be typed."""
    return f"./mnemathor {shlex.join(map(str, words))}"
