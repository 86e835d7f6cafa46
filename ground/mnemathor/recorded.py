"""The recorded calls of the second implementation, call by call, for the page's self-test."""

from collections.abc import Iterator
from typing import Any

from .refusals import Mistake, beside

# Bytes of an element, by the types that page/calls.json has.
WIDTHS = {"u8": 1, "u16": 2, "i32": 4, "i64": 8, "f64": 8}
WORD = 8
# Of each kind, calls of at most so many bytes are taken, and about so many, spread over all.
SHORT, EACH = 1200, 40


def read() -> tuple[bytes, list[str]]:
    """The file of calls, and the line that is expected of each."""
    try:
        cases = beside("night-page/cases.bin", "crates/recorded/data/cases.bin").read_bytes()
        text = beside("night-page/expected.txt", "crates/recorded/stdout").read_text("ascii")
    except OSError as error:
        raise Mistake(f"the recorded calls cannot be read: {error}") from error
    return cases, [line for line in text.splitlines() if not line.startswith("cases ")]


def calls(cases: bytes, forms: dict[str, Any]) -> Iterator[tuple[str, bytes]]:
    """The kind of each call, and its bytes."""
    at = 0
    while cases[at]:
        kind, start = str(cases[at]), at
        scalars, buffers = (part.split() for part in forms["kinds"][kind]["file"].split("|"))
        at += 1 + WORD * len(scalars)
        for name in buffers:
            at = _behind(cases, at, WIDTHS[forms["types"][name]])
        yield kind, cases[start:at]


def few(cases: bytes, expected: list[str], forms: dict[str, Any]) -> tuple[bytes, list[str]]:
    """Some short calls of every kind, with their lines."""
    short: dict[str, list[tuple[bytes, str]]] = {}
    for (kind, call), line in zip(calls(cases, forms), expected, strict=True):
        if len(call) <= SHORT:
            short.setdefault(kind, []).append((call, line))
    taken = [each for found in short.values() for each in found[:: -(-len(found) // EACH)]]
    return b"".join(call for call, _ in taken) + b"\0", [line for _, line in taken]


def _behind(cases: bytes, at: int, width: int) -> int:
    """The place behind a buffer: its length, a pattern, and patches of a place and an element."""
    pattern = _word(cases, at + WORD)
    patches = at + 2 * WORD + width * pattern
    return patches + WORD + (WORD + width) * _word(cases, patches)


def _word(cases: bytes, at: int) -> int:
    return int.from_bytes(cases[at : at + WORD], "big")
