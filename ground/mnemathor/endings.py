"""How a run ends: the one place that catches what went wrong, tells it in a line, and gives the
status.
"""

from __future__ import annotations

import codecs
import errno
import os
import sys
from collections.abc import Callable, Sequence

from .refusals import Mistake, Refused, Unwritten

GOOD, REFUSED, MISTAKE, UNWRITTEN, INTERRUPTED = 0, 1, 2, 3, 130

# What a terminal that knows ASCII alone shows instead.
PLAIN = {"″": '"', "′": "'", "°": " deg", "±": "+-", "×": "x", "…": "...", "–": "-", "µ": "u"}
# A disk that is full or worn, and what may not be written to.
WRITING = {errno.ENOSPC, errno.EDQUOT, errno.EFBIG, errno.EIO, errno.EROFS}


def end(run: Callable[[Sequence[str]], None], words: Sequence[str]) -> int:
    """Runs a command with its words; hands back its status."""
    try:
        _speak_plainly()
        run(words)
        sys.stdout.flush()
    except SystemExit as ended:
        return (
            ended.code if isinstance(ended.code, int) else GOOD if ended.code is None else MISTAKE
        )
    except KeyboardInterrupt:
        return _told("mnemathor: stopped", INTERRUPTED)
    except BrokenPipeError:
        # Whoever read has enough, and needs no word about it.
        _silence()
        return UNWRITTEN
    except Exception as error:  # everything else, a fault of ours too, gets its line
        return _told(*_ending(error))
    return GOOD


def _ending(error: Exception) -> tuple[str, int]:
    """What to say about an error, and its status."""
    if isinstance(error, Refused):
        return str(error), REFUSED
    if isinstance(error, Unwritten):
        return f"mnemathor: {error}", UNWRITTEN
    if isinstance(error, Mistake):
        return f"mnemathor: {error}", MISTAKE
    if isinstance(error, OSError) and error.errno in WRITING:
        _silence()
        return f"mnemathor: the answer could not be written: {error.strerror}", UNWRITTEN
    if isinstance(error, MemoryError):
        return "mnemathor: there is not enough memory for that", MISTAKE
    if os.environ.get("MNEMATHOR_TRACE"):
        import traceback

        traceback.print_exception(error)
    first = (str(error).strip().splitlines() or [""])[0]
    return (
        (
            f"mnemathor: a fault of the tool: {type(error).__name__}: {first}; with"
            " MNEMATHOR_TRACE=1 it says where"
        ),
        MISTAKE,
    )


def _told(line: str, status: int) -> int:
    """Says a line on standard error, where that can still be done."""
    try:
        sys.stdout.flush()
    except (OSError, ValueError):
        _silence()
    try:
        print(line, file=sys.stderr, flush=True)
    except (OSError, ValueError):
        pass
    return status


def _silence() -> None:
    """Lets what is left to print go nowhere, so that leaving Python does not try again."""
    try:
        os.dup2(os.open(os.devnull, os.O_WRONLY), sys.stdout.fileno())
    except (OSError, ValueError):
        pass


def _plain(error: UnicodeError) -> tuple[str, int]:
    """Characters that the terminal does not have, in its own."""
    assert isinstance(error, UnicodeEncodeError)
    return (
        "".join(PLAIN.get(letter, "?") for letter in error.object[error.start : error.end]),
        error.end,
    )


def _speak_plainly() -> None:
    codecs.register_error("mnemathor", _plain)
    for stream in (sys.stdout, sys.stderr):
        if hasattr(stream, "reconfigure"):
            stream.reconfigure(errors="mnemathor")
