"""The check of what flies: the archive that a board's program is linked with, and its stack."""

from __future__ import annotations

import subprocess
from collections.abc import Callable
from pathlib import Path

from . import library
from .checks import DOUBTFUL, GOOD, BAD, Check
from .refusals import CHECKOUT

ARCHIVE = "libmnemathor.a"
# As much stack as FLIGHT promises to be enough.
ENOUGH = 64 * 1024
# Which program reads a board's machine code: that of the compiler which makes its programs.
OBJDUMP = '. boards/known && board "$1" && echo "${cc%gcc}objdump"'


def check_board(
    board: str | None,
    target: Path = CHECKOUT / "target",
    bound: Callable[[Path, str], int | None] | None = None,
) -> Check:
    """Whether the archive is there and made from these sources; and what stack its calls take."""
    where = target / (f"library-{board}" if board else "library")
    archive = where / ARCHIVE
    mend = f"./library {board}" if board else "./library"
    name = archive.relative_to(target.parent)
    if not archive.is_file():
        return Check("board", f"{name} is missing", BAD, mend)
    if not library.of_these_sources(archive):
        return Check("board", f"{name} was made from other sources than these", BAD, mend)
    figure = f"{name}, {archive.stat().st_size:,} bytes, is proved and made from these sources"
    if board is None:
        figure += f"; {ENOUGH // 1024} KiB of stack were enough in trials"
        return Check("board", figure, GOOD)
    return _with_stack(figure, (bound or stack_of)(archive, board))


def _with_stack(figure: str, deepest: int | None) -> Check:
    """The same with the most stack that a call of a board's archive can take."""
    if deepest is None:
        mend = "boards/code stack ARCHIVE OBJDUMP says why"
        return Check("board", f"{figure}; its stack could not be bounded here", DOUBTFUL, mend)
    figure += f"; its calls take at most {deepest:,} bytes of stack"
    verdict = GOOD if deepest <= ENOUGH else DOUBTFUL
    return Check("board", figure, verdict, f"a stack of {deepest:,} bytes", {"stack": deepest})


def stack_of(archive: Path, board: str) -> int | None:
    """The most stack that any call can take, as boards/code reads it off the machine code; None
    where that cannot be done here.
    """
    tool = _said("bash", "-c", OBJDUMP, "bash", board)
    told = _said("boards/code", "stack", str(archive), tool.strip()) if tool else ""
    bounds = [int(line.split()[1]) for line in told.splitlines()]
    return max(bounds, default=None)


def _said(*words: str) -> str:
    """What a command of the checkout prints; nothing where it is not there or fails."""
    try:
        done = subprocess.run(words, cwd=CHECKOUT, capture_output=True, text=True, check=False)
    except OSError:
        return ""
    return done.stdout if done.returncode == 0 else ""
