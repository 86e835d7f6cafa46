"""python3 -m mnemathor SUBCOMMAND, as ./mnemathor calls it; and the console script."""

import sys
from collections.abc import Sequence

from .endings import end


def run(words: Sequence[str]) -> None:
    """The subcommands are loaded here, which takes its time, so that an interruption finds the one
    place that catches it.
    """
    from .commands import run as command

    command(words)


def main() -> int:
    """The console script: runs a subcommand and hands back its status."""
    return end(run, sys.argv[1:])


if __name__ == "__main__":
    sys.exit(main())
