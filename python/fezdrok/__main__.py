"""`python3 -m fezdrok`, which is the command `fezdrok`."""

from __future__ import annotations

import sys
from collections.abc import Iterable
from typing import TextIO

from . import __version__
from .command import words as command
from .command.streams import hold_streams


def main(words: list[str] | None = None, source: Iterable[bytes] | None = None, target: TextIO | None = None) -> int:
    """Does what the words of a command line say, and gives the status. `lines` reads from `source` and writes on
    `target` where they are given."""
    return command.main(words, __version__, source, target)


def run() -> int:
    """The status of a run as a program."""
    hold_streams()
    return main()


if __name__ == "__main__":
    sys.exit(run())
