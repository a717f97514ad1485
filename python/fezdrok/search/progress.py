"""How far a planarization is: what is told of it while it goes on, the time that it has, and a line on the terminal."""

from __future__ import annotations

import sys
import time
from collections.abc import Callable
from contextlib import AbstractContextManager, closing, nullcontext
from typing import Any, NamedTuple, TextIO


class Progress(NamedTuple):
    """How far a planarization is.

    `step` says in words what is done now, in which search, from 1 to `tries`. `crossings` are those of the best
    picture of this search, 0 where there is none yet, and `best` those of the best picture of all, or None. `seconds`
    are those since the beginning. Where the graph is not connected, all are those of one part, until it is "done".
    """

    step: str
    order: int
    tries: int
    crossings: int
    best: int | None
    seconds: float


#: True for a line on the terminal, None or False for nothing, or a function that is called with each Progress.
ProgressOption = None | bool | Callable[[Progress], Any]


def progress_function(progress: ProgressOption) -> Callable[[Progress], Any]:
    """What is called with each Progress; ValueError where it is neither a function nor True, False or None."""
    if callable(progress):
        return progress
    if progress is not None and not isinstance(progress, bool):
        raise ValueError(f"progress is {progress!r}: it must be True, False, None, or a function that takes a Progress")
    if progress:
        return ProgressLine(sys.stderr)
    return lambda told: None


class StatusLine:
    """A line that is written over again."""

    def __init__(self, stream: TextIO):
        self._stream = stream
        self._is_open = False

    def write(self, text: str, is_last: bool) -> None:
        """Writes this over the line, and ends it with the last text."""
        self._is_open = True
        self._stream.write("\r" + text)
        if is_last:
            self.close()
        self._stream.flush()

    def close(self) -> None:
        """Ends the line, unless it is ended or was not begun."""
        if self._is_open:
            self._is_open = False
            self._stream.write("\n")
            self._stream.flush()


def line_ended(tell: Any) -> AbstractContextManager[Any]:
    """Ends the line that this writes, if it writes one, however what is done meanwhile ends."""
    return closing(tell) if isinstance(tell, StatusLine) else nullcontext()


class ProgressLine(StatusLine):
    """How far a planarization is, written at most ten times a second. The line ends when it is done, or by `close`."""

    def __init__(self, stream: TextIO, clock: Callable[[], float] = time.monotonic):
        super().__init__(stream)
        self._clock = clock
        self._next = clock()
        self._length = 0

    def __call__(self, progress: Progress) -> None:
        if self._clock() < self._next and progress.step != "done":
            return
        self._next = self._clock() + 0.1
        best = "none yet" if progress.best is None else str(progress.best)
        text = f"search {progress.order} of {progress.tries}, {progress.step}: {progress.crossings} crossings, "
        text += f"best {best}, {progress.seconds:.1f} s"
        self.write(text.ljust(self._length), progress.step == "done")
        self._length = len(text)


class Clock:
    """The time since it was made, and whether that which was given is over. Without seconds it never is."""

    def __init__(self, seconds: float | None = None):
        self._begun = time.monotonic()
        self._seconds = seconds

    @property
    def spent(self) -> float:
        """The seconds so far."""
        return time.monotonic() - self._begun

    @property
    def is_over(self) -> bool:
        """Whether the time that was given is over."""
        return self._seconds is not None and self.spent >= self._seconds

    @property
    def is_late(self) -> bool:
        """Whether a third of the time is over."""
        return self._seconds is not None and 3 * self.spent >= self._seconds
