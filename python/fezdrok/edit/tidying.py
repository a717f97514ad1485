"""The search for few crossings from the picture of now, which can be stopped."""

from __future__ import annotations

from collections.abc import Callable

from ..engine.program import PathLike
from ..engine.results import Planarization
from ..search.planarization import reinsert
from ..search.progress import Progress

#: How many seconds a search takes at most.
SECONDS = 60.0


class StoppedError(Exception):
    """The search was stopped."""


class Tidying:
    """One search. It may be stopped from another thread."""

    def __init__(self, number: int, result: Planarization, tell: Callable[[Progress], None]):
        self.number = number
        self._result = result
        self._tell = tell
        self._is_stopped = False

    def stop(self) -> None:
        """Has the search end with StoppedError, at its next step."""
        self._is_stopped = True

    def _go_on(self, progress: Progress) -> None:
        if self._is_stopped:
            raise StoppedError
        self._tell(progress)

    def run(self, program: PathLike | None) -> Planarization | None:
        """A planarization that costs less, or as much with fewer crossings; None where none was found."""
        before = self._result
        found = reinsert(before, effort="default", seconds=SECONDS, progress=self._go_on, program=program)
        return None if found is before else found
