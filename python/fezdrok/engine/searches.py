"""Searches of the program for pictures of a graph with few crossings, step by step: in this process where there is a
library, and else over a process of `planar planarize`."""

from __future__ import annotations

import json
import re
import subprocess
import tempfile
from collections.abc import Generator
from typing import NamedTuple

from .faults import Fault, MemoryFault, ProgramNotStarted
from .library import InProcess, Library
from .processes import begun
from .program import Program, failure

#: A line of `planar planarize` on the way.
_WAY = re.compile(rb"planar: component (\d+) of (\d+), orders \d+: (?:crossings (\d+)|no picture yet)\n")

#: With what the text of pictures begins.
_PICTURES = b'{"cost":'


class Way(NamedTuple):
    """How far a search has come: at which component of the graph it is, from 1, of how many, and how many crossings its
    best picture of that has, None where there is none yet."""

    component: int
    components: int
    crossings: int | None


#: Where nothing is told.
_NOWHERE = Way(0, 0, None)


class LibrarySearch(InProcess):
    """A search in this process. A step takes some 50 milliseconds."""

    #: Whether `end_soon` has it end with the best pictures so far.
    can_end_soon = True

    def __init__(self, library: Library, graph: bytes):
        super().__init__(library.search)
        self.has_ended = False
        if self._expect(self._begin(graph)):
            raise _fault_in(self._told())

    def _asked(self, request: bytes) -> bytes:
        """The answer to a request."""
        self._expect(self._call(request))
        return self._told()

    def _way(self, request: bytes) -> Way:
        """How far the search has come with what is asked for."""
        told = json.loads(self._asked(request).decode())  # which is faster than to let it find the coding
        self.has_ended = told["ended"]
        return Way(told["component"], told["components"], told["crossings"])

    def step(self) -> Way:
        """Searches for a while, and says how far the search has come."""
        return self._way(b'"step"')

    def hurry(self) -> Way:
        """Has each component come to a first picture as soon as can be, and says how far the search has come."""
        return self._way(b'"hurry"')

    def end_soon(self) -> Way:
        """Has the search end in each component as soon as there is a picture of it, and says how far it has come."""
        self.hurry()
        return self._way(b'"end"')

    def pictures(self) -> bytes:
        """What was found, as `planar planarize` prints it, once the search has ended; a Fault where that is nothing.
        After an interrupt it may be asked for again."""
        text = self._told()
        if not text.startswith(_PICTURES):
            text = self._asked(b'"pictures"')
        if not text.startswith(_PICTURES):
            raise _fault_in(text)
        return text


class ProcessSearch:
    """The same over a process of `planar planarize`, in which a step takes a second. It has the seconds that the text
    of the graph says, and cannot be ended sooner but with nothing."""

    can_end_soon = False

    def __init__(self, path: str, graph: bytes):
        self._steps = _steps(path, graph)
        self._found = b""
        self.has_ended = False

    def step(self) -> Way:
        """Waits for the next line of the process, and says how far the search has come."""
        try:
            return next(self._steps)
        except StopIteration as end:
            self._found, self.has_ended = end.value, True
            return _NOWHERE

    def hurry(self) -> Way:
        """Does nothing: the process knows its seconds."""
        return _NOWHERE

    end_soon = hurry

    def pictures(self) -> bytes:
        """What was found, as the process has printed it."""
        return self._found

    def end(self) -> None:
        """Ends the process."""
        self._steps.close()


def _steps(path: str, graph: bytes) -> Generator[Way, None, bytes]:
    """Calls the program with the text of a graph, tells how far it has come, and gives what it prints. Exceptions are
    those of `Program.run`."""
    with tempfile.TemporaryFile() as asked, tempfile.TemporaryFile() as printed:
        asked.write(b'{"progress":true,' + graph[1:])
        asked.seek(0)
        errors = b""
        try:
            with begun([path, "planarize"], stdin=asked, stdout=printed, stderr=subprocess.PIPE) as process:
                assert process.stderr is not None
                for line in process.stderr:
                    if way := _WAY.fullmatch(line):
                        yield Way(int(way[1]), int(way[2]), None if way[3] is None else int(way[3]))
                    else:
                        errors += line
        except OSError as refused:
            raise ProgramNotStarted(f"{path} cannot be run: {refused.strerror or refused}") from refused
        if process.returncode:
            raise failure(process.returncode, errors.decode(errors="replace"))
        printed.seek(0)
        return printed.read()


def _fault_in(text: bytes) -> Fault:
    """The fault of a text as `{"fault":[80,"Loop",0]}`."""
    number, name, *values = json.loads(text)["fault"]
    kind = MemoryFault if number == 8 else Fault
    return kind(number, name, *values)


def begin_search(program: Program, graph: bytes) -> LibrarySearch | ProcessSearch:
    """A search for pictures of a graph, in the form that `planar planarize` reads."""
    library = program.library
    return LibrarySearch(library, graph) if library else ProcessSearch(program.path, graph)
