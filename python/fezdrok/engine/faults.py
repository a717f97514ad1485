"""Exceptions: what the program `planar` says when it gives no answer."""

from __future__ import annotations

import json
from collections.abc import Callable
from importlib import import_module
from typing import Any, TypeVar

Value = int | str | tuple[int, ...] | None


class PlanarWarning(UserWarning):
    """There is an answer, but its reader should know something: the program is older than its sources, or not all that
    was asked for was done."""


class PlanarError(Exception):
    """Base of all exceptions of this package that come from the program or from a refused call."""


class ProgramNotFound(PlanarError, FileNotFoundError):
    """There is no program `planar` where it was looked for, or no library where FEZDROK_LIBRARY says; the message says
    where, and how to get one."""


class UsageRefused(PlanarError, ValueError):
    """Status 2: the program refused the words of its command line."""


class ProgramFailed(PlanarError, RuntimeError):
    """The program ended in a way that its documents do not name, for example by a signal.

    `status` is its exit status (negative for a signal), `text` is what it wrote on standard error.
    """

    def __init__(self, status: int, text: str):
        super().__init__(status, text)
        self.status = status
        self.text = text

    def __str__(self) -> str:
        return f"planar ended with status {self.status}: {self.text.strip()}"


class ProgramNotStarted(PlanarError, OSError):
    """The system refused to start the program, as where it is no program; the message says which, and why."""


class NoReport(PlanarError, ValueError):
    """A text was to be read as a report or as a picture, and is none."""


Read = TypeVar("Read")


def read_as(name: str, text: str, read: Callable[[Any], Read]) -> Read:
    """What a text says that is to be a thing of this name, as this function reads it. NoReport where the text is no
    JSON, or is of another form."""
    try:
        return read(json.loads(text))
    except json.JSONDecodeError as fault:
        raise NoReport(f"the text is no {name}: it is no JSON: {fault}") from fault
    except (KeyError, TypeError, ValueError, IndexError, AttributeError, RecursionError) as fault:
        raise NoReport(f"the text is no {name}: {type(fault).__name__} {fault}") from fault


class Fault(PlanarError, ValueError):
    """Status 1: the first fault of the text that the program read, as `52 BadShape $/workers`.

    `number` and `name` are those of docs/FORMATS.md. `value` is what stands behind the name: a path as text,
    a kind or an index as a number, several numbers as a tuple, or None if nothing stands there.
    """

    status = 1

    def __init__(self, number: int, name: str, value: Value = None):
        super().__init__(number, name, value)
        self.number = number
        self.name = name
        self.value = value

    @property
    def words(self) -> list[int | str]:
        """The number, the name and what stands behind it, one after another."""
        values = self.value if isinstance(self.value, tuple) else () if self.value is None else (self.value,)
        return [self.number, self.name, *values]

    def __str__(self) -> str:
        return " ".join(map(str, self.words))


class MemoryFault(Fault, MemoryError):
    """Status 3: the program could not get memory. The same call may succeed later."""

    status = 3


class OtherReport(PlanarError, ValueError):
    """An answer was to be read as that to the search of a graph that it does not belong to."""


class VerificationError(PlanarError, ValueError):
    """A planarization is not whole, or not true of its graph; the message says where."""


class Unfinished(PlanarError, RuntimeError):
    """Stands for a graph that was not planarized, since `planarize_many` was interrupted before."""


class NotPlanarized(PlanarError, ValueError):
    """A graph could not be planarized, since one of its edges could not be drawn as it has to be.

    `edge` is the edge of the graph, `reply` the refusal of the program, as 9 `NoRoute` where edges that must not be
    crossed part its ends. It is None where the edge itself must not be crossed, and would have crossings. Of a search
    it says that no other picture was found, not that there is none.
    """

    def __init__(self, edge: Any, reply: Any = None):
        super().__init__(edge, reply)
        self.edge = edge
        self.reply = reply

    def __str__(self) -> str:
        if self.reply is None:
            return f"the edge {self.edge!r} must not be crossed, and cannot be drawn without crossings"
        return f"the edge {self.edge!r} was refused: {self.reply.number} {self.reply.name}"


class SessionClosed(PlanarError, ValueError):
    """A session was called after its end: it was closed, or its program had ended."""


class SessionInUse(PlanarError, RuntimeError):
    """A session was called before another call of it had ended, as from two threads at once. Nothing was done."""


class ModuleMissing(PlanarError, ImportError):
    """A package that is wanted for what was asked is not there; the message says which, and for what."""


#: The same exceptions by names that end in Error.
FaultError, MemoryFaultError, ModuleMissingError, NoReportError = Fault, MemoryFault, ModuleMissing, NoReport
NotPlanarizedError, OtherReportError, ProgramFailedError = NotPlanarized, OtherReport, ProgramFailed
ProgramNotFoundError, ProgramNotStartedError = ProgramNotFound, ProgramNotStarted
SessionClosedError, SessionInUseError = SessionClosed, SessionInUse
UnfinishedError, UsageRefusedError = Unfinished, UsageRefused


#: The extras of this package in which others are.
EXTRAS = {"matplotlib": "drawing", "cairosvg": "pdf", "pydot": "dot", "aiohttp": "edit"}


def wanted(module: str, purpose: str) -> Any:
    """A module that is imported where it is used; ModuleMissing where it is not there."""
    try:
        return import_module(module)
    except ModuleNotFoundError as missing:
        package = module.split(".")[0]
        if missing.name is None or missing.name.split(".")[0] != package:
            raise
        extra = f", the extra {EXTRAS[package]!r} of fezdrok" if package in EXTRAS else ""
        raise ModuleMissing(
            f"{purpose} want the package {package}, which is not there: pip install {package}{extra}"
        ) from missing


def read_value(text: str | None) -> Value:
    """The value of a fault line: a number if it is written in digits, a tuple if these are several, else the text
    itself."""
    if text is None or not text.replace(" ", "").isdecimal():
        return text
    numbers = tuple(map(int, text.split()))
    return numbers[0] if len(numbers) == 1 else numbers
