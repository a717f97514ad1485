"""Calls of a session in this process without a text: what the library tells, and what a session makes of it."""

from __future__ import annotations

from collections.abc import Callable, Sequence
from ctypes import POINTER, Structure, c_size_t, c_uint32, c_uint64
from struct import Struct
from typing import Any

from .answers import EdgeAnswer, Meeting, Route, Undone, VertexAnswer
from .faults import Fault
from .pictures import Counts, Dart
from .reports import Deleted, Grown, Inserted, Refused

#: The greatest number that a call takes, and the greatest caller.
_GREATEST, _LAST_CALLER = 2**32 - 1, 15
_NOTHING_TO_UNDO, _CUT = 70, 6
#: The names of refusals by their numbers.
_NAMES = "", "NoVertex", "SameEnds", "NoPosition", "NoEdge", "BadKind", "Cut", "Full", "Memory", "NoRoute"
_REFUSALS = [Refused(number, name) for number, name in enumerate(_NAMES)]
#: What the side of an item is called: of a dart, of a crossing, of an edge at a vertex.
_BACK, _SIGNS, _end = (False, True), ("ltr", "rtl"), ("a", "b").__getitem__
#: Makes a named tuple of a tuple, which is faster than to call its class.
_named: Callable[..., Any] = tuple.__new__


class Reply(Structure):
    """What a call tells, `fezdrok_reply` of c/fezdrok.h: items of three words each, which lie in the session, and
    numbers."""

    _fields_ = [
        ("items", POINTER(c_uint32)),
        ("length", c_size_t),
        ("price", c_uint64),
        ("refusal", c_uint32),
        ("numbers", c_uint32 * 5),
    ]


#: All its numbers from the length on, which are read at once.
NUMBERS, NUMBERS_AT = Struct("NQ6I"), Reply.length.offset
#: These: the length, the price, the refusal and five more.
Numbers = tuple[int, ...]


def refused(number: int, first: int) -> Refused:
    """The refusal with this number, and the first of the five numbers; Fault where so many entries are not there."""
    if number == _NOTHING_TO_UNDO:
        raise Fault(number, "NothingToUndo", first)
    return Refused(number, _NAMES[number], first) if number == _CUT else _REFUSALS[number]


def _grown(reply: Reply, told: Numbers, asked: Numbers) -> Grown:
    return Grown(told[3], told[4])


def _items(reply: Reply, length: int, kind: type, sides: Sequence[Any]) -> tuple[Any, ...]:
    """So many items, each as a named tuple of this kind, whose last field is the one of these that the side names."""
    if not length:
        return ()
    words = iter(reply.items[: 3 * length])
    return tuple([_named(kind, (number, at, sides[side])) for number, at, side in zip(words, words, words)])


def _inserted(reply: Reply, told: Numbers, asked: Numbers) -> Inserted:
    return Inserted(told[3], _items(reply, told[0], Dart, _BACK), told[4], told[5], told[1])


def _deleted(reply: Reply, told: Numbers, asked: Numbers) -> Deleted:
    return Deleted(told[3])


def _route(reply: Reply, told: Numbers, asked: Numbers) -> Route:
    route: Route = _named(Route, (_items(reply, told[0], Dart, _BACK), told[4], told[5], told[1]))
    return route


def _undone(reply: Reply, told: Numbers, asked: Numbers) -> Undone:
    undone: Undone = _named(Undone, told[3:7])
    return undone


def _counts(reply: Reply, told: Numbers, asked: Numbers) -> Counts:
    counts: Counts = _named(Counts, told[3:])
    return counts


def _edge(reply: Reply, told: Numbers, asked: Numbers) -> EdgeAnswer:
    return EdgeAnswer(asked[0], told[3], told[4], told[5], told[1] or None, _items(reply, told[0], Meeting, _SIGNS))


def _vertex(reply: Reply, told: Numbers, asked: Numbers) -> VertexAnswer:
    items, end = reply.items, 3 * told[0]
    vertex: VertexAnswer = _named(VertexAnswer, (tuple(items[:end:3]), tuple(map(_end, items[2:end:3]))))
    return vertex


#: What each call's answer is made of, from what is told and what was asked.
READERS: dict[str, Callable[[Reply, Numbers, Numbers], Any]] = {
    "grow": _grown,
    "insert": _inserted,
    "delete": _deleted,
    "route": _route,
    "undo": _undone,
    "counts": _counts,
    "edge": _edge,
    "vertex": _vertex,
}
#: The calls whose first number is a caller.
COMMANDS = frozenset(("grow", "insert", "delete"))


def fit(call: str, numbers: Numbers) -> bool:
    """Whether these are numbers that a call takes; for others there are lines, whose answer tells the fault."""
    for number in numbers:  # which is faster than `all`
        if not 0 <= number <= _GREATEST:
            return False
    return call not in COMMANDS or numbers[0] <= _LAST_CALLER
