"""What a session answers: routes, edges, vertices, what the program is, and what became of ids."""

from __future__ import annotations

from typing import Any, NamedTuple

from .pictures import Dart
from .reports import Limits, Refused


class Route(NamedTuple):
    """What an insertion would do: from the corner at position `start` of its first end, over the crossed darts in
    order, to the corner at position `end` of its other end. `price` is the sum of the prices of what it would cross.

    The crossing with the place i in `crossed` would have the id `next_crossing + i` of the picture now.

    Examples
    --------
    >>> from fezdrok import Session
    >>> with Session() as session:
    ...     session.route(0, 1)
    Route(crossed=(), start=0, end=0, price=0)
    """

    crossed: tuple[Dart, ...]
    start: int
    end: int
    price: int

    @staticmethod
    def from_json(value: dict[str, Any]) -> "Route | Refused":
        """The route of an object with `crossed`, `end`, `price` and `start`, or the refusal of one with `refused`."""
        if "refused" in value:
            return Refused(*value["refused"])
        crossed = tuple(Dart.from_json(dart) for dart in value["crossed"])
        return Route(crossed, value["start"], value["end"], value["price"])


class Meeting(NamedTuple):
    """A crossing as seen along one of its edges, from the end `a` to the end `b`: its id, the other edge, and how that
    passes. `sign` is `ltr` where it passes from the left to the right, else `rtl`.

    Examples
    --------
    >>> from fezdrok import Meeting
    >>> Meeting(0, 7, "ltr").other
    7
    """

    crossing: int
    other: int
    sign: str


class EdgeAnswer(NamedTuple):
    """An edge of a session's picture: its ends, its kind, its price, and its crossings from `a` to `b`.

    `price` is what a later edge pays to cross it, from 1 to 1000, or None where nothing may cross it.

    Examples
    --------
    >>> from fezdrok import Session
    >>> with Session(prices=[5]) as session:
    ...     session.edge(0)
    EdgeAnswer(id=0, a=0, b=1, kind=0, price=5, crossings=())
    """

    id: int
    a: int
    b: int
    kind: int
    price: int | None
    crossings: tuple[Meeting, ...]

    @staticmethod
    def from_json(value: dict[str, Any]) -> "EdgeAnswer | Refused":
        """The edge of an object as docs/FORMATS.md has it, or the refusal of one with `refused`."""
        if "refused" in value:
            return Refused(*value["refused"])
        crossings = tuple(Meeting(*it) for it in value["crossings"])
        return EdgeAnswer(value["id"], value["a"], value["b"], value["kind"], value["price"], crossings)


class VertexAnswer(NamedTuple):
    """The edges round a vertex, clockwise from the least id, and for each which of its ends is there: `a` or `b`.

    Examples
    --------
    >>> from fezdrok import Session
    >>> with Session() as session:
    ...     session.vertex(1)
    VertexAnswer(edges=(0,), ends=('b',))
    """

    edges: tuple[int, ...]
    ends: tuple[str, ...]

    @staticmethod
    def from_json(value: dict[str, Any]) -> "VertexAnswer | Refused":
        """The vertex of an object with `edges` and `ends`, or the refusal of one with `refused`."""
        if "refused" in value:
            return Refused(*value["refused"])
        return VertexAnswer(tuple(value["edges"]), tuple(value["ends"]))


class About(NamedTuple):
    """What a program is: its name and version, how large its pictures may be, and which requests it knows.

    Examples
    --------
    >>> from fezdrok import Session
    >>> with Session() as session:
    ...     "route" in session.about().requests
    True
    """

    limits: Limits
    program: str
    requests: tuple[str, ...]
    version: str

    @staticmethod
    def from_json(value: dict[str, Any]) -> "About":
        """What an object with these four keys says."""
        return About(Limits.from_json(value["limits"]), value["program"], tuple(value["requests"]), value["version"])


class Undone(NamedTuple):
    """How many entries of the report were taken back, and what comes next then: the numbers of the next vertex, edge
    and crossing. What has such a number or a greater one is gone.

    Examples
    --------
    >>> from fezdrok import Session
    >>> with Session() as session:
    ...     replies = session.grow(0), session.insert(2, 1)
    ...     session.undo(2)
    Undone(undone=2, vertices=2, next_edge=1, next_crossing=0)
    """

    undone: int
    vertices: int
    next_edge: int
    next_crossing: int

    @staticmethod
    def from_json(value: dict[str, int]) -> "Undone":
        """What an object with `crossings`, `edges`, `undone` and `vertices` says."""
        return Undone(value["undone"], value["vertices"], value["edges"], value["crossings"])


class Renumbered(NamedTuple):
    """What `renumber` did: at place i stands the old id of the edge, or of the crossing, that has the id i now.

    Examples
    --------
    >>> from fezdrok import Session
    >>> with Session() as session:
    ...     replies = session.insert(0, 1), session.delete(0)
    ...     session.renumber()
    Renumbered(edges=(1,), crossings=())
    """

    edges: tuple[int, ...]
    crossings: tuple[int, ...]

    @staticmethod
    def from_json(value: dict[str, list[int]]) -> "Renumbered":
        """What an object with `crossings` and `edges` says."""
        return Renumbered(tuple(value["edges"]), tuple(value["crossings"]))


def face_from_json(value: dict[str, Any]) -> tuple[Dart, ...] | Refused:
    """The darts of an object with `darts`, or the refusal of one with `refused`."""
    return Refused(*value["refused"]) if "refused" in value else tuple(Dart.from_json(dart) for dart in value["darts"])
