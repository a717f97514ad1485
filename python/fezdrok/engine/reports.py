"""Calls, replies and reports: what a run was asked to do, what each call answered, and what came of it."""

from __future__ import annotations

from collections.abc import Callable, Sequence
from dataclasses import dataclass
from typing import Any

from .faults import read_as
from .pictures import Dart, Picture, json_text

Prices = tuple[int | None, ...]


@dataclass(frozen=True)
class Limits:
    """How large a picture may grow.

    `vertices` bounds the vertices (2 to 65,536). `edges` bounds the edge ids that are ever given (1 to 65,536), and
    `crossings` the crossing ids that are ever given (0 to 1,048,576): those that are no longer there count too.

    Nothing is tested here. Where the program is called, a number outside its range is the Fault 11 BadLimits, a
    negative one or one of 2**32 or more the Fault 54 BadNumber, and a start picture that is larger the Fault 20
    TooMany. A call that would go beyond is refused as 7 Full.

    Examples
    --------
    >>> from fezdrok import Limits, Session
    >>> with Session(limits=Limits(vertices=2)) as session:
    ...     session.grow(0)
    Refused(number=7, name='Full', segment=None)
    """

    vertices: int = 65536
    edges: int = 65536
    crossings: int = 1048576

    @staticmethod
    def from_json(value: dict[str, int]) -> "Limits":
        """The limits of an object as `{"crossings":9,"edges":9,"vertices":9}`; KeyError where one is missing."""
        return Limits(value["vertices"], value["edges"], value["crossings"])

    def to_json(self) -> dict[str, int]:
        """The limits as that object."""
        return {"vertices": self.vertices, "edges": self.edges, "crossings": self.crossings}


# ---- Calls


@dataclass(frozen=True)
class Grow:
    """A new vertex on a new edge of this kind, from the corner at a position of vertex `u`."""

    u: int
    position: int
    kind: int

    def to_json(self) -> list[Any]:
        """The command as it stands in a script: `["grow",U,POSITION,KIND]`."""
        return ["grow", self.u, self.position, self.kind]


@dataclass(frozen=True)
class Insert:
    """A new edge of this kind from `u` to `v` along the first of the cheapest routes."""

    u: int
    v: int
    kind: int

    def to_json(self) -> list[Any]:
        """The command as it stands in a script: `["insert",U,V,KIND]`."""
        return ["insert", self.u, self.v, self.kind]


@dataclass(frozen=True)
class Planned(Insert):
    """An insertion whose route is looked for on a version of the picture, outside the lock."""

    def to_json(self) -> list[Any]:
        """The command as it stands in a script: `["planned",U,V,KIND]`."""
        return ["planned", self.u, self.v, self.kind]


@dataclass(frozen=True)
class Delete:
    """An edge taken out."""

    edge: int

    def to_json(self) -> list[Any]:
        """The command as it stands in a script: `["delete",EDGE]`."""
        return ["delete", self.edge]


Call = Grow | Insert | Planned | Delete

_CALLS: dict[str, Callable[..., Call]] = {"grow": Grow, "insert": Insert, "planned": Planned, "delete": Delete}


def call_from_json(value: list[Any]) -> Call:
    """The call of an array as `["grow",1,0,0]`."""
    return _CALLS[value[0]](*value[1:])


# ---- Replies


@dataclass(frozen=True)
class Grown:
    """A new vertex on a new edge."""

    vertex: int
    edge: int

    def to_json(self) -> dict[str, Any]:
        """The reply as it stands in a report: `{"edge":E,"vertex":V}`."""
        return {"vertex": self.vertex, "edge": self.edge}


@dataclass(frozen=True)
class Inserted:
    """A new edge along a route: from the corner at position `start` of its first end, over the crossed darts, to the
    corner at position `end` of its other end. `price` is the sum of the prices of what it crossed."""

    edge: int
    crossed: tuple[Dart, ...]
    start: int
    end: int
    price: int

    def to_json(self) -> dict[str, Any]:
        """The reply as it stands in a report: an object with `crossed`, `edge`, `end`, `price` and `start`."""
        crossed = [dart.to_json() for dart in self.crossed]
        return {"edge": self.edge, "crossed": crossed, "start": self.start, "end": self.end, "price": self.price}


@dataclass(frozen=True)
class Deleted:
    """An edge was taken out."""

    edge: int

    def to_json(self) -> dict[str, Any]:
        """The reply as it stands in a report: `{"deleted":EDGE}`."""
        return {"deleted": self.edge}


@dataclass(frozen=True)
class Refused:
    """A call that changed nothing, and why, as 9 `NoRoute`. `segment` is set for 6 `Cut` alone."""

    number: int
    name: str
    segment: int | None = None

    def to_json(self) -> dict[str, Any]:
        """The reply as it stands in a report: `{"refused":[NUMBER,NAME]}`, for 6 `Cut` with the segment as a third
        word."""
        words: list[Any] = [self.number, self.name]
        return {"refused": words if self.segment is None else [*words, self.segment]}


Reply = Grown | Inserted | Deleted | Refused


def reply_from_json(value: dict[str, Any]) -> Reply:
    """The reply of an object; its keys choose the form."""
    if "deleted" in value:
        return Deleted(value["deleted"])
    if "refused" in value:
        return Refused(*value["refused"])
    if "crossed" in value:
        crossed = tuple(Dart.from_json(dart) for dart in value["crossed"])
        return Inserted(value["edge"], crossed, value["start"], value["end"], value["price"])
    return Grown(value["vertex"], value["edge"])


# ---- Histories and reports


@dataclass(frozen=True)
class Entry:
    """A call of a history, with the number of the list of commands that it came from, and its reply."""

    call: Call
    caller: int
    reply: Reply

    @staticmethod
    def from_json(value: dict[str, Any]) -> "Entry":
        """The entry of an object with `call`, `caller` and `reply`, as it stands in a history."""
        return Entry(call_from_json(value["call"]), value["caller"], reply_from_json(value["reply"]))

    def to_json(self) -> dict[str, Any]:
        """The entry as that object."""
        return {"call": self.call.to_json(), "caller": self.caller, "reply": self.reply.to_json()}


@dataclass(frozen=True)
class Report:
    """What a run did: its start, limits and prices, each call with its reply, and the picture at the end."""

    history: tuple[Entry, ...]
    limits: Limits
    picture: Picture
    prices: Prices
    start: Picture
    version: int

    def __repr__(self) -> str:
        return f"<Report: {len(self.history)} calls, {len(self.refused)} refused, {self.picture!r}>"

    @property
    def replies(self) -> tuple[Reply, ...]:
        """The replies in the order of the calls."""
        return tuple(entry.reply for entry in self.history)

    @property
    def refused(self) -> tuple[Entry, ...]:
        """The calls that were refused."""
        return tuple(entry for entry in self.history if isinstance(entry.reply, Refused))

    @staticmethod
    def from_text(text: str) -> "Report":
        """The report of the line that `planar run` prints. NoReport where the text is no JSON, or is of another
        form."""
        return read_as("report", text, Report.from_json)

    @staticmethod
    def from_json(value: dict[str, Any]) -> "Report":
        """The report of a JSON object in the form of docs/FORMATS.md. Where it is of another form, that is KeyError or
        another exception of Python's; `from_text` has NoReport."""
        return Report(
            tuple(Entry.from_json(entry) for entry in value["history"]),
            Limits.from_json(value["limits"]),
            Picture.from_json(value["picture"]),
            tuple(value["prices"]),
            Picture.from_json(value["start"]),
            value["version"],
        )

    def to_json(self) -> dict[str, Any]:
        """The report as a JSON object in the form of docs/FORMATS.md."""
        return {
            "history": [entry.to_json() for entry in self.history],
            "limits": self.limits.to_json(),
            "picture": self.picture.to_json(),
            "prices": list(self.prices),
            "start": self.start.to_json(),
            "version": self.version,
        }

    def to_text(self) -> str:
        """The report as the program writes it, without its line feed."""
        return json_text(self.to_json())


def version_of(prices: Sequence[int | None]) -> int:
    """The version that a script with these prices has: 2 where an edge must not be crossed, else 1."""
    return 2 if None in prices else 1
