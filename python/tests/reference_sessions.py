"""Sessions of the second planarizer: what `planar serve` answers to each line, by the rules of docs/FORMATS.md, without a
line of the program."""

from __future__ import annotations

import json
import math
from collections.abc import Callable
from dataclasses import dataclass, field, replace
from typing import Any, NamedTuple

from fezdrok import Crossing, Dart, Edge, Entry, Insert, Inserted, Limits, Picture, Refused, Report
from fezdrok.engine.pictures import json_text
from fezdrok.engine.reports import Call, Prices, Reply, call_from_json

from . import reference
from .support import ROOT

NAMES = {
    10: "BadPrice", 11: "BadLimits", 20: "TooMany", 21: "BadPath", 22: "BadCrossing", 23: "BadRotation",
    24: "NotConnected", 25: "NotPlanar", 50: "NotJson", 51: "TooLong", 52: "BadShape", 53: "BadVersion",
    54: "BadNumber", 60: "WrongReply", 61: "WrongPicture", 70: "NothingToUndo", 72: "NotOpen",
}
REFUSALS = {
    1: "NoVertex", 2: "SameEnds", 3: "NoPosition", 4: "NoEdge", 5: "BadKind", 6: "Cut", 7: "Full", 9: "NoRoute",
}
#: The greatest limits, and how many bytes a line may have that begins with `{` or is the first, and another one.
GREATEST = Limits(65536, 65536, 1048576)
LARGE, SMALL = 268435456, 65536
ABOUT = {
    "limits": GREATEST.to_json(),
    "program": "planar",
    "requests": [
        "about", "counts", "delete", "edge", "face", "forget", "grow", "insert", "open", "picture", "planarize",
        "planned", "renumber", "reopen", "report", "route", "undo", "vertex",
    ],
    "version": (ROOT / "VERSION").read_text().strip(),
}
#: Each request that is an array, with how many numbers it has; a face has a way behind them.
NUMBERS = {
    "grow": 3, "insert": 3, "planned": 3, "delete": 1, "undo": 1, "route": 2, "edge": 1, "vertex": 1, "face": 2,
}
#: Each request that is a text.
WORDS = ("counts", "picture", "report", "forget", "renumber")


class Told(Exception):
    """A fault, by its number, and what stands behind its name."""

    def __init__(self, number: int, *values: Any):
        super().__init__(number, *values)
        self.words = [number, NAMES[number], *values]

    def __str__(self) -> str:
        return " ".join(map(str, self.words))


# ---- Values of a text


def value_of(line: bytes, limit: int) -> Any:
    """The value of a text: 51 where it is too long, 50 where it is no JSON."""
    if len(line) > limit:
        raise Told(51)
    try:
        value = json.loads(line.decode(), parse_int=numeral, parse_float=numeral, parse_constant=no_constant)
        json.dumps(value, ensure_ascii=False).encode()  # halves of characters are none
    except (ValueError, RecursionError):
        raise Told(50) from None
    if levels(value) > 127:
        raise Told(50)
    return value


def numeral(text: str) -> int | float:
    """A number in digits alone, and a float in its place where it is written otherwise."""
    if math.isinf(float(text)):
        raise ValueError("a number that is too large for a float")
    return int(text) if text.isdigit() else float(text)


def no_constant(text: str) -> Any:
    raise ValueError(f"{text} is no JSON")


def levels(value: Any) -> int:
    inner = value.values() if isinstance(value, dict) else value if isinstance(value, list) else None
    return 0 if inner is None else 1 + max(map(levels, inner), default=0)


def number(path: str, value: Any, bound: int = 2**32) -> int:
    if type(value) not in (int, float):
        raise Told(52, path)
    if type(value) is float or not 0 <= value < bound:
        raise Told(54, path)
    return int(value)


def word(path: str, value: Any, words: tuple[str, ...]) -> str:
    if not isinstance(value, str) or value not in words:
        raise Told(52, path)
    return value


def array(path: str, value: Any, read: Callable[[str, Any], Any], most: float = math.inf) -> tuple[Any, ...]:
    if not isinstance(value, list) or len(value) > most:
        raise Told(52, path)
    return tuple(read(f"{path}/{place}", it) for place, it in enumerate(value))


def keyed(path: str, value: Any, required: tuple[str, ...], optional: tuple[str, ...] = ()) -> None:
    """The keys of an object: first those that are not known, then the first that is missing."""
    if not isinstance(value, dict) or not set(value) <= {*required, *optional}:
        raise Told(52, path)
    for key in sorted(required):
        if key not in value:
            raise Told(52, f"{path}/{key}")


def members(path: str, value: Any, **forms: Callable[[str, Any], Any]) -> dict[str, Any]:
    """An object with all of these keys, its members read in the order of their keys."""
    keyed(path, value, tuple(forms))
    return {key: forms[key](f"{path}/{key}", value[key]) for key in sorted(forms)}


# ---- Openings


class Opening(NamedTuple):
    limits: Limits
    prices: Prices
    start: Picture


def crossing(path: str, value: Any) -> Crossing:
    def sign(path: str, value: Any) -> str:
        return word(path, value, ("ltr", "rtl"))

    return Crossing.from_json(members(path, value, crossed=number, id=number, newcomer=number, sign=sign))


def numbers(path: str, value: Any) -> tuple[int, ...]:
    return array(path, value, number)


def edge(path: str, value: Any) -> Edge:
    return Edge.from_json(members(path, value, a=number, b=number, crossings=numbers, id=number, kind=number))


def rows(path: str, value: Any) -> Picture:
    found = members(
        path,
        value,
        crossings=lambda path, rows: array(path, rows, crossing),
        edges=lambda path, rows: array(path, rows, edge),
        next_crossing=number,
        next_edge=number,
        rotations=lambda path, rows: array(path, rows, numbers),
    )
    return Picture(found["rotations"], found["edges"], found["crossings"], found["next_edge"], found["next_crossing"])


def start(path: str, value: Any) -> Picture:
    return Picture.seed() if value == "seed" else rows(path, value)


def limits(path: str, value: Any) -> Limits:
    return Limits.from_json(members(path, value, crossings=number, edges=number, vertices=number))


def prices_of(version: int) -> Callable[[str, Any], Prices]:
    """What reads the prices of this version."""

    def price(path: str, value: Any) -> int | None:
        return None if value is None and version == 2 else number(path, value)

    return lambda path, value: array(path, value, price, 64)


def version_of(path: str, value: Any) -> int:
    """The version of an opening or a report, which is read before all else."""
    if not isinstance(value, dict):
        raise Told(52, path)
    if "version" not in value:
        raise Told(52, f"{path}/version")
    version = number(f"{path}/version", value["version"])
    if version not in (1, 2):
        raise Told(53)
    return version


def opening(path: str, value: Any) -> Opening:
    prices = prices_of(version_of(path, value))
    keyed(path, value, ("version",), ("limits", "prices", "start"))
    return Opening(
        limits(f"{path}/limits", value["limits"]) if "limits" in value else GREATEST,
        prices(f"{path}/prices", value["prices"]) if "prices" in value else (),
        start(f"{path}/start", value["start"]) if "start" in value else Picture.seed(),
    )


# ---- Reports


def report(path: str, value: Any) -> tuple[Opening, tuple[Entry, ...], Picture]:
    """The start of a report with its limits and prices, its history, and its picture."""
    prices = prices_of(version_of(path, value))
    read = members(
        path,
        value,
        history=lambda path, entries: array(path, entries, entry),
        limits=limits,
        picture=rows,
        prices=prices,
        start=rows,
        version=number,
    )
    return Opening(read["limits"], read["prices"], read["start"]), read["history"], read["picture"]


def entry(path: str, value: Any) -> Entry:
    return Entry.from_json(members(path, value, call=command, caller=number, reply=reply))


def command(path: str, value: Any) -> list[Any]:
    """A command of a history, where none is planned."""
    if not isinstance(value, list) or value[:1] not in (["grow"], ["insert"], ["delete"]):
        raise Told(52, path)
    if len(value) != 1 + NUMBERS[value[0]]:
        raise Told(52, path)
    return [value[0], *(number(f"{path}/{place}", it) for place, it in enumerate(value) if place)]


def reply(path: str, value: Any) -> dict[str, Any]:
    if not isinstance(value, dict):
        raise Told(52, path)
    if "deleted" in value:
        return members(path, value, deleted=number)
    if "refused" in value:
        return members(path, value, refused=refused)
    if "crossed" in value:
        return members(path, value, crossed=darts, edge=number, end=number, price=cost, start=number)
    return members(path, value, edge=number, vertex=number)


def refused(path: str, value: Any) -> list[Any]:
    if not isinstance(value, list) or not value or type(value[0]) is not int or value[0] not in REFUSALS:
        raise Told(52, path)
    if value[1:2] != [REFUSALS[value[0]]] or len(value) != 2 + (value[0] == 6):
        raise Told(52, path)
    return value[:2] if len(value) == 2 else [*value[:2], number(f"{path}/2", value[2])]


def cost(path: str, value: Any) -> int:
    return number(path, value, 2**64)


def darts(path: str, value: Any) -> tuple[Any, ...]:
    return array(path, value, dart)


def dart(path: str, value: Any) -> list[Any]:
    if not isinstance(value, list) or len(value) != 3:
        raise Told(52, path)
    edge, segment = (number(f"{path}/{place}", value[place]) for place in (0, 1))
    return [edge, segment, word(f"{path}/2", value[2], ("forward", "back"))]


# ---- Where a session stands


@dataclass
class Standing:
    """A picture that was opened, with its history, and the picture before each entry of it."""

    opened: Opening
    picture: Picture = field(init=False)
    history: list[Entry] = field(init=False, default_factory=list)
    before: list[Picture] = field(init=False, default_factory=list)

    def __post_init__(self) -> None:
        limits, prices, self.picture = self.opened
        if not (2 <= limits.vertices <= 65536 and 1 <= limits.edges <= 65536 and limits.crossings <= 1048576):
            raise Told(11)
        for kind, price in enumerate(prices):
            if price is not None and not 1 <= price <= 1000:
                raise Told(10, kind)
        load(self.picture, limits)

    @staticmethod
    def of_report(opened: Opening, history: tuple[Entry, ...], picture: Picture) -> Standing:
        """What a report leads to, if it is true."""
        standing = Standing(opened)
        for place, entry in enumerate(history):
            if standing.entered(entry.caller, entry.call) != entry.reply:
                raise Told(60, place)
        if standing.picture != picture:
            raise Told(61)
        return standing

    def price(self, kind: int) -> int | None:
        return self.opened.prices[kind] if kind < len(self.opened.prices) else 1

    def enter(self, caller: int, command: list[Any]) -> Any:
        asked = call_from_json(command)
        call: Call = Insert(asked.u, asked.v, asked.kind) if isinstance(asked, Insert) else asked
        return self.entered(caller, call).to_json()

    def entered(self, caller: int, call: Call) -> Reply:
        self.before.append(self.picture)
        reply, self.picture = reference.step(self.picture, call, self.opened.prices, self.opened.limits)
        self.history.append(Entry(call, caller, reply))
        return reply

    def undo(self, count: int) -> Any:
        if count > len(self.history):
            raise Told(70, count)
        for _ in range(count):
            self.history.pop()
            self.picture = self.before.pop()
        now = self.picture
        told = {"crossings": now.next_crossing, "edges": now.next_edge, "vertices": len(now.rotations)}
        return {**told, "undone": count}

    def forget(self) -> Any:
        self.opened = self.opened._replace(start=self.picture)
        self.history, self.before = [], []
        return self.counts()

    def renumber(self) -> Any:
        old = {"crossings": [row.id for row in self.picture.crossings], "edges": [row.id for row in self.picture.edges]}
        self.picture = closed_up(self.picture)
        self.forget()
        return old

    def counts(self) -> Any:
        return self.picture.counts._asdict()

    def report(self) -> Any:
        limits, prices, start = self.opened
        kept = reference.trimmed(prices)
        version = 2 if None in kept else 1
        return Report(tuple(self.history), limits, self.picture, kept, start, version).to_json()

    def route(self, u: int, v: int) -> Any:
        reply, _ = reference.insert(self.picture, Insert(u, v, 0), self.opened.prices, self.opened.limits)
        told: dict[str, Any] = reply.to_json()
        if isinstance(reply, Inserted):
            del told["edge"]
        return told

    def edge(self, asked: int) -> Any:
        row = next((row for row in self.picture.edges if row.id == asked), None)
        if row is None:
            return Refused(4, "NoEdge").to_json()
        met = [self.met(asked, self.picture.crossing(crossing)) for crossing in row.crossings]
        return {"a": row.a, "b": row.b, "crossings": met, "id": row.id, "kind": row.kind, "price": self.price(row.kind)}

    def met(self, asked: int, row: Crossing) -> list[Any]:
        """A crossing as seen along one of its edges: the other edge, and how it passes."""
        if row.crossed == asked:
            return [row.id, row.newcomer, row.sign]
        return [row.id, row.crossed, "rtl" if row.sign == "ltr" else "ltr"]

    def vertex(self, asked: int) -> Any:
        if asked >= len(self.picture.rotations):
            return Refused(1, "NoVertex").to_json()
        around = self.picture.rotations[asked]
        return {"edges": around, "ends": ["a" if self.picture.edge(it).a == asked else "b" for it in around]}

    def face(self, asked: int, segment: int, way: str) -> Any:
        row = next((row for row in self.picture.edges if row.id == asked), None)
        if row is None or segment >= row.segments:
            return Refused(4, "NoEdge").to_json() if row is None else {"refused": [71, "NoDart"]}
        return {"darts": [dart.to_json() for dart in self.picture.face(Dart(asked, segment, way == "back"))]}


def closed_up(picture: Picture) -> Picture:
    """The picture with its ids of edges and of crossings from 0 on, in their order."""
    edges = {row.id: place for place, row in enumerate(picture.edges)}
    crossings = {row.id: place for place, row in enumerate(picture.crossings)}
    return Picture(
        tuple(tuple(edges[it] for it in around) for around in picture.rotations),
        tuple(
            replace(row, id=edges[row.id], crossings=tuple(crossings[it] for it in row.crossings))
            for row in picture.edges
        ),
        tuple(
            replace(row, id=crossings[row.id], crossed=edges[row.crossed], newcomer=edges[row.newcomer])
            for row in picture.crossings
        ),
        len(edges),
        len(crossings),
    )


def load(rows: Picture, limits: Limits) -> None:
    """The first fault of a start under these limits."""
    vertices, ids = len(rows.rotations), [row.id for row in rows.edges]
    if vertices > limits.vertices or rows.next_edge > limits.edges or rows.next_crossing > limits.crossings:
        raise Told(20)
    there = {row.id for row in rows.crossings}
    if not rise(ids, rows.next_edge) or any(
        row.a >= vertices or row.b >= vertices or row.a == row.b or row.kind > 63 or not there >= set(row.crossings)
        for row in rows.edges
    ):
        raise Told(21)
    on = {row.id: row.crossings.count for row in rows.edges}
    if not rise([row.id for row in rows.crossings], rows.next_crossing) or any(
        row.crossed == row.newcomer
        or not {row.crossed, row.newcomer} <= set(ids)
        or any(count(row.id) != (edge in (row.crossed, row.newcomer)) for edge, count in on.items())
        for row in rows.crossings
    ):
        raise Told(22)
    for vertex, around in enumerate(rows.rotations):
        due = [row.id for row in rows.edges if vertex in (row.a, row.b)]
        if sorted(around) != due or list(around[:1]) != due[:1]:
            raise Told(23)
    if not reference.is_connected(rows, ()):
        raise Told(24)
    if rows.counts.euler != 2:
        raise Told(25)


def rise(ids: list[int], bound: int) -> bool:
    return ids == sorted(set(ids)) and all(it < bound for it in ids)


# ---- Lines


class Lines:
    """A session, which answers one line after another. Told comes out only of a first line that is the opening."""

    def __init__(self) -> None:
        self.standing: Standing | None = None
        self.is_first = True

    def answer(self, line: bytes) -> str:
        """The answer to a line."""
        first, self.is_first = self.is_first, False
        try:
            value = value_of(line, LARGE if first or line[:1] == b"{" else SMALL)
        except Told as fault:
            if first:
                raise
            return json_text({"fault": fault.words})
        if isinstance(value, dict) and "call" in value:
            return self.enveloped(value)
        if first and value != "about" and not (isinstance(value, dict) and {"open", "reopen", "planarize"} & value.keys()):
            return json_text(self.opened("$", value))
        return json_text(self.answer_to(lambda: self.asked("$", value, 0)))

    def enveloped(self, value: dict[str, Any]) -> str:
        """The answer to an envelope: its keys, its id, its caller and its request are read in this order."""
        try:
            keyed("$", value, ("call",), ("caller", "id"))
            has_id = "id" in value
            if has_id and not isinstance(value["id"], str):
                number("$/id", value["id"])
            elif has_id and len(value["id"].encode()) > 256:
                raise Told(52, "$/id")
        except Told as fault:
            return json_text({"answer": {"fault": fault.words}})

        def asked() -> Any:
            caller = number("$/caller", value["caller"], 16) if "caller" in value else 0
            return self.asked("$/call", value["call"], caller)

        answer = json_text(self.answer_to(asked))
        name = "," + json.dumps({"id": value["id"]}, ensure_ascii=False, separators=(",", ":"))[1:-1] if has_id else ""
        return f'{{"answer":{answer}{name}}}'

    def answer_to(self, asked: Callable[[], Any]) -> Any:
        try:
            return asked()
        except Told as fault:
            return {"fault": fault.words}

    def asked(self, path: str, value: Any, caller: int) -> Any:
        """The answer to a request."""
        if value == "about":
            return ABOUT
        if isinstance(value, dict) and "open" in value:
            keyed(path, value, ("open",))
            return self.opened(f"{path}/open", value["open"])
        if isinstance(value, dict) and "reopen" in value:
            keyed(path, value, ("reopen",))
            self.standing = Standing.of_report(*report(f"{path}/reopen", value["reopen"]))
            return self.standing.counts()
        if not isinstance(value, str) or value not in WORDS:
            self.check_array(path, value)
        if self.standing is None:
            raise Told(72)
        if isinstance(value, str):
            return self.standing.picture.to_json() if value == "picture" else getattr(self.standing, value)()
        if value[0] in ("undo", "route", "edge", "vertex", "face"):
            return getattr(self.standing, value[0])(*value[1:])
        return self.standing.enter(caller, value)

    def check_array(self, path: str, value: Any) -> None:
        """The faults of a request that is an array, or that should be one."""
        name = value[0] if isinstance(value, list) and value and isinstance(value[0], str) else ""
        if name not in NUMBERS or len(value) != 1 + NUMBERS[name] + (name == "face"):
            raise Told(52, path)
        for place in range(1, 1 + NUMBERS[name]):
            number(f"{path}/{place}", value[place])
        if name == "face":
            word(f"{path}/3", value[3], ("forward", "back"))

    def opened(self, path: str, value: Any) -> Any:
        self.standing = Standing(opening(path, value))
        return self.standing.counts()
