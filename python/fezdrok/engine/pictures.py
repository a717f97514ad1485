"""Pictures: a graph drawn in the plane, kept as rotations, edges and crossings, with its darts and faces.

The words are those of docs/MODEL.md. What is computed here (starts, turns, faces, counts) is computed in Python
from the definitions, without the program. It expects a picture that the program gave or that it accepts.
"""

from __future__ import annotations

import json
from collections.abc import Callable, Iterator
from dataclasses import dataclass, field
from functools import cache, cached_property, partial
from typing import Any, NamedTuple

from .faults import read_as
from .graph_edges import KINDS


_encode = json.JSONEncoder(separators=(",", ":"), sort_keys=True).encode
#: The two signs of a crossing, as they stand in a text.
_SIGNS = {"ltr": '"ltr"', "rtl": '"rtl"'}


def json_text(value: Any) -> str:
    """A value as JSON text in the form of the program: no space, keys in order."""
    return _encode(value)


class Dart(NamedTuple):
    """A half-edge: a segment of an edge with a direction. Darts compare in their canonical order."""

    edge: int
    segment: int
    back: bool = False

    @property
    def twin(self) -> "Dart":
        """The same segment the other way."""
        return Dart(self.edge, self.segment, not self.back)

    @property
    def way(self) -> str:
        """`forward` from the edge's end `a` to its end `b`, else `back`."""
        return "back" if self.back else "forward"

    @staticmethod
    def from_json(value: list[Any]) -> "Dart":
        """The dart of an element of `crossed` in a report, as `[3,0,"forward"]`."""
        edge, segment, way = value
        return Dart(edge, segment, way == "back")

    def to_json(self) -> list[Any]:
        """The dart as it stands in a report."""
        return [self.edge, self.segment, self.way]


class Point(NamedTuple):
    """A vertex or a crossing of a picture. Vertices come before crossings."""

    is_crossing: bool
    id: int


@dataclass(frozen=True)
class Edge:
    """An edge: its two ends, its kind, and the ids of the crossings on its path from `a` to `b`."""

    id: int
    a: int
    b: int
    kind: int = 0
    crossings: tuple[int, ...] = ()

    @property
    def segments(self) -> int:
        """How many segments it has: one more than crossings."""
        return len(self.crossings) + 1

    @staticmethod
    def from_json(value: dict[str, Any]) -> "Edge":
        """The edge of a row of a picture, an object with `id`, `a`, `b`, `kind` and `crossings`."""
        return Edge(value["id"], value["a"], value["b"], value["kind"], tuple(value["crossings"]))

    def to_json(self) -> dict[str, Any]:
        """The edge as that object."""
        return {"id": self.id, "a": self.a, "b": self.b, "kind": self.kind, "crossings": list(self.crossings)}


@dataclass(frozen=True)
class Crossing:
    """A crossing: the edge that was there, the newcomer that crossed it, and how.

    `sign` is `ltr` where the newcomer passes from the left to the right of the crossed edge, else `rtl`.
    """

    id: int
    crossed: int
    newcomer: int
    sign: str

    @staticmethod
    def from_json(value: dict[str, Any]) -> "Crossing":
        """The crossing of a row of a picture, an object with `id`, `crossed`, `newcomer` and `sign`."""
        return Crossing(value["id"], value["crossed"], value["newcomer"], value["sign"])

    def to_json(self) -> dict[str, Any]:
        """The crossing as that object."""
        return {"id": self.id, "crossed": self.crossed, "newcomer": self.newcomer, "sign": self.sign}


class Counts(NamedTuple):
    """How large a picture is."""

    vertices: int
    crossings: int
    edges: int
    segments: int
    faces: int

    @property
    def euler(self) -> int:
        """Points - segments + faces, which is 2 for a connected picture in the plane."""
        return self.vertices + self.crossings - self.segments + self.faces


#: A number alone, the ends `a` and `b` and the id of an edge, and the first and each further edge round a vertex.
_FORMS = "{:d}", '{{"a":{:d},"b":', '{:d},"crossings":[', '],"id":{:d}', "],[{:d}", ",{:d}"
#: Numbers below it are kept as they stand in a text: this saves most of the time.
_KEPT = 1024
#: How the row of an edge of each kind ends.
_kinds = {kind: f',"kind":{kind}}}' for kind in range(KINDS)}


@cache
def _numbers(is_small: bool) -> tuple[dict[int, str], ...]:
    """Numbers in each of the forms, small ones in a plain dict, which is the fastest, or all. What is not kept is made
    without a function of Python."""
    kinds = [dict if is_small else type("Numbers", (dict,), {"__missing__": form.format}) for form in _FORMS]
    return tuple(kind((it, form.format(it)) for it in range(_KEPT)) for kind, form in zip(kinds, _FORMS))


@dataclass(frozen=True)
class Picture:
    """A picture as rows: the clockwise lists of edge ids round the vertices, the edges and the crossings in rising
    order of their ids, and the ids that come next.

    Examples
    --------
    >>> from fezdrok import Picture
    >>> Picture.seed()
    <Picture: 2 vertices, 1 edges, 0 crossings>
    >>> Picture.seed().faces
    ((Dart(edge=0, segment=0, back=False), Dart(edge=0, segment=0, back=True)),)
    """

    rotations: tuple[tuple[int, ...], ...]
    edges: tuple[Edge, ...]
    crossings: tuple[Crossing, ...] = field(default_factory=tuple)
    next_edge: int = field(default_factory=int)
    next_crossing: int = field(default_factory=int)

    def __repr__(self) -> str:
        counts = f"{len(self.rotations)} vertices, {len(self.edges)} edges, {self.crossing_count} crossings"
        return f"<Picture: {counts}>"

    @staticmethod
    def seed() -> "Picture":
        """The first picture: two vertices and one edge."""
        return Picture(((0,), (0,)), (Edge(0, 0, 1),), (), 1, 0)

    @staticmethod
    def from_json(value: dict[str, Any]) -> "Picture":
        """The picture of a JSON object in the form of docs/FORMATS.md."""
        return Picture(
            tuple(tuple(around) for around in value["rotations"]),
            tuple(Edge.from_json(row) for row in value["edges"]),
            tuple(Crossing.from_json(row) for row in value["crossings"]),
            value["next_edge"],
            value["next_crossing"],
        )

    @staticmethod
    def from_text(text: str) -> "Picture":
        """The picture of a text that the program wrote. NoReport where the text is no JSON, or is of another form."""
        return read_as("picture", text, Picture.from_json)

    @staticmethod
    def of_text(text: str) -> "Picture":
        """The picture of a text that the program wrote, which is kept, and read when a row is first asked for."""
        next_crossing, next_edge, _ = text.rpartition('"next_crossing":')[2].split(",", 2)
        numbers = int(next_edge.removeprefix('"next_edge":')), int(next_crossing), text.count('"newcomer":')
        picture = Picture.later(partial(Picture.from_text, text), *numbers)
        picture.__dict__["_text"] = text
        return picture

    @staticmethod
    def later(make: Callable[[], "Picture"], next_edge: int, next_crossing: int, crossing_count: int) -> "Picture":
        """The picture that this makes when a row is first asked for, with these numbers."""
        picture = object.__new__(Picture)
        picture.__dict__.update(
            next_edge=next_edge, next_crossing=next_crossing, crossing_count=crossing_count, _make=make
        )
        return picture

    def __getattr__(self, name: str) -> Any:
        """The rows of a picture that was not made yet."""
        if name not in Picture.__dataclass_fields__ or "_make" not in self.__dict__:
            raise AttributeError(f"a Picture has no {name!r}")
        self.__dict__.update(self._make().__dict__)
        return self.__dict__[name]

    @cached_property
    def crossing_count(self) -> int:
        """How many crossings there are, for which no row is read."""
        return len(self.crossings)

    def to_json(self) -> dict[str, Any]:
        """The picture as a JSON object in the form of docs/FORMATS.md."""
        return {
            "rotations": [list(around) for around in self.rotations],
            "edges": [row.to_json() for row in self.edges],
            "crossings": [row.to_json() for row in self.crossings],
            "next_edge": self.next_edge,
            "next_crossing": self.next_crossing,
        }

    def to_text(self) -> str:
        """The picture as the program writes it. The text is kept."""
        text: str | None = self.__dict__.get("_text")
        if text is None:
            try:
                text = self._text_of_numbers()
            except (KeyError, TypeError, ValueError):
                text = json_text(self.to_json())
            self.__dict__["_text"] = text
        return text

    def _text_of_numbers(self) -> str:
        """The same in less time. An exception where a row has what is no number, or no sign."""
        is_small = max(len(self.rotations), self.next_edge, self.next_crossing) < _KEPT
        digits, ends_a, ends_b, ids, firsts, others = _numbers(is_small)
        spelled = digits.__getitem__
        crossings = [
            f'{{"crossed":{digits[it.crossed]},"id":{digits[it.id]},"newcomer":{digits[it.newcomer]},'
            f'"sign":{_SIGNS[it.sign]}}}'
            for it in self.crossings
        ]
        edges = [
            f"{ends_a[it.a]}{ends_b[it.b]}{','.join(map(spelled, it.crossings)) if it.crossings else ''}"
            f"{ids[it.id]}{_kinds[it.kind]}"
            for it in self.edges
        ]
        rotations = self._small_rotations(firsts, others) if is_small else json_text(self.rotations)
        return (
            f'{{"crossings":[{",".join(crossings)}],"edges":[{",".join(edges)}],'
            f'"next_crossing":{digits[self.next_crossing]},"next_edge":{digits[self.next_edge]},'
            f'"rotations":{rotations}}}'
        )

    def _small_rotations(self, firsts: dict[int, str], others: dict[int, str]) -> str:
        """The lists round the vertices: where numbers are kept this is faster than a JSON encoder."""
        parts = []
        for around in self.rotations:
            numbers = firsts
            for edge in around:
                parts.append(numbers[edge])
                numbers = others
            if numbers is firsts:
                parts.append("],[")
        return f"[{''.join(parts)[2:]}]]" if parts else "[]"

    # ---- Rows by their ids

    @cached_property
    def _edges(self) -> dict[int, Edge]:
        return {row.id: row for row in self.edges}

    @cached_property
    def _crossings(self) -> dict[int, Crossing]:
        return {row.id: row for row in self.crossings}

    def edge(self, edge_id: int) -> Edge:
        """The edge of this id; KeyError where there is none."""
        return self._edges[edge_id]

    def crossing(self, crossing_id: int) -> Crossing:
        """The crossing of this id; KeyError where there is none."""
        return self._crossings[crossing_id]

    @cached_property
    def _paths(self) -> dict[int, tuple[Point, ...]]:
        """Those that were asked for."""
        return {}

    def path(self, edge_id: int) -> tuple[Point, ...]:
        """The points on an edge from its end `a` to its end `b`, both among them."""
        path = self._paths.get(edge_id)
        if path is None:
            row = self.edge(edge_id)
            path = (Point(False, row.a), *(Point(True, it) for it in row.crossings), Point(False, row.b))
            self._paths[edge_id] = path
        return path

    @cached_property
    def _places(self) -> dict[tuple[int, int], int]:
        """For an edge and a crossing on its path, how many crossings stand before it."""
        return {(row.id, crossing): place for row in self.edges for place, crossing in enumerate(row.crossings)}

    # ---- Points and darts

    @property
    def points(self) -> tuple[Point, ...]:
        """All vertices, then all crossings."""
        vertices = tuple(Point(False, vertex) for vertex in range(len(self.rotations)))
        return vertices + tuple(Point(True, row.id) for row in self.crossings)

    @property
    def darts(self) -> Iterator[Dart]:
        """All darts in canonical order: by edge, by segment, forward before back."""
        return (
            Dart(row.id, segment, back)
            for row in self.edges
            for segment in range(row.segments)
            for back in (False, True)
        )

    def start(self, dart: Dart) -> Point:
        """The point where a dart starts."""
        return self.path(dart.edge)[dart.segment + dart.back]

    def end(self, dart: Dart) -> Point:
        """The point where a dart ends: where its twin starts."""
        return self.start(dart.twin)

    def around(self, point: Point) -> tuple[Dart, ...]:
        """The darts that start at a point, clockwise: at a vertex by its rotation, at a crossing from the crossed
        edge forward."""
        return self._around_crossing(point.id) if point.is_crossing else self._around_vertex(point.id)

    def _around_vertex(self, vertex: int) -> tuple[Dart, ...]:
        rows = [self.edge(edge_id) for edge_id in self.rotations[vertex]]
        return tuple(Dart(row.id, 0) if row.a == vertex else Dart(row.id, row.segments - 1, True) for row in rows)

    def _around_crossing(self, crossing_id: int) -> tuple[Dart, ...]:
        row = self.crossing(crossing_id)
        old, new = (self._places[edge_id, crossing_id] for edge_id in (row.crossed, row.newcomer))
        crossed_forward, crossed_back = Dart(row.crossed, old + 1), Dart(row.crossed, old, True)
        new_forward, new_back = Dart(row.newcomer, new + 1), Dart(row.newcomer, new, True)
        if row.sign == "ltr":
            return (crossed_forward, new_forward, crossed_back, new_back)
        return (crossed_forward, new_back, crossed_back, new_forward)

    @cached_property
    def _turns(self) -> dict[Dart, Dart]:
        """Those round the points that were asked about."""
        return {}

    def turn(self, dart: Dart) -> Dart:
        """The next dart clockwise at the point where this one starts."""
        if dart not in self._turns:
            darts = self.around(self.start(dart))
            self._turns.update(zip(darts, darts[1:] + darts[:1]))
        return self._turns[dart]

    def face_step(self, dart: Dart) -> Dart:
        """The next dart along the face on the left: the turn of the twin."""
        return self.turn(dart.twin)

    def corner(self, vertex: int, position: int) -> Dart:
        """The dart that names the corner at a position of a vertex; the corner lies in this dart's face."""
        return self._around_vertex(vertex)[position]

    # ---- Faces

    def face(self, dart: Dart) -> tuple[Dart, ...]:
        """The darts along the face on the left of a dart, from this dart on."""
        darts = [dart]
        while (following := self.face_step(darts[-1])) != dart:
            darts.append(following)
        return tuple(darts)

    @cached_property
    def faces(self) -> tuple[tuple[Dart, ...], ...]:
        """All faces, each from its first dart on, in the order of their first darts."""
        faces: list[tuple[Dart, ...]] = []
        seen: set[Dart] = set()
        for dart in self.darts:
            if dart not in seen:
                faces.append(self.face(dart))
                seen.update(faces[-1])
        return tuple(faces)

    @cached_property
    def _face_of(self) -> dict[Dart, int]:
        return {dart: place for place, face in enumerate(self.faces) for dart in face}

    def face_of(self, dart: Dart) -> int:
        """The place in `faces` of the face on the left of a dart; KeyError where there is no such dart."""
        return self._face_of[dart]

    @cached_property
    def outer_face(self) -> int:
        """The place in `faces` of the face that drawings have outside. A picture has no outer face of its own; this is
        the one with the most vertices along it, of equal ones the longest, then the first. ValueError where there is no
        edge, and so no face."""
        if not self.faces:
            raise ValueError("the picture has no edge, and so no face")

        def size(place: int) -> tuple[int, int]:
            face = self.faces[place]
            return sum(not self.start(dart).is_crossing for dart in face), len(face)

        return max(range(len(self.faces)), key=size)

    @property
    def counts(self) -> Counts:
        """How many vertices, crossings, edges, segments and faces there are."""
        segments = sum(row.segments for row in self.edges)
        return Counts(len(self.rotations), len(self.crossings), len(self.edges), segments, len(self.faces))
