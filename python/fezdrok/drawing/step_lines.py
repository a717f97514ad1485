"""The lines of all edges that a report ever had, so that each stays where it is from its first step to its last.

The last picture is drawn with straight lines from crossing to crossing, and what is there earlier lies where it lies
then. Edges that were taken out are put back, the last first: each gets its crossings on the lines that are there, and
leads through the faces between them (see `face_routes`).
"""

from __future__ import annotations

from collections.abc import Sequence
from dataclasses import dataclass, field
from itertools import groupby
from math import dist

from ..engine.pictures import Crossing, Dart, Edge, Picture
from ..engine.results import Planarization
from ..files.embeddings import chains_of
from .face_routes import Position, route, spot_in_sight
from .step_histories import History
from .straight_layout import positions


@dataclass
class Line:
    """The line of an edge, from its end `a` to its end `b`: its points, and the id of the crossing at each of them, or
    None at its ends and bends. `flat` are the crossings at which it does not turn."""

    points: list[Position]
    crossings: list[int | None]
    flat: set[int] = field(default_factory=set)

    def place(self, crossing: int | None, otherwise: int) -> int:
        """The place of a crossing along the line; that which is given where there is none."""
        return otherwise if crossing is None else self.crossings.index(crossing)

    def put(self, crossings: Sequence[int], after: int | None, before: int | None) -> None:
        """Puts crossings on the longest of the straight pieces between two others, or the ends of the line."""
        first, last = self.place(after, 0), self.place(before, len(self.points) - 1)
        start = max(range(first, last), key=lambda it: dist(self.points[it], self.points[it + 1]))
        (x, y), (u, v) = self.points[start], self.points[start + 1]
        parts = [(place + 1) / (len(crossings) + 1) for place in range(len(crossings))]
        self.points[start + 1 : start + 1] = [(x + part * (u - x), y + part * (v - y)) for part in parts]
        self.crossings[start + 1 : start + 1] = crossings
        self.flat.update(crossings)


@dataclass
class StepLines:
    """The places of the vertices, and the lines of the edges by their ids."""

    vertices: list[Position]
    lines: dict[int, Line] = field(default_factory=dict)

    def crossing_place(self, row: Crossing) -> Position:
        """The place of a crossing."""
        line = self.lines[row.crossed if row.crossed in self.lines else row.newcomer]
        other = self.lines.get(row.newcomer, line)
        holder = line if row.id in line.crossings else other
        return holder.points[holder.crossings.index(row.id)]


def lines_of(history: History, last: Planarization) -> StepLines:
    """The lines of all edges of a history, of which `last` is the last picture."""
    drawn = _last_lines(last)
    for edge_id, picture in history.deletions():
        put_edge(drawn, picture, picture.edge(edge_id))
    return drawn


def put_edge(drawn: StepLines, picture: Picture, row: Edge) -> None:
    """Puts an edge of a picture into a drawing that has all its other edges. Where its end `b` has no other edge, that
    gets its place too: in the face to which the edge leads."""
    _put_crossings(drawn, picture, row)
    line = drawn.lines[row.id] = Line([drawn.vertices[row.a]], [None])
    for segment, crossing in enumerate((*row.crossings, None)):
        if crossing is None and len(picture.rotations[row.b]) == 1:
            face, _ = _face(picture, Dart(row.id, segment, True))
            drawn.vertices[row.b] = spot_in_sight([it for dart in face for it in _along(drawn, picture, dart)[:-1]])
            bends = []
        else:
            bends = _bends(drawn, picture, Dart(row.id, segment))
        end = drawn.vertices[row.b] if crossing is None else drawn.crossing_place(picture.crossing(crossing))
        line.points += [*bends, end]
        line.crossings += [*(None for _ in bends), crossing]


def _last_lines(last: Planarization) -> StepLines:
    """The lines of a planarization that is drawn straight."""
    places, chains = positions(last), chains_of(last)
    drawn = StepLines([places[node] for node in last.node_of])
    crossing_of = {last.name_of(point): point.id for point in last.picture.points if point.is_crossing}
    for row in last.picture.edges:
        nodes = chains[row.id]
        drawn.lines[row.id] = Line([places[node] for node in nodes], [crossing_of.get(node) for node in nodes])
    return drawn


def _put_crossings(drawn: StepLines, picture: Picture, row: Edge) -> None:
    """Puts the crossings of an edge on the lines that it crosses."""
    own = set(row.crossings)
    rows = [picture.crossing(it) for it in row.crossings]
    for edge_id in dict.fromkeys(it.newcomer if it.crossed == row.id else it.crossed for it in rows):
        runs = [(is_own, list(run)) for is_own, run in groupby(picture.edge(edge_id).crossings, own.__contains__)]
        for place, (is_own, run) in enumerate(runs):
            if is_own:
                after = runs[place - 1][1][-1] if place else None
                before = runs[place + 1][1][0] if place + 1 < len(runs) else None
                drawn.lines[edge_id].put(run, after, before)


# ---- The faces that an edge leads through


def _bends(drawn: StepLines, picture: Picture, segment: Dart) -> list[Position]:
    """The bends of a segment of an edge whose earlier ones have their lines, and whose later ones have none."""
    face, start = _face(picture, segment)
    points: list[Position] = []
    corner = 0
    for place, dart in enumerate(face):
        if place == start:
            corner = len(points)
        points += _along(drawn, picture, dart)[:-1]
    return route(points, corner)


def _face(picture: Picture, segment: Dart) -> tuple[list[Dart], int]:
    """The darts along the face that a segment leads through, without it and those of the same edge behind it, from
    where it ends; and the place of the dart with which they leave where it starts."""

    def is_there(dart: Dart) -> bool:
        return dart.edge != segment.edge or dart.segment < segment.segment

    darts: list[Dart] = []
    start = 0
    dart = picture.turn(segment.twin)
    while True:
        while not is_there(dart):
            if dart == segment:
                start = len(darts)
            elif dart == segment.twin:
                return darts, start
            dart = picture.turn(dart)
        darts.append(dart)
        dart = picture.turn(dart.twin)


def _along(drawn: StepLines, picture: Picture, dart: Dart) -> list[Position]:
    """The points along a dart, without those at which the line does not turn and the picture has no crossing."""
    row, line = picture.edge(dart.edge), drawn.lines[dart.edge]
    marks = (None, *row.crossings, None)
    first = line.place(marks[dart.segment], 0)
    last = line.place(marks[dart.segment + 1], len(line.points) - 1)
    gone = line.flat.difference(row.crossings)
    stops = zip(line.points[first : last + 1], line.crossings[first : last + 1])
    points = [point for point, crossing in stops if crossing not in gone]
    return points[::-1] if dart.back else points
