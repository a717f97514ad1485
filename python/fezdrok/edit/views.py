"""A drawing as the page shows it: its lines and nodes in pixels, the line of a route, and corners.

Numbers are those of the drawing's file, for which it was judged to be true. The page moves and enlarges them so that
what is in two drawings lies where it lay.
"""

from __future__ import annotations

from collections import Counter
from collections.abc import Callable
from contextlib import suppress
from dataclasses import dataclass, field, replace
from math import atan2, tau
from typing import Any

from ..drawing.drawings import Drawing, drawing_beside, drawing_of, drawing_settled, judged
from ..drawing.giving_way import OverError, go_on, until
from ..drawing.labels import LETTER_HEIGHT, LINE, clean
from ..drawing.pages import Page, PageLine, PageNode
from ..drawing.scenes import NodeShape, Position, Stroke, looks
from ..drawing.step_lines import Line, StepLines, put_edge
from ..drawing.svg import Paint, edge_words, number
from ..drawing.verification import Judge
from ..engine.answers import Route
from ..engine.pictures import Crossing, Edge, Picture, json_text
from ..engine.results import Planarization

Json = dict[str, Any]
#: The style of the drawings: straight ones are made much faster than curved ones.
STYLE = "straight"


@dataclass(frozen=True)
class View:
    """A drawing of the picture after a change, and its judge. `unit` is how many pixels a step of its places is on the
    page: its own, or where it goes on from another drawing that one's. `serial` is its own number among all drawings,
    and `chain` that of the first that it goes on from. `edges` and `nodes` are what the page shows of each edge and
    each vertex, as JSON."""

    number: int
    drawing: Drawing
    judge: Judge
    unit: float
    serial: int
    chain: int
    edges: dict[int, str] = field(default_factory=dict)
    nodes: dict[int, str] = field(default_factory=dict)

    @property
    def page(self) -> Page:
        """The page of the drawing."""
        return self.judge.page

    def at(self, place: Position) -> tuple[float, float]:
        """A place of the scene in pixels."""
        x, y = self.page.at(place)
        return x / self.page.steps, y / self.page.steps

    # ---- The drawing

    def written(self, before: "View | None" = None) -> "View":
        """The view with what the page shows; what is as in the view before is written there already."""
        scene, vertex_of, paint = self.drawing.scene, self.drawing.result.vertex_of, Paint(background=None)
        for stroke, line in zip(scene.strokes, self.page.lines):
            go_on()
            old = None if before is None or before.judge.drawn.get(line.edge_id) is not line else before.edges
            self.edges[line.edge_id] = old[line.edge_id] if old else self._edge(stroke, line, paint)
        for shape, node in zip(scene.nodes, self.page.nodes):
            vertex = vertex_of[shape.node]
            old = None if before is None or not before.judge.has(vertex, node) else before.nodes
            self.nodes[vertex] = old[vertex] if old else self._node(vertex, shape, node)
        return self

    def text(self, seen: "View | None") -> str:
        """The message that shows a page this drawing: all of it, or where the page shows another of the same chain what
        is otherwise than there."""
        result, scene, steps = self.drawing.result, self.drawing.scene, self.page.steps
        known = seen if seen is not None and seen.chain == self.chain else None
        edges, nodes = ({}, {}) if known is None else (known.edges, known.nodes)
        paint = Paint(background=None)
        legend = [{"words": it, "color": paint.ink(look.color), "width": look.width} for it, look in scene.legend]
        head = json_text({
            "number": self.number, "serial": self.serial, "chain": self.chain, "isWhole": known is None,
            "scale": self.unit / scene.unit, "origin": self.at((0.0, 0.0)),
            "corner": [it / steps for it in self.page.corner], "size": [it / steps for it in self.page.size],
            "legend": legend, "kinds": self._kinds(paint), "vertices": len(result.node_of),
            "count": result.crossings, "cost": result.cost,
            "gone": {"edges": [*edges.keys() - self.edges.keys()], "nodes": [*nodes.keys() - self.nodes.keys()]},
        })
        rows = (
            ",".join(text for it, text in now.items() if before.get(it) != text)
            for now, before in ((self.edges, edges), (self.nodes, nodes))
        )
        return '{{"drawing":{{"edges":[{}],"nodes":[{}],{}}}'.format(*rows, head[1:])

    def _kinds(self, paint: Paint) -> list[Json]:
        """Each kind with its price, its look, and how many edges have it."""
        result = self.drawing.result
        counts = Counter(row.kind for row in result.picture.edges)
        return [
            {"price": price, "color": paint.ink(look.color), "width": look.width, "edges": counts[kind]}
            for kind, (price, look) in enumerate(zip(result.prices, looks(result)[0]))
        ]

    def _edge(self, stroke: Stroke, line: PageLine, paint: Paint) -> str:
        """An edge, with the crossings at which it came to others."""
        result = self.drawing.result
        own = [
            place
            for place, mark in zip(stroke.points, stroke.marks)
            if mark is not None and mark.is_crossing and result.picture.crossing(mark.id).newcomer == stroke.edge_id
        ]
        return json_text({
            "id": stroke.edge_id, "words": clean(edge_words(result, stroke.edge_id)), "d": self._path(line),
            "color": paint.ink(stroke.look.color), "width": stroke.look.width,
            "head": [self.at(place) for place in stroke.head], "crossings": [self.at(place) for place in own],
        })

    def _node(self, vertex: int, shape: NodeShape, node: PageNode) -> str:
        """A node."""
        x, y, width, height = (it / self.page.steps for it in (*node.middle, 2 * node.right, 2 * node.down))
        return json_text({
            "vertex": vertex, "name": clean(str(shape.node)), "lines": shape.label.split("\n"),
            "x": x, "y": y, "width": width, "height": height, "rounding": 3 if shape.box else height / 2,
            "size": round(LETTER_HEIGHT * shape.scale, 2), "apart": round(LINE * shape.scale, 2),
        })

    def _path(self, line: PageLine) -> str:
        """The path of an edge, whose pieces are straight."""
        steps, decimals = self.page.steps, self.drawing.scene.decimals
        points = (line.pieces[0][0], *(piece[-1] for piece in line.pieces))
        return "M" + "L".join(" ".join(number(it / steps, decimals) for it in point) for point in points)

    # ---- Routes and corners

    def route(self, u: int, v: int, route: Route) -> Json:
        """The line that an edge would have along a route, and its crossings."""
        picture = with_route(self.drawing.result.picture, u, v, route)
        place_of = {shape.node: shape.middle for shape in self.drawing.scene.nodes}
        drawn = StepLines([place_of[node] for node in self.drawing.result.node_of])
        for stroke in self.drawing.scene.strokes:
            marks = [it.id if it is not None and it.is_crossing else None for it in stroke.marks]
            drawn.lines[stroke.edge_id] = Line(list(stroke.points), [*marks])
        row = picture.edges[-1]
        put_edge(drawn, picture, row)
        line = drawn.lines[row.id]
        crossings = [self.at(place) for place, it in zip(line.points, line.crossings) if it is not None]
        return {"serial": self.serial, "line": [self.at(place) for place in line.points], "crossings": crossings}

    def edge_after(self, vertex: int, across: float, down: float) -> int:
        """The edge that comes first, clockwise from a way that leaves a vertex."""
        picture, scene = self.drawing.result.picture, self.drawing.scene
        stroke_of = {stroke.edge_id: stroke for stroke in scene.strokes}
        way = atan2(-down, across)

        def turned(edge_id: int) -> float:
            points = stroke_of[edge_id].points
            start, end = points[:2] if picture.edge(edge_id).a == vertex else points[:-3:-1]
            return (way - atan2(end[1] - start[1], end[0] - start[0])) % tau

        return min(picture.rotations[vertex], key=turned)


def view_of(number: int, serial: int, result: Planarization, before: View | None) -> View:
    """A drawing of a planarization, with the number of the change and its own. It goes on from the one before, where
    there is one and the picture has enough in common with that."""
    if before is not None and (beside := drawing_beside(result, before.drawing, before.judge)) is not None:
        return View(number, *beside, before.unit, serial, before.chain).written(before)
    found = judged(drawing_of(result, style=STYLE, near=None if before is None else before.drawing))
    assert found is not None  # a drawing without points of a caller is true
    if before is not None and _lies_as(found[0], before.drawing):
        return View(number, *found, before.unit, serial, before.chain).written()
    return View(number, *found, found[0].scene.unit, serial, serial).written()


def settled_view(serial: int, before: View, is_over: Callable[[], bool]) -> View | None:
    """The same picture drawn with wider angles, by moving all a little; None where it `is_over` before, or fails."""
    with suppress(OverError), until(is_over):
        found = drawing_settled(before.drawing)
        return None if found is None else View(before.number, *found, before.unit, serial, before.chain).written()
    return None


def _lies_as(drawing: Drawing, before: Drawing) -> bool:
    """Whether the nodes that two drawings share lie alike: where one does not go on from the other, none does."""
    place_of = {shape.node: shape.middle for shape in before.scene.nodes}
    return all(place_of.get(shape.node, shape.middle) == shape.middle for shape in drawing.scene.nodes)


def with_route(picture: Picture, u: int, v: int, route: Route) -> Picture:
    """The picture that an insertion along this route leads to."""
    edge_id, first = picture.next_edge, picture.next_crossing
    own = tuple(range(first, first + len(route.crossed)))
    new_on: dict[int, list[tuple[int, int]]] = {}
    for crossing, dart in zip(own, route.crossed):
        new_on.setdefault(dart.edge, []).append((dart.segment, crossing))
    changed = {}
    for crossed, its in new_on.items():
        crossings = list(picture.edge(crossed).crossings)
        for segment, crossing in sorted(its, reverse=True):
            crossings.insert(segment, crossing)
        changed[crossed] = replace(picture.edge(crossed), crossings=tuple(crossings))
    edges = [changed.get(row.id, row) for row in picture.edges]
    rotations = [*picture.rotations]
    for vertex, position in ((u, route.start), (v, route.end)):
        place = position or len(rotations[vertex])
        rotations[vertex] = (*rotations[vertex][:place], edge_id, *rotations[vertex][place:])
    rows = (Crossing(it, dart.edge, edge_id, "rtl" if dart.back else "ltr") for it, dart in zip(own, route.crossed))
    return Picture(
        tuple(rotations),
        (*edges, Edge(edge_id, u, v, 0, own)),
        (*picture.crossings, *rows),
        edge_id + 1,
        first + len(own),
    )
