"""Pages of HTML that step through the calls of a report."""

from __future__ import annotations

import json
from collections.abc import Hashable, Sequence
from dataclasses import dataclass
from html import escape
from importlib.resources import files
from typing import Any

from ..engine.graph_edges import GraphEdge, Price
from ..engine.program import PathLike
from ..engine.reports import Call, Delete, Deleted, Grow, Grown, Inserted, Refused, Report
from ..engine.results import Planarization
from .labels import LETTER_HEIGHT, LINE, clean, label_of
from .scenes import Look, Position, looks
from .step_histories import History, history_of
from .step_lines import StepLines, lines_of
from .straight_scenes import Chains, sized_nodes
from .svg import Paint

#: How far the picture is from the rim of the page, in pixels.
MARGIN = 20.0
#: How many decimals coordinates have, in pixels.
DECIMALS = 3

Json = dict[str, Any]


def to_html(
    report: Report,
    *,
    names: Sequence[Hashable] | None = None,
    title: str = "The calls of a report",
    program: PathLike | None = None,
) -> str:
    """Make one page of HTML, without outside parts, that steps through the calls of a report.

    It has a slider over the calls, and shows the edge of each, what it crosses, its price, or why it was refused. Lines
    stay where they are from step to step: those of the last picture serve all earlier ones, and what was taken out
    leads through the faces between them. The program carries the calls out again, and says how large the picture is at
    each step.

    Parameters
    ----------
    report : Report
    names : sequence, optional
        What the vertices are called, in their order, as `node_of` of a planarization; without it by their numbers.
    title : str, optional
    program : str or os.PathLike, optional
        The path of `planar`; see `find_program`.

    Returns
    -------
    str
        The text of the page.

    Raises
    ------
    Fault
        Where the program finds the report not true.
    ValueError
        Where the names are fewer than the vertices.

    Examples
    --------
    >>> from fezdrok import Planarizer, to_html
    >>> planarizer = Planarizer()
    >>> planarizer.grow(1), planarizer.insert(0, 2)
    (0, 1)
    >>> to_html(planarizer.run()).startswith("<!DOCTYPE html>")
    True
    """
    count = len(report.picture.rotations)
    if names is not None and len(names) < count:
        raise ValueError(f"there are {len(names)} names, and {count} vertices")
    history = history_of(report, program)
    called = [clean(str(vertex if names is None else names[vertex])) for vertex in range(count)]
    data = _Writer(history, called).data()
    template = files(__package__).joinpath("step_page.html").read_text(encoding="utf-8")
    parts = {"@TITLE@": escape(clean(title)), "@DATA@": _harmless(data)}
    for mark in ("@TITLE@", "@DATA@"):
        template = template.replace(mark, parts[mark])
    return template


def _harmless(data: Json) -> str:
    """JSON that ends no element and begins none, wherever its texts are from."""
    text = json.dumps(data, separators=(",", ":"))
    return text.replace("<", "\\u003c").replace(">", "\\u003e").replace("&", "\\u0026")


def planarization_of_report(report: Report, prices: tuple[Price, ...]) -> Planarization:
    """The last picture of a report, as one of a graph whose nodes are numbers, with the prices of all kinds."""
    import networkx

    picture = report.picture
    graph = networkx.MultiGraph()
    graph.add_nodes_from(range(len(picture.rotations)))
    graph.add_edges_from((row.a, row.b, row.id) for row in picture.edges)
    edge_of: dict[int, GraphEdge] = {row.id: (row.a, row.b, row.id) for row in picture.edges}
    return Planarization(graph, picture, tuple(graph), edge_of, prices, ())


@dataclass
class _Writer:
    """What a page is made from: a history, and the names of the vertices."""

    history: History
    names: Sequence[str]

    def data(self) -> Json:
        """All that the page shows."""
        last = planarization_of_report(self.history.report, self.prices())
        drawn = lines_of(self.history, last)
        unit, nodes = self.nodes(last, drawn)
        kinds, legend = self.looks(last)
        return {
            "box": self.box(drawn, unit),
            "nodes": nodes,
            "edges": [self.edge(edge_id, drawn, unit, kinds) for edge_id in self.history.edges],
            "crossings": self.crossings(drawn, unit),
            "steps": self.steps(),
            "legend": legend,
        }

    def box(self, drawn: StepLines, unit: float) -> list[float]:
        """The left, the top, the width and the height of all that is ever shown."""
        points = [*drawn.vertices, *(point for line in drawn.lines.values() for point in line.points)]
        xs, ys = [unit * x for x, _ in points], [-unit * y for _, y in points]
        left, top = min(xs) - MARGIN, min(ys) - MARGIN
        return [round(it, DECIMALS) for it in (left, top, max(xs) + MARGIN - left, max(ys) + MARGIN - top)]

    def nodes(self, last: Planarization, drawn: StepLines) -> tuple[float, list[Json]]:
        """How many pixels a step of the places is, and the vertices."""
        places: dict[Hashable, Position] = dict(enumerate(drawn.vertices))
        chains: dict[int, Sequence[Hashable]] = {}
        for edge_id, line in drawn.lines.items():
            row = self.history.edges[edge_id][0]
            inner = [(edge_id, place) for place in range(1, len(line.points) - 1)]
            chains[edge_id] = [row.a, *inner, row.b]
            places.update(zip(inner, line.points[1:-1]))
        labels = [label_of(name) for name in self.names]
        unit, shapes = sized_nodes(Chains(last, chains, places), labels)
        rows = []
        for vertex, (shape, life) in enumerate(zip(shapes, self.history.vertices)):
            x, y = _pixels(shape.middle, unit)
            width, height = shape.width * unit, shape.height * unit
            rows.append(
                {
                    "vertex": vertex, "name": self.names[vertex], "lines": shape.label.split("\n"), "x": x, "y": y,
                    "width": round(width, 2), "height": round(height, 2), "rounding": 3 if shape.box else height / 2,
                    "size": round(LETTER_HEIGHT * shape.scale, 2), "apart": LINE * shape.scale, **life._asdict(),
                }
            )
        return unit, rows

    def prices(self) -> tuple[Price, ...]:
        """The prices of all kinds that an edge has; those that the report does not name cost 1."""
        count = max(row.kind for row, _ in self.history.edges.values()) + 1
        return (*self.history.report.prices, *[1] * count)[:count]

    def looks(self, last: Planarization) -> tuple[list[Look], list[Json]]:
        """The look of each kind, and the legend."""
        kinds, legend = looks(last)
        paint = Paint(background=None)
        inks = [Look(paint.ink(look.color), look.width) for look in kinds]
        rows = [(words, paint.ink(look.color), look.width) for words, look in legend]
        return inks, [{"words": words, "color": color, "width": width} for words, color, width in rows]

    def edge(self, edge_id: int, drawn: StepLines, unit: float, kinds: Sequence[Look]) -> Json:
        """An edge with its line."""
        row, life = self.history.edges[edge_id]
        points = ("{},{}".format(*_pixels(point, unit)) for point in drawn.lines[edge_id].points)
        words = f"edge {edge_id}: {self.names[row.a]} -- {self.names[row.b]}"
        look = kinds[row.kind]
        d = "M" + "L".join(points)
        return {"id": edge_id, "words": words, "color": look.color, "width": look.width, "d": d, **life._asdict()}

    def crossings(self, drawn: StepLines, unit: float) -> list[Json]:
        """The marks of the crossings."""
        rows = []
        for crossing_id, life in self.history.crossings.items():
            x, y = _pixels(drawn.crossing_place(self.history.crossing_of[crossing_id]), unit)
            rows.append({"id": crossing_id, "x": x, "y": y, **life._asdict()})
        return rows

    # ---- The calls

    def steps(self) -> list[Json]:
        """What is said at each step."""
        start: Json = {"call": "the start", "reply": "", "kind": "start", "edge": None, "crossed": [], "ends": []}
        rows = [start, *(self.step(entry.call, entry.reply) for entry in self.history.report.history)]
        for row, counts in zip(rows, self.history.counts):
            row.update(vertices=counts.vertices, edges=counts.edges, crossings=counts.crossings)
        return rows

    def step(self, call: Call, reply: Any) -> Json:
        """What is said of a call."""
        edge = getattr(call, "edge", None) if isinstance(reply, (Refused, Deleted)) else reply.edge
        crossed = [dart.edge for dart in reply.crossed] if isinstance(reply, Inserted) else []
        row, _ = self.history.edges.get(-1 if edge is None else edge, (None, None))
        ends = [] if row is None else [row.a, row.b]
        kind = type(reply).__name__.lower()
        return {
            "call": self.call_words(call), "reply": self.reply_words(reply), "kind": kind, "edge": edge,
            "crossed": crossed, "ends": ends,
        }

    def name(self, vertex: int) -> str:
        """What a vertex is called, which may be none that there is."""
        return self.names[vertex] if vertex < len(self.names) else f"vertex {vertex}, which is not there"

    def edge_words(self, edge_id: int) -> str:
        """An edge in words."""
        if edge_id not in self.history.edges:
            return f"edge {edge_id}, which is not there"
        row = self.history.edges[edge_id][0]
        return f"{self.name(row.a)} -- {self.name(row.b)}"

    def call_words(self, call: Call) -> str:
        """A call in words."""
        if isinstance(call, Delete):
            return f"take out edge {call.edge} ({self.edge_words(call.edge)})."
        kind = f" of kind {call.kind}" if call.kind else ""
        if isinstance(call, Grow):
            return f"a new vertex on an edge{kind} from {self.name(call.u)}."
        return f"an edge{kind}, {self.name(call.u)} -- {self.name(call.v)}."

    def reply_words(self, reply: Any) -> str:
        """A reply in words."""
        if isinstance(reply, Refused):
            at = "" if reply.segment is None else f", at its segment {reply.segment}"
            return f"Refused: {reply.number} {reply.name}{at}."
        if isinstance(reply, Grown):
            return f"Edge {reply.edge}, to the vertex {self.names[reply.vertex]}."
        if isinstance(reply, Deleted):
            return "Taken out."
        if not reply.crossed:
            return f"Edge {reply.edge} crosses nothing."
        crossed = ", ".join(self.edge_words(dart.edge) for dart in reply.crossed)
        return f"Edge {reply.edge} crosses {crossed}, at the price {reply.price}."


def _pixels(place: Position, unit: float) -> tuple[float, float]:
    """A place in pixels, to the right and down."""
    return round(place[0] * unit, DECIMALS), round(-place[1] * unit, DECIMALS)
