"""Pictures of graphs: which vertex is which node, which edge is which, and where the edges of the graph run."""

from __future__ import annotations

from collections.abc import Sequence
from dataclasses import dataclass
from functools import cached_property
from typing import TYPE_CHECKING, Any, NamedTuple

from .graph_copies import GraphCopy, GraphPart
from .graph_edges import GraphEdge, Node, Price, name_among
from .pictures import Dart, Picture, Point
from .reports import Report


@dataclass(frozen=True)
class Dummy:
    """A node of an embedding that is no node of the graph.

    `kind` is `crossing`, with the id of the crossing as `of`, or `bend`, with the dart in whose segment the point
    lies: networkx allows one edge between two nodes, so segments side by side each get such a point but one.

    `layer` is 0, or where the graph itself has such nodes, as it does where a planarization is planarized again, one
    more than theirs, so that no two are equal.
    """

    kind: str
    of: Any
    layer: int = 0

    def __repr__(self) -> str:
        mark = "'" * self.layer
        return f"x{self.of}{mark}" if self.kind == "crossing" else f"bend({self.of.edge},{self.of.segment}){mark}"


class Segment(NamedTuple):
    """A part of an edge between two points of the planarization, walked in one direction.

    `start` and `end` are nodes of the graph, or the `Dummy` of a crossing. `left` and `right` are the faces on either
    side, by their places in `picture.faces`.
    """

    dart: Dart
    start: Any
    end: Any
    left: int
    right: int


@dataclass(frozen=True, eq=False, repr=False)
class GraphPicture:
    """A graph with a picture of it. The fields are those of Planarization, which is what users have of it. Where it is
    made with a GraphCopy or a GraphPart, it has the graph of that."""

    graph: Any
    picture: Picture
    node_of: tuple[Node, ...]
    edge_of: dict[int, GraphEdge]
    prices: tuple[Price, ...]
    reports: Sequence[Report]
    tries: tuple[int, ...] = ()
    parts: tuple["GraphPicture", ...] = ()

    def __post_init__(self) -> None:
        if isinstance(self.graph, (GraphCopy, GraphPart)):
            self.__dict__["_copy"] = self.__dict__.pop("graph")

    if not TYPE_CHECKING:  # which would take any name for an attribute

        def __getattr__(self, name: str) -> Any:
            """The graph of a copy or of a part, when it is first asked for."""
            if name != "graph" or "_copy" not in self.__dict__:
                raise AttributeError(f"a {type(self).__name__} has no {name!r}")
            return self.__dict__.setdefault("graph", self._copy.graph)

    def __eq__(self, other: object) -> bool:
        """Whether both are the same picture of the same graph, with the same names and prices. Reports, and what each
        attempt came to, count for nothing."""
        if not isinstance(other, GraphPicture):
            return NotImplemented
        mine, others = (
            (it.picture, it.node_of, it.edge_of, it.prices, len(it.parts), *_graph_values(it.graph))
            for it in (self, other)
        )
        return mine == others

    def __hash__(self) -> int:
        return hash((self.picture, self.node_of, self.prices))

    def __repr__(self) -> str:
        counts = f"{len(self.node_of)} nodes, {len(self.edge_of)} edges, {self.crossings} crossings"
        return f"<{type(self).__name__}: {counts}>"

    @cached_property
    def vertex_of(self) -> dict[Node, int]:
        """The vertex of each node."""
        return {node: vertex for vertex, node in enumerate(self.node_of)}

    @cached_property
    def id_of(self) -> dict[GraphEdge, int]:
        """The id of each edge of the graph, which is named as the graph's `edges` names it."""
        return {edge: edge_id for edge_id, edge in self.edge_of.items()}

    def edge_id(self, u: Node, v: Node, *key: Any) -> int:
        """The id of an edge, which an undirected graph may name either way round. In a multigraph its key must be
        given: `edge_id(u, v, key)`. KeyError where there is none."""
        return self.id_of[name_among(self.id_of, self.graph, (u, v, *key))]

    def name_of(self, point: Point) -> Any:
        """The node of the graph that a point of the picture is, or the Dummy of a crossing."""
        return Dummy("crossing", point.id, self.layer) if point.is_crossing else self.node_of[point.id]

    @cached_property
    def layer(self) -> int:
        """The layer of the Dummy nodes: 0, or one more than that of the Dummy nodes that the graph itself has."""
        return max((node.layer + 1 for node in self.node_of if isinstance(node, Dummy)), default=0)

    def segments(self, u: Node, v: Node, *key: Any) -> tuple[Segment, ...]:
        """The segments of an edge in order, from u to v, with their ends and the faces on either side. The edge is
        named as for `edge_id`, in a multigraph with its key; KeyError where there is none."""
        row = self.picture.edge(self.edge_id(u, v, *key))
        darts = [Dart(row.id, place) for place in range(row.segments)]
        if self.node_of[row.a] != u:
            darts = [dart.twin for dart in reversed(darts)]
        return tuple(self._segment(dart) for dart in darts)

    def _segment(self, dart: Dart) -> Segment:
        """The segment of a dart."""
        start, end = (self.name_of(point) for point in (self.picture.start(dart), self.picture.end(dart)))
        return Segment(dart, start, end, self.face_of(dart), self.face_of(dart.twin))

    # ---- Faces

    def face_of(self, dart: Dart) -> int:
        """The place in `picture.faces` of the face on the left of a dart; KeyError where there is no such dart."""
        return self.picture.face_of(dart)

    @property
    def outer_face(self) -> int:
        """The place in `picture.faces` of the face that drawings have outside: the one with the most nodes of the graph
        along it, of equal ones the longest, then the first. ValueError where there is no edge. See `outer_faces` for a
        graph that is not connected."""
        return self.picture.outer_face

    @property
    def outer_faces(self) -> tuple[int, ...]:
        """The places in `picture.faces` of the outer faces of all parts that have an edge."""
        found: list[int] = []
        before = 0
        for part in self.parts or (self,):
            found += [before + part.outer_face] if part.picture.edges else []
            before += len(part.picture.faces)
        return tuple(found)

    # ---- Crossings

    @property
    def crossings(self) -> int:
        """How many crossings the picture has."""
        return self.picture.crossing_count

    @property
    def crossing_pairs(self) -> list[tuple[GraphEdge, GraphEdge]]:
        """For each crossing the two edges that cross there: the one that was there, and the one that crossed it."""
        return [(self.edge_of[row.crossed], self.edge_of[row.newcomer]) for row in self.picture.crossings]

    @property
    def cost(self) -> int:
        """The sum of the costs of the crossings. One costs the product of the prices of both edges, whichever of them
        was there first."""
        return sum(self._price(row.crossed) * self._price(row.newcomer) for row in self.picture.crossings)

    def _price(self, edge_id: int) -> int:
        """The price of an edge that has a crossing, and so a price."""
        return self.prices[self.picture.edge(edge_id).kind] or 0


def _graph_values(graph: Any) -> tuple[Any, ...]:
    """What two equal graphs have in common: of which kind they are, their nodes, edges and attributes."""
    return graph.is_directed(), graph.is_multigraph(), graph.graph, dict(graph.nodes(data=True)), graph.adj
