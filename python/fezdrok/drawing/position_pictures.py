"""The picture that a drawing with straight edges shows, from the positions of the nodes alone.

All that is told of positions is told in whole numbers, so nothing is rounded. Lines that could meet are found by a grid
(see `segment_grid`).
"""

from __future__ import annotations

from collections.abc import Iterable, Iterator, Mapping, Sequence
from dataclasses import dataclass
from fractions import Fraction
from functools import cmp_to_key
from itertools import combinations
from math import lcm
from typing import Any

from ..engine.faults import PlanarError
from ..engine.graph_edges import GraphEdge, Node
from ..engine.pictures import Crossing, Edge, Picture
from ..engine.results import Planarization, joined_parts, single
from ..files.embeddings import from_least
from ..files.graphs import PricedGraph, Pricing, read_graph
from .segment_grid import SegmentGrid

#: A place in whole numbers.
Place = tuple[int, int]


class DegeneratePositionsError(PlanarError, ValueError):
    """Positions that show no picture: a node lies on another or on an edge, or more than two edges meet in a point."""


def from_positions(graph: Any, pos: Mapping[Node, Any], *, price: Pricing = None) -> Planarization:
    """Make the planarization that a drawing of a graph with straight edges shows.

    So the crossings of any layout are counted. `planarize(graph, start=..)` goes on from it.

    Parameters
    ----------
    graph : networkx.Graph or list of pairs
        As for `planarize`.
    pos : mapping
        For each node its x and y, to the east and to the north, as the layouts of networkx have them: whole numbers,
        fractions, or floats, which are taken as they are.
    price : str, mapping or callable, optional
        As for `planarize`.

    Returns
    -------
    Planarization
        Its `parts` are what hangs together in the drawing, also by crossings alone. Of two edges that cross the one
        that the graph has first was there first.

    Raises
    ------
    DegeneratePositionsError
        Where a node lies on another or on an edge that it does not end, where parallel edges lie on each other, where
        three edges meet in a point that is no node, and where a position is no pair of numbers; it is a ValueError.
    ValueError
        Where a node has no position, an edge that must not be crossed has a crossing, and as `planarize`.

    Examples
    --------
    >>> import networkx as nx
    >>> from fezdrok import from_positions
    >>> from_positions(nx.complete_graph(4), {0: (0, 0), 1: (3, 0), 2: (3, 3), 3: (0, 3)}).crossing_pairs
    [((0, 2), (1, 3))]
    >>> from_positions(nx.complete_graph(5), {node: (node, node * node) for node in range(5)}).crossings
    5
    """
    source = read_graph(graph, price)
    places = _places(source.nodes, pos)
    drawn = _Straight(source, places, [(places[edge[0]], places[edge[1]]) for edge in source.edges])
    drawn.judge_nodes()
    drawn.judge_parallel()
    pairs = list(drawn.crossing_pairs())
    groups = drawn.groups(pairs)
    parts = [drawn.part(nodes, pairs) for nodes in groups]
    result = joined_parts(source.copy, source.prices, parts)
    for row in result.picture.edges:
        if row.crossings and result.prices[row.kind] is None:
            raise ValueError(f"the edge {result.edge_of[row.id]!r} must not be crossed, and is crossed in this drawing")
    return result


# ---- Positions in whole numbers


def _places(nodes: Sequence[Node], pos: Mapping[Node, Any]) -> dict[Node, Place]:
    """The places of the nodes, all enlarged alike so that they are whole."""
    found = {}
    for node in nodes:
        if node not in pos:
            raise ValueError(f"the node {node!r} has no position")
        try:
            x, y = pos[node]
            found[node] = (_fraction(x), _fraction(y))
        except (TypeError, ValueError, OverflowError):
            raise DegeneratePositionsError(f"the position of {node!r} is {pos[node]!r}, and no two numbers") from None
    unit = lcm(*(it.denominator for place in found.values() for it in place))
    return {node: (int(x * unit), int(y * unit)) for node, (x, y) in found.items()}


def _fraction(value: Any) -> Fraction:
    """A number as it is; those of numpy too."""
    try:
        return Fraction(value)
    except TypeError:
        return Fraction(float(value))


def side(start: Place, end: Place, point: Place) -> int:
    """Twice the area of a triangle, which is positive where the point lies on the left of the way from start to end."""
    return (end[0] - start[0]) * (point[1] - start[1]) - (end[1] - start[1]) * (point[0] - start[0])


# ---- What lies on what


@dataclass(frozen=True)
class _Straight:
    """A graph with a place for each node, and the ends of each edge."""

    source: PricedGraph
    places: Mapping[Node, Place]
    ends: Sequence[tuple[Place, Place]]

    def _grid(self) -> tuple[SegmentGrid, dict[Node, tuple[float, float]]]:
        """The edges and the nodes in a square of the size 1."""
        left, bottom = (min(place[axis] for place in self.places.values()) for axis in (0, 1))
        extent = max(max(x - left, y - bottom) for x, y in self.places.values()) or 1
        near = {node: ((x - left) / extent, (y - bottom) / extent) for node, (x, y) in self.places.items()}
        return SegmentGrid([(*near[edge[0]], *near[edge[1]]) for edge in self.source.edges]), near

    def judge_nodes(self) -> None:
        """No node lies on another, or on an edge that it does not end."""
        node_at: dict[Place, Node] = {}
        for node, place in self.places.items():
            if node_at.setdefault(place, node) != node:
                raise DegeneratePositionsError(f"the nodes {node_at[place]!r} and {node!r} lie in one point")
        if not self.ends:
            return
        grid, near = self._grid()
        for node, (x, y) in near.items():
            place = self.places[node]
            for number in grid.near(x, y, x, y):
                start, end = self.ends[number]
                if place not in (start, end) and side(start, end, place) == 0 and _is_between(start, end, place):
                    raise DegeneratePositionsError(f"the node {node!r} lies on the edge {self.source.edges[number]!r}")

    def judge_parallel(self) -> None:
        """No two edges join the same nodes."""
        known: dict[frozenset[Place], GraphEdge] = {}
        for edge, ends in zip(self.source.edges, self.ends):
            if (other := known.setdefault(frozenset(ends), edge)) != edge:
                raise DegeneratePositionsError(f"the edges {other!r} and {edge!r} lie on each other")

    def crossing_pairs(self) -> Iterator[tuple[int, int]]:
        """The places of each two edges that cross, the lesser first."""
        if not self.ends:
            return
        seen = set()
        for here in self._grid()[0].squares.values():
            for pair in combinations(sorted(here), 2):
                if pair not in seen:
                    seen.add(pair)
                    if self._cross(*pair):
                        yield pair

    def _cross(self, one: int, other: int) -> bool:
        (p, q), (r, s) = self.ends[one], self.ends[other]
        return side(p, q, r) * side(p, q, s) < 0 and side(r, s, p) * side(r, s, q) < 0

    # ---- What hangs together, and its picture

    def groups(self, pairs: Iterable[tuple[int, int]]) -> list[list[Node]]:
        """The nodes that hang together, by edges and by crossings, in the order of their first nodes."""
        import networkx

        joined = networkx.Graph()
        joined.add_nodes_from(self.source.nodes)
        joined.add_edges_from(edge[:2] for edge in self.source.edges)
        joined.add_edges_from((self.source.edges[one][0], self.source.edges[other][0]) for one, other in pairs)
        order = {node: place for place, node in enumerate(self.source.nodes)}
        return [sorted(part, key=order.__getitem__) for part in networkx.connected_components(joined)]

    def part(self, nodes: Sequence[Node], pairs: Iterable[tuple[int, int]]) -> Planarization:
        """The planarization of some nodes that hang together."""
        source, vertex_of = self.source, {node: vertex for vertex, node in enumerate(nodes)}
        own = [place for place, edge in enumerate(source.edges) if edge[0] in vertex_of]
        if not own:
            return single(source.part(nodes), nodes[0], source.prices)
        id_of = {place: edge_id for edge_id, place in enumerate(own)}
        here = sorted((id_of[one], id_of[other]) for one, other in pairs if one in id_of)
        ends = [self.ends[place] for place in own]
        along = _along(ends, here, [source.edges[place] for place in own])
        vertices = [[vertex_of[node] for node in source.edges[place][:2]] for place in own]
        edges = tuple(
            Edge(edge_id, a, b, source.kinds[place], along[edge_id])
            for (edge_id, (a, b)), place in zip(enumerate(vertices), own)
        )
        crossings = tuple(
            Crossing(number, one, other, _sign(ends[one], ends[other])) for number, (one, other) in enumerate(here)
        )
        around: list[list[tuple[Place, int]]] = [[] for _ in nodes]
        for row, (start, end) in zip(edges, ends):
            around[row.a].append(((end[0] - start[0], end[1] - start[1]), row.id))
            around[row.b].append(((start[0] - end[0], start[1] - end[1]), row.id))
        rotations = tuple(map(_clockwise, around))
        picture = Picture(rotations, edges, crossings, len(edges), len(crossings))
        edge_of = {edge_id: source.edges[place] for place, edge_id in id_of.items()}
        return Planarization(source.part(nodes), picture, tuple(nodes), edge_of, source.prices, ())


def _is_between(start: Place, end: Place, point: Place) -> bool:
    """Whether a point of the line through two others lies between them."""
    return all(min(it) <= at <= max(it) for it, at in zip(zip(start, end), point))


def _along(
    ends: Sequence[tuple[Place, Place]], pairs: Sequence[tuple[int, int]], names: Sequence[GraphEdge]
) -> list[tuple[int, ...]]:
    """The crossings along each edge, which are the places of the pairs, in their order."""
    found: list[list[tuple[Fraction, int]]] = [[] for _ in ends]
    for crossing, pair in enumerate(pairs):
        for edge_id, other in (pair, pair[::-1]):
            (p, q), (r, s) = ends[edge_id], ends[other]
            at_start, at_end = side(r, s, p), side(r, s, q)
            found[edge_id].append((Fraction(at_start, at_start - at_end), crossing))
    for edge_id, row in enumerate(found):
        row.sort()
        for (part, one), (other_part, other) in zip(row, row[1:]):
            if part == other_part:
                first, second, third = (names[it] for it in dict.fromkeys((edge_id, *pairs[one], *pairs[other])))
                raise DegeneratePositionsError(f"the edges {first!r}, {second!r} and {third!r} meet in one point")
    return [tuple(crossing for _, crossing in row) for row in found]


def _sign(crossed: tuple[Place, Place], newcomer: tuple[Place, Place]) -> str:
    """How an edge passes another: from its left to its right, or the other way."""
    return "ltr" if side(*crossed, newcomer[1]) < 0 else "rtl"


def _clockwise(around: Sequence[tuple[Place, int]]) -> tuple[int, ...]:
    """The ids of edges that leave a point in these directions, clockwise from the least one on."""

    def compare(one: tuple[Place, int], other: tuple[Place, int]) -> int:
        (x, y), (u, v) = one[0], other[0]
        halves = (y < 0 or y == 0 and x < 0) - (v < 0 or v == 0 and u < 0)
        return halves or y * u - x * v

    ordered = sorted(around, key=cmp_to_key(compare), reverse=True)
    return from_least([edge_id for _, edge_id in ordered]) if ordered else ()
