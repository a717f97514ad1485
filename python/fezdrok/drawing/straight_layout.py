"""Points for straight drawings of a planarization, and the chains of points that its edges lead over."""

from __future__ import annotations

import warnings
from collections.abc import Iterable, Mapping, Sequence
from cmath import phase
from math import cos, dist, pi, radians, sin, sqrt
from typing import TYPE_CHECKING, Any

from ..engine.faults import PlanarWarning
from ..engine.graph_edges import GraphEdge
from ..engine.graph_pictures import Dummy
from ..engine.results import Planarization
from ..files.embeddings import chains_of, rotations_of, to_networkx_embedding
from .curves import edge_ways, turn_of
from .orthogonal_layout import SHORT, path_order
from .relaxation import between, spread
from .scenes import Position, toward
from .shelf_packing import shelf_packing
from .wider_angles import Effort, widened

if TYPE_CHECKING:
    import networkx

#: Above which shares of edges that turn by more than half a circle, and of small angles, other faces are tried outside;
#: how many points there may be in all tries, and up to how many more than one is made; and how much turns count where
#: edges turn too far when angles are wider.
MOST_TURNING = 0.02
MOST_SMALL = 0.02
MOST_TRIED = 300
FEW_POINTS = 60
STRAIGHTER = 0.012
#: Below what an angle is small, 8 degrees with a little room since lines are rounded when they are drawn; and how far
#: from its neighbours a node should be at least, in a disk of radius 1.
SMALL = radians(8.1)
LEAST = 0.05


def positions(result: Planarization, embedding: "networkx.PlanarEmbedding | None" = None) -> dict[Any, Position]:
    """A point for each node of the embedding, such that straight lines between neighbours do not cross.

    The points lie in the unit disk, spread so that faces are of like size and edges pass their crossings as straight as
    they can (see `relaxation`). Where that comes to no drawing without crossings, they are those of
    `networkx.combinatorial_embedding_to_pos`, on a grid. The parts of a graph that is not connected lie side by side,
    each in a disk whose area grows with its number of points.
    """
    if result.parts:
        return _side_by_side(result, [positions(part) for part in result.parts])
    order = path_order(result.picture)
    if order is not None and len(order) > SHORT:
        return {result.node_of[vertex]: place for vertex, place in zip(order, _spiral(len(order)))}
    if not result.picture.edges:
        return dict.fromkeys(result.node_of, (0.0, 0.0))
    found = _Faces(result, embedding).best()
    if found is None:
        warnings.warn("no drawing was found in which faces are of like size: its points lie on a grid", PlanarWarning)
        return grid_positions(result, embedding)
    return found


class _Faces:
    """A planarization that is spread over a disk with one face or another outside."""

    def __init__(self, result: Planarization, embedding: "networkx.PlanarEmbedding | None"):
        self.result, self.rotations, self.chains = result, rotations_of(result), chains_of(result)
        if embedding is not None:
            self.rotations = {node: list(embedding.neighbors_cw_order(node)) for node in embedding}
        self.crossings = frozenset(result.name_of(point) for point in result.picture.points if point.is_crossing)

    def spread(self, face: int) -> dict[Any, Position] | None:
        """The points with a face outside."""
        first = self.result.picture.faces[face][0]
        nodes = self.chains[first.edge]
        place = nodes.index(self.result.name_of(self.result.picture.start(first)))
        outer = (nodes[place], nodes[place - 1 if first.back else place + 1])
        return spread(self.rotations, self.crossings, outer)

    def turning(self, places: Mapping[Any, Position]) -> float:
        """The share of edges that turn by more than half a circle as curves, which turn farther than straight lines."""
        ways = edge_ways(self.result, self.chains, places)
        turns = [turn_of([places[node] for node in self.chains[edge_id]], its) for edge_id, its in ways.items()]
        return sum(turn > pi for turn in turns) / len(self.chains)

    def small(self, places: Mapping[Any, Position]) -> float:
        """The share of small angles between edges at nodes and crossings."""
        angles: list[float] = []
        for node, others in self.rotations.items():
            ways = [complex(*toward(places[node], places[other])) for other in others]
            found = [abs(phase(two * one.conjugate())) for one, two in zip(ways, [*ways[1:], ways[0]])]
            angles += [min(found)] if node in self.crossings else found if len(found) > 1 else []
        return sum(it < SMALL for it in angles) / max(1, len(angles))

    def least(self, places: Mapping[Any, Position]) -> float:
        """How near a node of the graph lies to a neighbour at least."""
        return min(
            dist(places[node], places[other]) for node in self.result.node_of for other in self.rotations[node]
        )

    def cost(self, places: Mapping[Any, Position]) -> tuple[bool, float]:
        """How badly points can be read, where False comes before True: that is what can be read well."""
        turning, small, lack = self.turning(places), self.small(places), max(0.0, LEAST - self.least(places))
        return turning > MOST_TURNING or small > MOST_SMALL, turning + small + lack

    def wide(self, face: int) -> dict[Any, Position] | None:
        """The points with a face outside, moved where an angle is small so that it gets wider; where edges then turn
        too far, so that they turn less, if that is better."""
        found = self.spread(face)
        if found is None or len(found) > MOST_TRIED or not self.small(found):
            return found
        words = self.rotations, self.crossings, self.chains.values(), found
        wide = widened(*words)
        if self.turning(wide) > MOST_TURNING:
            wide = min(wide, widened(*words, Effort(turn=STRAIGHTER)), key=self.cost)
        return wide

    def best(self) -> dict[Any, Position] | None:
        """The points with the outer face outside, or with others that have no more crossings, in order: the first that
        can be read well, or else the best; the larger the planarization, the fewer are tried. None where there are
        none."""
        picture, outer = self.result.picture, self.result.outer_face
        best = self.wide(outer)
        crossed = [sum(picture.start(dart).is_crossing for dart in face) for face in picture.faces]
        others = [face for face, its in enumerate(crossed) if its <= crossed[outer] and face != outer]
        tried = MOST_TRIED // len(self.rotations)
        for face in others[: tried if len(self.rotations) <= FEW_POINTS else min(tried, 1)]:
            if best is None or not self.cost(best)[0]:
                break
            best = min(best, self.wide(face) or best, key=self.cost)
        return best


def _spiral(count: int) -> list[Position]:
    """So many points on a spiral from the middle of the unit disk, as far from each other as its turns are."""
    found, turned = [], 2 * pi
    for _ in range(count):
        found.append((turned * cos(turned), turned * sin(turned)))
        turned += 2 * pi / turned
    return [(x / turned, y / turned) for x, y in found]


def grid_positions(
    result: Planarization, embedding: "networkx.PlanarEmbedding | None" = None
) -> dict[Any, Position]:
    """A point of the grid of whole numbers for each node of the embedding, such that straight lines between neighbours
    do not cross: those of `networkx.combinatorial_embedding_to_pos` (Chrobak and Payne, A Linear-Time Algorithm for
    Drawing a Planar Graph on a Grid, 1995). The parts of a graph that is not connected lie side by side.
    """
    if result.parts:
        return _side_by_side(result, [grid_positions(part) for part in result.parts], True)
    import networkx

    embedding = to_networkx_embedding(result) if embedding is None else embedding
    if len(embedding) < 3:
        return {node: (float(place), 0.0) for place, node in enumerate(embedding)}
    places = networkx.combinatorial_embedding_to_pos(embedding)
    return {node: (float(x), float(y)) for node, (x, y) in places.items()}


def _side_by_side(
    result: Planarization, places: Sequence[Mapping[Any, Position]], is_on_grid: bool = False
) -> dict[Any, Position]:
    """The points of all parts, by the names that they have in the whole; points of a grid stay such."""
    scales = [1.0 if is_on_grid else sqrt(len(part)) for part in places]
    least = [tuple(min(place[axis] for place in part.values()) for axis in (0, 1)) for part in places]
    most = [tuple(max(place[axis] for place in part.values()) for axis in (0, 1)) for part in places]
    sizes = [(scale * (far[0] - near[0]), scale * (far[1] - near[1])) for scale, near, far in zip(scales, least, most)]
    found: dict[Any, Position] = {}
    for part, scale, (left, bottom), (x, y), (_, edge, crossing) in zip(
        places, scales, least, shelf_packing(sizes, 1.0), result.offsets
    ):
        for name, (u, v) in part.items():
            found[_name_in_whole(result, name, edge, crossing)] = (x + scale * (u - left), y + scale * (v - bottom))
    return found


def _name_in_whole(result: Planarization, name: Any, edge: int, crossing: int) -> Any:
    """The name that a node of a part's embedding has in that of the whole, where edge and crossing ids are so much
    larger."""
    if name in result.vertex_of:
        return name
    of = name.of + crossing if name.kind == "crossing" else name.of._replace(edge=name.of.edge + edge)
    return Dummy(name.kind, of, result.layer)


def places_between(embedding: "networkx.PlanarEmbedding", pos: Mapping[Any, Position]) -> dict[Any, Position]:
    """A point for each node of the embedding, those of `pos` among them: each other one at the mean of its neighbours,
    a crossing where the lines between opposite neighbours meet. KeyError where a node of the graph has no point."""
    places = {node: pos[node] for node in embedding if node in pos or not embedding.nodes[node]["dummy"]}
    left = {node: list(embedding.neighbors_cw_order(node)) for node in embedding if node not in places}
    places.update(between(left, places))
    for node in left:
        if "bend" in embedding.nodes[node]:
            first, second = left[node]
            (x, y), (u, v) = places[first], places[second]
            aside = 0.12 * _steps_aside(embedding, node, first, second)
            places[node] = ((x + u) / 2 + aside * (v - y), (y + v) / 2 - aside * (u - x))
    return places


def _steps_aside(embedding: "networkx.PlanarEmbedding", bend: Any, first: Any, second: Any) -> int:
    """How many parallel segments, from the first of two nodes to the second, lie from the straight one to that with
    this bend, to its right; less than 0 where it lies on the left of the straight one."""
    both = [node for node in embedding[first] if node in embedding[second]]
    beside = {second, *(node for node in both if "bend" in embedding.nodes[node])}
    around = list(embedding.neighbors_cw_order(first))
    ends = [first if node == second else node for node in reversed(list(embedding.neighbors_cw_order(second)))]
    for order, same in ((around, beside), (ends, {first, *beside} - {second})):
        cut = next((place for place, node in enumerate(order) if node not in same), None)
        if cut is not None:
            around = [node for node in order[cut:] + order[:cut] if node in same]
            break
    group = [second if node == first else node for node in around]
    return group.index(bend) - group.index(second)


def chain(result: Planarization, embedding: "networkx.PlanarEmbedding", edge_id: int) -> list[Any]:
    """The nodes of the embedding along an edge, from the node of its end `a` to that of its end `b`."""
    edge = result.edge_of[edge_id]
    names = [result.name_of(point) for point in result.picture.path(edge_id)]
    nodes = names[:1]
    for following in names[1:]:
        if embedding.get_edge_data(nodes[-1], following, {}).get("edge") != edge:
            nodes.append(_bend_between(embedding, nodes[-1], following, edge))
        nodes.append(following)
    return nodes


def _bend_between(embedding: "networkx.PlanarEmbedding", start: Any, end: Any, edge: GraphEdge) -> Dummy:
    """The point that was put into this edge's segment between two nodes."""
    bends: Iterable[Dummy] = (node for node in embedding[start] if embedding.nodes[node].get("bend") == edge)
    return next(node for node in bends if embedding.has_edge(node, end))
