"""Scenes of straight and of curved drawings, which are true: their lines are judged as they stand in the file, and what
is false is made right.

Nodes are made smaller where they would lie on edges or crossings. Coordinates have as many decimals as a drawing with
straight lines wants to be true. A curve that meets what it must not is drawn nearer and nearer to its chord, until all
is right; with every curve straight it is.
"""

from __future__ import annotations

from collections.abc import Container, Mapping, Sequence
from dataclasses import dataclass, replace
from math import hypot, sqrt
from typing import Any

from ..engine.graph_edges import Node
from ..engine.pictures import Point
from ..engine.results import Planarization
from .curves import edge_ways, smooth
from .giving_way import go_on
from .labels import label_of, label_size
from .pages import Page
from .scenes import MANY, PLAIN, NodeShape, Position, Scene, Stroke, looks, with_arrows
from .segment_grid import SegmentGrid
from .verification import Defect, Judge, Piece, defects

#: How many decimals the coordinates of a file have at most.
MOST_DECIMALS = 4
#: How near, in pixels, a node of full size comes to what it must not lie on.
GAP = 2.0
#: What follows each reach of a curve where it meets what it must not; and in drawings with more than MANY nodes.
LESS_REACH = {1.0: 0.6, 0.6: 0.35, 0.35: 0.18, 0.18: 0.0}
LESS_REACH_OF_MANY = {1.0: 0.3, 0.3: 0.0}


@dataclass(frozen=True)
class Chains:
    """A planarization to be drawn: for each edge the nodes of an embedding along it, and a place for each of them.
    Edges of `same` lie as in the drawing before, where they have the same ids."""

    result: Planarization
    nodes: Mapping[int, Sequence[Any]]
    places: Mapping[Any, Position]
    same: Container[int] = ()

    @property
    def segments(self) -> list[tuple[Any, ...]]:
        """The straight lines between neighbours: both places, the edge id, and the names of both ends."""
        return [
            (*self.places[start], *self.places[end], edge_id, start, end)
            for edge_id, chain in self.nodes.items()
            for start, end in zip(chain, chain[1:])
        ]


def true_scene(
    chains: Chains, is_curved: bool, names: Mapping[Node, str], color: str = PLAIN
) -> tuple[Scene, list[Defect]]:
    """A scene with straight or with curved lines, and what is false in it: nothing, unless its straight lines
    themselves are false with all decimals that there may be."""
    least = 1 if len(names) <= MANY else 3
    scene = replace(straight_scene(chains, names, color), decimals=least)
    false: list[Defect] = []
    if is_curved:
        curved, false = _curved(chains, scene, [])
        if not false:
            return with_arrows(chains.result, curved), []
    for decimals in range(least, MOST_DECIMALS + 1):
        scene = replace(scene, decimals=decimals)
        false = defects(chains.result, Page(scene))
        if not false:
            break
    if is_curved:
        scene, false = _curved(chains, scene, false)
    return with_arrows(chains.result, scene), false


def straight_scene(chains: Chains, names: Mapping[Node, str], color: str = PLAIN) -> Scene:
    """The scene in which edges are straight from one node of their chains to the next."""
    unit, nodes = sized_nodes(chains, [label_of(names[node]) for node in chains.result.node_of])
    return _scene_of(chains, unit, nodes, color)


def scene_beside(chains: Chains, names: Mapping[Node, str], before: Scene) -> Scene:
    """The scene that goes on from one with straight lines, in which all nodes lie that both have. Strokes and nodes
    that are as there are the same objects; a node is smaller where a line is new beside it."""
    result, (kinds, _) = chains.result, looks(chains.result)
    old = {
        it.edge_id: it
        for it in before.strokes
        if it.edge_id in chains.same and it.look == kinds[result.picture.edge(it.edge_id).kind]
    }
    nodes = _nodes_beside(chains, names, before, [edge_id for edge_id in chains.nodes if edge_id not in old])
    if result.graph.is_directed():
        kept = {id(it) for it in before.nodes}
        ends = {it.node for it in nodes if id(it) in kept}  # at which arrows stay where they are
        old = {edge_id: it for edge_id, it in old.items() if result.edge_of[edge_id][1] in ends}
    scene = replace(_scene_of(chains, before.unit, nodes, PLAIN, old), decimals=before.decimals)
    return with_arrows(result, scene)


def _nodes_beside(
    chains: Chains, names: Mapping[Node, str], before: Scene, fresh: Sequence[int]
) -> tuple[NodeShape, ...]:
    """The nodes, each as before, or smaller where one of the fresh edges comes near it; a new one is as large as there
    is room."""
    old = {it.node: it for it in before.nodes}
    lines = replace(chains, nodes={edge_id: chains.nodes[edge_id] for edge_id in fresh})
    kept = [node for node in chains.result.node_of if node in old] if fresh else []
    sizes = [label_size(old[node].label) for node in kept]
    scales = dict(zip(kept, _scales_beside_lines(lines, kept, sizes, before.unit)))
    found = []
    for node in chains.result.node_of:
        shape = old.get(node)
        if shape is None:
            label = label_of(names[node])
            shape = _shape(chains, node, label, _scale_of_new(chains, node, label, before), before.unit)
        elif scales.get(node, 1.0) < shape.scale:
            shape = _shape(chains, node, shape.label, scales[node], before.unit)
        found.append(shape)
    return tuple(found)


def _scale_of_new(chains: Chains, node: Node, label: str, before: Scene) -> float:
    """By how much a new node has to be made smaller to lie on nothing; else 1."""
    (x, y), unit, (width, height) = chains.places[node], before.unit, label_size(label)
    right, up = (width / 2 + GAP) / unit, (height / 2 + GAP) / unit
    near = {}
    for edge_id, nodes in chains.nodes.items():
        xs, ys = zip(*(chains.places[it] for it in nodes))
        if min(xs) <= x + right and max(xs) >= x - right and min(ys) <= y + up and max(ys) >= y - up:
            near[edge_id] = nodes
    scale = _scales_beside_lines(replace(chains, nodes=near), [node], [(width, height)], unit)[0]
    for shape in before.nodes:
        across, rise = abs(shape.middle[0] - x) - shape.width / 2, abs(shape.middle[1] - y) - shape.height / 2
        scale = min(scale, max((2 * unit * across - GAP) / width, (2 * unit * rise - GAP) / height))
    return max(scale, 0.0)


def _scene_of(
    chains: Chains, unit: float, nodes: tuple[NodeShape, ...], color: str, old: Mapping[int, Stroke] = {}
) -> Scene:
    """The scene with these nodes, and with these strokes of some edges."""
    result, places = chains.result, chains.places
    kinds, legend = looks(result, color)
    strokes = [
        old.get(edge_id)
        or Stroke(
            edge_id,
            tuple(places[node] for node in chain),
            False,
            kinds[result.picture.edge(edge_id).kind],
            _marks(result, edge_id, chain),
        )
        for edge_id, chain in chains.nodes.items()
    ]
    dots = tuple(places[result.name_of(point)] for point in result.picture.points if point.is_crossing)
    return Scene(unit, tuple(strokes), nodes, dots, legend)


def _marks(result: Planarization, edge_id: int, chain: Sequence[Any]) -> tuple[Point | None, ...]:
    """For each node of an edge's chain the point of the picture that it is."""
    row = result.picture.edge(edge_id)
    inner = (Point(True, node.of) if node.kind == "crossing" else None for node in chain[1:-1])
    return (Point(False, row.a), *inner, Point(False, row.b))


# ---- Nodes that have room


def sized_nodes(chains: Chains, labels: Sequence[str]) -> tuple[float, tuple[NodeShape, ...]]:
    """How many pixels a step of the places is, and the nodes: so many that the drawing has room for its points, and up
    to twice as many where nodes would lie on anything else. A node that does all the same is made smaller."""
    xs, ys = zip(*chains.places.values())
    extent = max(max(xs) - min(xs), max(ys) - min(ys)) or 1.0
    root = sqrt(len(chains.places))
    least = max(200.0, min(900.0, 80.0 * root), 45.0 * root) / extent
    sizes = [label_size(label) for label in labels]
    scales = _scales(chains, sizes, least)
    unit = least * min(2.0, max(1.0, 1.0 / max(min(scales), 0.1))) if len(scales) <= MANY else least
    if unit > least:
        scales = _scales(chains, sizes, unit)
    return unit, _shapes(chains, labels, scales, unit)


def _shapes(
    chains: Chains, labels: Sequence[str], scales: Sequence[float], unit: float
) -> tuple[NodeShape, ...]:
    """The nodes at their places, so many times as large as their labels want."""
    return tuple(_shape(chains, *its, unit) for its in zip(chains.result.node_of, labels, scales))


def _shape(chains: Chains, node: Node, label: str, scale: float, unit: float) -> NodeShape:
    width, height = (scale * extent / unit for extent in label_size(label))
    return NodeShape(node, label, chains.places[node], width, height, "\n" in label, scale)


def _scales(chains: Chains, sizes: Sequence[tuple[float, float]], unit: float) -> list[float]:
    """By how much each node has to be made smaller, at so many pixels a step, to lie on nothing; else 1."""
    middles = [(unit * x, unit * y) for x, y in (chains.places[node] for node in chains.result.node_of)]
    scales = _scales_beside_lines(chains, chains.result.node_of, sizes, unit)
    boxes = [(x - w, y - h, x + w, y + h) for (x, y), (w, h) in zip(middles, sizes)]
    near = SegmentGrid.of_rectangles(boxes)
    for place, ((x, y), (width, height)) in enumerate(zip(middles, sizes)):
        go_on()
        scale = scales[place]
        for other in near.near(*boxes[place]):
            (u, v), (w, h) = middles[other], sizes[other]
            right, up, way = (width + w + GAP) / 2, (height + h + GAP) / 2, (u - x, v - y)
            if abs(way[0]) < scale * right and abs(way[1]) < scale * up and other != place:
                scale = min(scale, _reach(way, way, right, up))
        scales[place] = scale
    return scales


def _scales_beside_lines(
    chains: Chains, nodes: Sequence[Node], sizes: Sequence[tuple[float, float]], unit: float
) -> list[float]:
    """By how much each of these nodes has to be made smaller to reach no other end of its own lines, and no other
    line."""
    lines = [(*(unit * it for it in row[:4]), *row[4:]) for row in chains.segments]
    far: dict[Any, list[Position]] = {}
    for p, q, r, s, _, start, end in lines:
        far.setdefault(start, []).append((r - p, s - q))
        far.setdefault(end, []).append((p - r, q - s))
    grid = SegmentGrid(lines)
    extents = [(min(p, r), min(q, s), max(p, r), max(q, s)) for p, q, r, s, *_ in lines]
    scales = []
    for node, (width, height) in zip(nodes, sizes):
        go_on()
        x, y = (unit * it for it in chains.places[node])
        right, up = width / 2 + GAP, height / 2 + GAP
        scale = min([1.0, *(_reach(way, way, right, up) for way in far.get(node, ()))])
        wide, high = scale * right, scale * up
        for place in grid.near(x - wide, y - high, x + wide, y + high):
            p, q, r, s = extents[place]
            if r < x - wide or p > x + wide or s < y - high or q > y + high:
                continue
            p, q, r, s, _, start, end = lines[place]
            if node not in (start, end):
                scale = min(scale, _reach((p - x, q - y), (r - x, s - y), right, up))
                wide, high = scale * right, scale * up
        scales.append(scale)
    return scales


def _reach(start: Position, end: Position, right: float, up: float) -> float:
    """How large a shape about the origin may be, beside one that reaches so far to the right and up, until a straight
    line meets it: a disk where both are equal, else a rectangle."""
    x, y = start[0] / right, start[1] / up
    if start is end:
        return hypot(x, y) if right == up else max(abs(x), abs(y))
    u, v = end[0] / right, end[1] / up
    across, rise = u - x, v - y
    if right == up:
        length = across * across + rise * rise
        along = max(0.0, min(1.0, -(x * across + y * rise) / length)) if length else 0.0
        return hypot(x + along * across, y + along * rise)
    least = min(max(abs(x), abs(y)), max(abs(u), abs(v)))
    for over, under in ((-x, across), (-y, rise), (y - x, across - rise), (-x - y, across + rise)):
        if under and 0 < (part := over / under) < 1:
            least = min(least, max(abs(x + part * across), abs(y + part * rise)))
    return least


# ---- Curves that are drawn nearer to their chords


def _curved(chains: Chains, scene: Scene, false: list[Defect]) -> tuple[Scene, list[Defect]]:
    """The scene with its straight lines made curves, of which those that meet what they must not reach less far; and
    what stays false. What is false with straight lines, which may be as the points are the caller's, is let be."""
    allowed = {(it.words, it.pieces) for it in false}
    passing = edge_ways(chains.result, chains.nodes, chains.places, len(scene.nodes) <= MANY)
    reaches: dict[Piece, float] = {}
    less_reach = LESS_REACH if len(scene.nodes) <= MANY else LESS_REACH_OF_MANY
    strokes = {it.edge_id: _curve(chains, it, passing, reaches) for it in scene.strokes}
    page = Page(replace(scene, strokes=tuple(strokes.values())))
    judge = Judge(chains.result, page)
    if not false and len(scene.nodes) > MANY:
        judge.yielding.update((edge_id, place) for edge_id, ways in passing.items() for place in range(len(ways) - 1))
    found, may_stay = judge.defects(), bool(false)
    while True:
        wrong = [it.pieces for it in found if (it.words, it.pieces) not in allowed]
        pieces = {piece for its in wrong for piece in its}
        less = {piece: less_reach[now] for piece in pieces if (now := reaches.get(piece, 1.0)) and piece[0] in passing}
        may_stay = may_stay or any(less.keys().isdisjoint(its) for its in wrong)
        if may_stay and not false:
            return scene, found
        if not less:
            scene = replace(scene, strokes=tuple(strokes.values()))
            return scene, defects(chains.result, Page(scene)) if may_stay else []
        reaches.update(less)
        judge.yielding.difference_update(piece for piece, reach in less.items() if not reach)
        changed = {edge_id: _curve(chains, strokes[edge_id], passing, reaches) for edge_id, _ in less}
        strokes.update(changed)
        found = judge.drawn_otherwise([page.line(stroke) for stroke in changed.values()], less)


def _curve(
    chains: Chains, stroke: Stroke, passing: Mapping[int, Sequence[Position]], reaches: Mapping[Piece, float]
) -> Stroke:
    """A stroke as a curve, each of whose pieces reaches as far as it may; one that is as good as straight stays."""
    if stroke.edge_id not in passing:
        return stroke
    chain = chains.nodes[stroke.edge_id]
    parts = [reaches.get((stroke.edge_id, place), 1.0) for place in range(len(chain) - 1)]
    points = smooth([chains.places[node] for node in chain], passing[stroke.edge_id], parts)
    return replace(stroke, points=points, curved=True)
