"""The lines of a drawing for a planarization that has changed a little: what is in both stays where it is.

Edges that are new are put in one after another, each through the faces that its picture names (see `step_lines`).
"""

from __future__ import annotations

from collections.abc import Container, Hashable, Iterable, Mapping
from dataclasses import replace
from math import hypot
from typing import Any

from ..engine.graph_edges import GraphEdge
from ..engine.graph_pictures import Dummy
from ..engine.pictures import Crossing, Dart, Edge, Picture, Point
from ..engine.results import Planarization
from .face_routes import Position
from .scenes import Scene
from .step_lines import Line, StepLines, put_edge
from .straight_scenes import Chains
from .wider_angles import Effort, widened

#: Along an edge of a picture the edges that cross it, each with whether it passes from the left to the right.
Passed = list[tuple[GraphEdge, bool]]


def near_chains(result: Planarization, before: Planarization, scene: Scene) -> Chains | None:
    """The chains of a planarization in which all that it has in common with another lies as in a scene of that one;
    None where this does not hang together, or lies otherwise in both pictures."""
    if result.parts or before.parts or not result.picture.edges:
        return None
    kept, same = _common(result, before)
    is_whole = len(kept) in (len(result.edge_of), len(before.edge_of))  # and each of both hangs together
    if not kept or not is_whole and not hangs_together(restricted(result.picture, kept)):
        return None
    drawn = _kept_lines(result, before, scene, kept, same)
    left = [row.id for row in result.picture.edges if row.id not in kept]
    placed = {end for edge_id in kept for end in _ends(result.picture.edge(edge_id))}
    while left:
        edge_id = next((it for it in left if placed.intersection(_ends(result.picture.edge(it)))), None)
        if edge_id is None:
            return None
        left.remove(edge_id)
        picture = restricted(result.picture, {*drawn.lines, edge_id})
        _put(drawn, picture, picture.edge(edge_id), placed)
        placed.update(_ends(picture.edge(edge_id)))
    return _chains(result, drawn, same)


def _ends(row: Edge) -> tuple[int, int]:
    return row.a, row.b


def _put(drawn: StepLines, picture: Picture, row: Edge, placed: Container[int]) -> None:
    """Puts an edge in, from an end that has its place."""
    if row.a in placed:
        put_edge(drawn, picture, row)
        return
    other = turned(picture, row.id)
    put_edge(drawn, other, other.edge(row.id))
    line = drawn.lines[row.id]
    drawn.lines[row.id] = Line(line.points[::-1], line.crossings[::-1])


def _chains(result: Planarization, drawn: StepLines, same: Container[int]) -> Chains:
    """The lines as chains of names, with a place for each."""
    places: dict[Any, Position] = dict(zip(result.node_of, drawn.vertices))
    nodes: dict[int, list[Any]] = {}
    for edge_id, line in drawn.lines.items():
        row = result.picture.edge(edge_id)
        inner: list[Hashable] = [
            Dummy("bend", Dart(edge_id, place), result.layer) if it is None else result.name_of(Point(True, it))
            for place, it in enumerate(line.crossings[1:-1])
        ]
        places.update(zip(inner, line.points[1:-1]))
        nodes[edge_id] = [result.node_of[row.a], *inner, result.node_of[row.b]]
    return Chains(result, {row.id: nodes[row.id] for row in result.picture.edges}, places, same)


# ---- Points that are moved


def settled(chains: Chains, effort: Effort) -> Chains:
    """The chains of a true drawing with points moved so that fewer angles are small. The first step of the effort is
    beside the radius of the drawing."""
    xs, ys = zip(*chains.places.values())
    left, bottom, right, top = min(xs), min(ys), max(xs), max(ys)
    x, y, radius = (left + right) / 2, (bottom + top) / 2, hypot(right - left, top - bottom) / 2
    crossings = {chains.result.name_of(Point(True, row.id)) for row in chains.result.picture.crossings}
    unit = {node: ((u - x) / radius, (v - y) / radius) for node, (u, v) in chains.places.items()}
    found = widened(_Around(chains), crossings, chains.nodes.values(), unit, effort)
    moved = {node: (x + radius * u, y + radius * v) for node, (u, v) in found.items() if (u, v) != unit[node]}
    return replace(chains, places={**chains.places, **moved})


class _Around(dict[Any, list[Any]]):
    """The neighbours of each node of the chains, clockwise, which are found when they are asked for."""

    def __init__(self, chains: Chains):
        super().__init__()
        self._chains = chains

    def __missing__(self, name: Any) -> list[Any]:
        result, chains = self._chains.result, self._chains.nodes
        vertex = result.vertex_of.get(name)
        if vertex is None and name.kind == "bend":
            nodes = chains[name.of.edge]
            place = nodes.index(name)
            found = [nodes[place - 1], nodes[place + 1]]
        else:
            found = []
            for dart in result.picture.around(Point(True, name.of) if vertex is None else Point(False, vertex)):
                nodes = chains[dart.edge]
                found.append(nodes[nodes.index(name) + (-1 if dart.back else 1)])
        self[name] = found
        return found


# ---- Parts of pictures


def restricted(picture: Picture, kept: Container[int]) -> Picture:
    """The picture without the edges that are not kept; all ids stay."""
    if all(row.id in kept for row in picture.edges):
        return picture
    left = _left(picture, kept)
    crossings = tuple(row for row in picture.crossings if row.id in left)
    edges = tuple(
        Edge(row.id, row.a, row.b, row.kind, tuple(it for it in row.crossings if it in left))
        for row in picture.edges
        if row.id in kept
    )
    rotations = tuple(tuple(it for it in around if it in kept) for around in picture.rotations)
    return Picture(rotations, edges, crossings, picture.next_edge, picture.next_crossing)


def turned(picture: Picture, edge_id: int) -> Picture:
    """The picture with an edge the other way round."""
    edges = tuple(
        Edge(row.id, row.b, row.a, row.kind, row.crossings[::-1]) if row.id == edge_id else row
        for row in picture.edges
    )
    other = {"ltr": "rtl", "rtl": "ltr"}
    crossings = tuple(
        Crossing(row.id, row.crossed, row.newcomer, other[row.sign]) if edge_id in (row.crossed, row.newcomer) else row
        for row in picture.crossings
    )
    return Picture(picture.rotations, edges, crossings, picture.next_edge, picture.next_crossing)


def hangs_together(picture: Picture) -> bool:
    """Whether all edges of a picture hang together, by vertices and crossings."""
    beside: dict[Point, list[int]] = {}
    paths = {row.id: picture.path(row.id) for row in picture.edges}
    for edge_id, path in paths.items():
        for point in path:
            beside.setdefault(point, []).append(edge_id)
    waiting = [next(iter(paths))]
    seen = set(waiting)
    for edge_id in waiting:
        fresh = {other for point in paths[edge_id] for other in beside.pop(point, ())} - seen
        seen |= fresh
        waiting.extend(fresh)
    return len(seen) == len(paths)


# ---- What two planarizations have in common


def _common(result: Planarization, before: Planarization) -> tuple[dict[int, int], Container[int]]:
    """The ids of edges that lie alike in both pictures, with those that they had before; and those of them that are the
    same in both. Where some do not lie alike, the one that differs most is left out, again and again; empty where the
    edges leave a node in another order."""
    kept = {}
    for row in result.picture.edges:
        old = before.id_of.get(result.edge_of[row.id])
        if old is not None and _named_ends(result, row) == _named_ends(before, before.picture.edge(old)):
            kept[row.id] = old
    same = {it for it in kept if _is_same(result, before, kept, it)}
    left = [it for it in kept if it not in same]
    while True:
        now, then = _passed(result, left, kept), _passed(before, [kept[it] for it in left], set(kept.values()))
        differing = {it: len(set(now[it]) ^ set(then[kept[it]])) + 1 for it in left if now[it] != then[kept[it]]}
        if not differing:
            return (kept, same) if _are_alike(result, before, kept) else ({}, ())
        worst = max(differing, key=differing.__getitem__)
        del kept[worst]
        left.remove(worst)


def _named_ends(result: Planarization, row: Edge) -> tuple[Any, Any]:
    return result.node_of[row.a], result.node_of[row.b]


def _is_same(result: Planarization, before: Planarization, kept: Mapping[int, int], edge_id: int) -> bool:
    """Whether an edge has the same row in both pictures, and so have its crossings, with edges that have kept their
    ids."""
    row = result.picture.edge(edge_id)
    if kept[edge_id] != edge_id or row != before.picture.edge(edge_id):
        return False
    for crossing in row.crossings:
        now = result.picture.crossing(crossing)
        if now != before.picture.crossing(crossing) or any(kept.get(it) != it for it in (now.crossed, now.newcomer)):
            return False
    return True


def _passed(result: Planarization, edge_ids: Iterable[int], kept: Container[int]) -> dict[int, Passed]:
    """What crosses each of these edges, along it, of the edges that are kept."""
    found: dict[int, Passed] = {}
    for edge_id in edge_ids:
        its = found.setdefault(edge_id, [])
        for row in map(result.picture.crossing, result.picture.edge(edge_id).crossings):
            is_crossed = row.crossed == edge_id
            other = row.newcomer if is_crossed else row.crossed
            if other in kept:
                its.append((result.edge_of[other], row.sign == ("ltr" if is_crossed else "rtl")))
    return found


def _are_alike(result: Planarization, before: Planarization, kept: Mapping[int, int]) -> bool:
    """Whether the edges that are kept leave each node in the same order."""
    olds, are_ids_kept = set(kept.values()), all(new == old for new, old in kept.items())
    for node, vertex in result.vertex_of.items():
        around, old = result.picture.rotations[vertex], before.vertex_of.get(node)
        if are_ids_kept and old is not None and around == before.picture.rotations[old]:
            continue
        now = [kept[it] for it in around if it in kept]
        if now:
            then = [it for it in before.picture.rotations[before.vertex_of[node]] if it in olds]
            place = then.index(now[0])
            if then[place:] + then[:place] != now:
                return False
    return True


def _kept_lines(
    result: Planarization, before: Planarization, scene: Scene, kept: Mapping[int, int], same: Container[int]
) -> StepLines:
    """The lines of the edges that are kept, as in the scene, with the crossings that are left."""
    place_of = {shape.node: shape.middle for shape in scene.nodes}
    drawn = StepLines([place_of.get(node, (0.0, 0.0)) for node in result.node_of])
    stroke_of = {stroke.edge_id: stroke for stroke in scene.strokes}
    left, left_before = _left(result.picture, kept), _left(before.picture, set(kept.values()))
    for edge_id, old in kept.items():
        stroke = stroke_of[old]
        ids = [mark.id if mark is not None and mark.is_crossing else None for mark in stroke.marks]
        if edge_id not in same:
            crossings = [it for it in result.picture.edge(edge_id).crossings if it in left]
            id_of: dict[int | None, int] = dict(zip([it for it in ids if it in left_before], crossings, strict=True))
            ids = [id_of.get(it) for it in ids]
        drawn.lines[edge_id] = Line([*stroke.points[:: 3 if stroke.curved else 1]], ids)
    return drawn


def _left(picture: Picture, kept: Container[int]) -> set[int]:
    """The crossings that are left of a picture with the edges that are kept."""
    return {row.id for row in picture.crossings if row.crossed in kept and row.newcomer in kept}
