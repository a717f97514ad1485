"""Plane graphs whose faces are filled with further nodes, so that all of them are triangles, with a ring of nodes round
the graph."""

from __future__ import annotations

from collections.abc import Mapping, Sequence
from dataclasses import dataclass, field
from typing import Any

#: What a link that fills a face weighs beside an edge.
FILL = 0.5
#: The least and the greatest number of nodes of the ring.
RING = 12
GREATEST_RING = 1000


@dataclass
class FilledGraph:
    """A plane graph with its faces filled: the links of each node with their weights, the triangles counterclockwise,
    the nodes of the ring clockwise, and each crossing with its four neighbours, clockwise."""

    links: list[list[tuple[int, float]]]
    triangles: list[tuple[int, int, int]] = field(default_factory=list)
    crossed: list[tuple[int, tuple[int, int, int, int]]] = field(default_factory=list)
    ring: list[int] = field(default_factory=list)

    def add(self) -> int:
        """A new node without links."""
        self.links.append([])
        return len(self.links) - 1

    def link(self, first: int, second: int, weight: float) -> None:
        """A link between two nodes."""
        self.links[first].append((second, weight))
        self.links[second].append((first, weight))

    def around(self) -> list[list[int]]:
        """The neighbours of each node, counterclockwise; those of a node of the ring from the one before it on the ring
        to the one behind it."""
        following: list[dict[int, int]] = [{} for _ in self.links]
        for first, second, third in self.triangles:
            following[first][second] = third
            following[second][third] = first
            following[third][first] = second
        found = []
        for after in following:
            start = next(iter(set(after) - set(after.values())), next(iter(after)))
            order = [start]
            while (other := after.get(order[-1])) is not None and other != start:
                order.append(other)
            found.append(order)
        return found


def fill(
    rotations: Mapping[Any, Sequence[Any]], crossings: frozenset[Any], outer: tuple[Any, Any]
) -> FilledGraph:
    """A connected plane graph without parallel edges with its faces filled, and with the ring in the face on the left
    of the dart `outer`. It is given by the neighbours of each node, clockwise, and its nodes are numbered in their
    order there."""
    nodes = list(rotations)
    number = {node: place for place, node in enumerate(nodes)}
    around = [[number[other] for other in others] for others in rotations.values()]
    filled = FilledGraph([[] for _ in around])
    for node, others in enumerate(around):
        for other in others:
            if node < other:
                filled.link(node, other, 1.0)
    for node, four in enumerate(around):
        if nodes[node] in crossings:
            first, second, third, fourth = four
            filled.crossed.append((node, (first, second, third, fourth)))
    outside = (number[outer[0]], number[outer[1]])
    for face in _faces(around):
        if outside in zip(face, face[1:] + face[:1]):
            _add_ring(filled, face)
        elif len(face) > 3:
            _add_middle(filled, face if len(set(face)) == len(face) else _add_hoop(filled, face))
        else:
            filled.triangles.append((face[0], face[1], face[2]))
    return filled


def _faces(around: list[list[int]]) -> list[list[int]]:
    """The nodes along each face, which lies on the left."""
    following = {
        (other, node): (node, others[(place + 1) % len(others)])
        for node, others in enumerate(around)
        for place, other in enumerate(others)
    }
    faces: list[list[int]] = []
    seen: set[tuple[int, int]] = set()
    for first in following:
        dart = first
        if dart in seen:
            continue
        faces.append([])
        while dart not in seen:
            seen.add(dart)
            faces[-1].append(dart[0])
            dart = following[dart]
    return faces


def _add_middle(filled: FilledGraph, face: list[int]) -> None:
    """A node within a face, linked with each node round it."""
    middle = filled.add()
    for node, other in zip(face, face[1:] + face[:1]):
        filled.link(node, middle, FILL)
        filled.triangles.append((node, other, middle))


def _add_hoop(filled: FilledGraph, face: list[int]) -> list[int]:
    """A hoop of nodes within a face, one or more for each of its corners, so that no two links of a node lead to the
    same one, also where the face passes a node more than once; the nodes of the hoop."""
    share = 1 if len(face) > 2 else 2
    hoop = [[filled.add() for _ in range(share)] for _ in face]
    for place, node in enumerate(face):
        own, (first, *_) = hoop[place], hoop[(place + 1) % len(face)]
        other = face[(place + 1) % len(face)]
        for one, next_one in zip(own, [*own[1:], first]):
            filled.link(node, one, FILL)
            filled.link(one, next_one, FILL)
            filled.triangles.append((node, next_one, one))
        filled.link(node, first, FILL)
        filled.triangles.append((node, other, first))
    return [one for own in hoop for one in own]


def _add_ring(filled: FilledGraph, face: list[int]) -> None:
    """The ring round the graph, and triangles between it and the face outside."""
    if len(face) < 3 or len(set(face)) < len(face):
        face = _add_hoop(filled, face)
    filled.ring = [filled.add() for _ in range(max(RING, min(GREATEST_RING, len(face))))]
    for node, other in zip(filled.ring, filled.ring[1:] + filled.ring[:1]):
        filled.link(node, other, FILL)
    inner, outer = 0, 0
    while inner < len(face) or outer < len(filled.ring):
        node, mark = face[inner % len(face)], filled.ring[outer % len(filled.ring)]
        filled.link(node, mark, FILL)
        if (inner + 1) * len(filled.ring) <= (outer + 1) * len(face):
            inner += 1
            filled.triangles.append((node, face[inner % len(face)], mark))
        else:
            outer += 1
            filled.triangles.append((filled.ring[outer % len(filled.ring)], mark, node))
