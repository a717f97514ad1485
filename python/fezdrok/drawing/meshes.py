"""Plane graphs whose links run east, north, west and south: shapes expanded, and their faces cut into rectangles.

A point of a picture becomes one node, a box the nodes round its sides, and each bend a node. Then every face is cut
into rectangles, as in Tamassia's paper (see `bends`), after which lengths can be given to the links one axis at a time.
"""

from __future__ import annotations

from collections.abc import Container, Iterator
from dataclasses import dataclass, field
from typing import NamedTuple

from ..engine.pictures import Dart, Point
from .bends import Shape


@dataclass
class Mesh:
    """`links[n]` has for each direction in which a link leaves node n the node at its other end."""

    links: list[dict[int, int]] = field(default_factory=list)

    def copy(self) -> "Mesh":
        """The same mesh, to be changed without this one."""
        return Mesh([dict(around) for around in self.links])

    def add(self) -> int:
        """A new node without links."""
        self.links.append({})
        return len(self.links) - 1

    def join(self, start: int, end: int, heading: int) -> None:
        """A link that leaves `start` in this direction."""
        back = (heading + 2) % 4
        if heading in self.links[start] or back in self.links[end]:
            raise AssertionError("two links leave a node in one direction")
        self.links[start][heading] = end
        self.links[end][back] = start

    def split(self, start: int, heading: int) -> int:
        """A new node on the link that leaves `start` in this direction."""
        end, middle = self.links[start].pop(heading), self.add()
        del self.links[end][(heading + 2) % 4]
        self.join(start, middle, heading)
        self.join(middle, end, heading)
        return middle

    def walk(self, start: int, heading: int) -> Iterator[tuple[int, int, int]]:
        """The face on the left of a link, once round: for each link its end, its direction, and the turn there: 1 for
        left, 0, -1 for right, -2 for back."""
        node, first = start, (start, heading)
        while True:
            node = self.links[node][heading]
            turn = next(turn for turn in (1, 0, -1, -2) if (heading + turn) % 4 in self.links[node])
            yield node, heading, turn
            heading = (heading + turn) % 4
            if (node, heading) == first:
                return


@dataclass(frozen=True)
class Expansion:
    """A shape as a mesh: `port[d]` is the node where dart d leaves its start, `chains[e]` has the nodes along edge e
    from its end `a` to its end `b`, and `corners[p]` the corners of the box of point p: north-west, south-west,
    south-east, north-east. `sides` are the links round boxes, either way round."""

    mesh: Mesh
    port: dict[Dart, int]
    chains: dict[int, tuple[int, ...]]
    corners: dict[Point, tuple[int, ...]]
    sides: set[tuple[int, int]]


# ---- From a shape to a mesh


def expand(shape: Shape, wide: Container[Point] = ()) -> Expansion:
    """The mesh of a shape. Points of `wide` are boxes too, also where they have few edges."""
    picture, mesh = shape.picture, Mesh()
    port: dict[Dart, int] = {}
    corners: dict[Point, tuple[int, ...]] = {}
    for point in picture.points:
        if shape.is_box(point) or point in wide:
            corners[point] = _add_box(shape, mesh, point, port)
        else:
            port.update(dict.fromkeys(picture.around(point), mesh.add()))
    sides = {(start, end) for start, around in enumerate(mesh.links) for end in around.values()}
    chains = {
        row.id: _add_edge(shape, mesh, [Dart(row.id, segment) for segment in range(row.segments)], port)
        for row in picture.edges
    }
    return Expansion(mesh, port, chains, corners, sides)


def _add_box(shape: Shape, mesh: Mesh, point: Point, port: dict[Dart, int]) -> tuple[int, ...]:
    """The sides of a box, clockwise, with a node for each dart and each corner; the corners as in an Expansion."""
    around: list[tuple[int, int]] = []
    corners = [-1] * 4
    for dart in shape.picture.around(point):
        heading = shape.headings[dart] + shape.angles[dart] - 1
        for _ in range(shape.angles[dart]):
            heading -= 1
            corners[heading % 4] = mesh.add()
            around.append((corners[heading % 4], heading % 4))
        port[dart] = mesh.add()
        around.append((port[dart], heading % 4))
    for (node, heading), (following, _) in zip(around, around[1:] + around[:1]):
        mesh.join(node, following, heading)
    return tuple(corners)


def _add_edge(shape: Shape, mesh: Mesh, darts: list[Dart], port: dict[Dart, int]) -> tuple[int, ...]:
    """The links of an edge; the nodes along it."""
    chain = [port[darts[0]]]
    for dart in darts:
        heading = shape.headings[dart]
        for turn in shape.turns(dart):
            chain.append(mesh.add())
            mesh.join(chain[-2], chain[-1], heading)
            heading = (heading + turn) % 4
        chain.append(port[dart.twin])
        mesh.join(chain[-2], chain[-1], heading)
    return tuple(chain)


# ---- Faces cut into rectangles


class _Corner(NamedTuple):
    """A corner of a face: it is reached in one direction and left in another. Turn 1 is a left turn, -1 a right one;
    a turn back is two right ones."""

    node: int
    into: int
    out: int
    turn: int


def rectangles(mesh: Mesh) -> Mesh:
    """The mesh with further nodes and links, so that each of its faces is a rectangle; a frame lies round it.

    Where a face turns right and then left twice, the link before the right turn is led on until it meets the link
    behind both left turns. That takes a right and a left turn away, so at last only four left turns are there. The
    face outside is first joined with the frame, and then is as the others.
    """
    cut = mesh.copy()
    for corners in _faces(mesh):
        reduced = _reduce(cut, corners)
        if sum(corner.turn for corner in corners) < 0:
            _reduce(cut, _framed(cut, reduced))
    return cut


def _faces(mesh: Mesh) -> list[list[_Corner]]:
    """The corners of each face."""
    faces: list[list[_Corner]] = []
    seen: set[tuple[int, int]] = set()
    for start, around in enumerate(mesh.links):
        for heading in around:
            if (start, heading) in seen:
                continue
            faces.append([])
            for node, into, turn in mesh.walk(start, heading):
                seen.add((node, (into + turn) % 4))
                if turn == -2:
                    faces[-1].append(_Corner(node, into, (into - 1) % 4, -1))
                    faces[-1].append(_Corner(node, (into - 1) % 4, (into - 2) % 4, -1))
                elif turn:
                    faces[-1].append(_Corner(node, into, (into + turn) % 4, turn))
    return faces


def _reduce(mesh: Mesh, corners: list[_Corner]) -> list[_Corner]:
    """Cut off from a face all that a right turn and two left turns enclose; the corners that are left.

    After one pass no such three are left but over the end of the list, and the second pass begins with a right turn.
    """
    for _ in range(2):
        left: list[_Corner] = []
        for corner in corners:
            left.append(corner)
            while [it.turn for it in left[-3:]] == [-1, 1, 1]:
                right, _, last = left[-3:]
                spot = mesh.split(last.node, last.out)
                mesh.join(right.node, spot, right.into)
                left[-3:] = [_Corner(spot, right.into, last.out, 1)]
        place = next((place for place, it in enumerate(left) if it.turn < 0), 0)
        corners = left[place:] + left[:place]
    return corners


def _framed(mesh: Mesh, corners: list[_Corner]) -> list[_Corner]:
    """A frame round the face outside, with a link from its first right turn; the corners of the face between."""
    frame = [mesh.add() for _ in range(4)]
    for side in range(4):
        mesh.join(frame[side], frame[(side + 1) % 4], (side + 1) % 4)
    first = corners[0]
    into = first.into
    spot = mesh.split(frame[into], (into + 1) % 4)
    mesh.join(first.node, spot, into)
    turned = [into, *((into + step) % 4 for step in range(1, 6))]
    between = [_Corner(spot, into, turned[1], 1)]
    between += [_Corner(frame[turned[step]], turned[step], turned[step + 1], 1) for step in (1, 2, 3, 4)]
    between += [_Corner(spot, turned[5], turned[2], 1), _Corner(first.node, turned[2], first.out, 1)]
    return between + corners[1:]
