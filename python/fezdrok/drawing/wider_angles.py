"""Small angles of straight drawings made wider: points are moved one by one, and no line comes to be crossed.

The energy of a point counts small angles at it and at its neighbours, how far edges turn there, and what lies too near.
A point goes a step in the first of some directions in which its energy gets less; where none is, its step gets shorter
(Hooke and Jeeves, Direct Search Solution of Numerical and Statistical Problems, 1961).
"""

from __future__ import annotations

from cmath import phase, rect
from collections.abc import Collection, Container, Iterable, Mapping, Sequence
from math import inf, pi, radians, sqrt
from typing import Any, NamedTuple

from .giving_way import go_on
from .relaxation import FAR, turn_along
from .scenes import Position

#: Below how many radians an angle counts, by the square of what it lacks, at a node and at a crossing, and how much
#: more; how much the square of a turn does beside that; and how much it does where a point lies on a line.
AT_NODE = (radians(12), 1.0)
AT_CROSSING = (radians(30), 0.3)
TURN = 0.004
CROWDED = 0.05
#: Below which distance a point and a line are near, for one point; for n points it is less by the root of n.
ROOM = 0.4
#: In how many directions a point is tried. Its step at first and at least, where the disk has the radius 1, and by what
#: it gets longer and shorter.
DIRECTIONS = 8
FIRST = 0.1
LAST = 0.002
LONGER = 1.3
SHORTER = 0.5
#: By how much the energy has to get less, and how many lines may be looked at in all moves, each in all directions.
LITTLE = 1e-9
LOOKS = 40_000


class Effort(NamedTuple):
    """What is done to widen angles: which nodes are moved, where not all are; their step at first; how many lines may
    be looked at in all moves; and how much the square of a turn counts."""

    nodes: Collection[Any] | None = None
    first: float = FIRST
    looks: int = LOOKS
    turn: float = TURN


def widened(
    rotations: Mapping[Any, Sequence[Any]],
    crossings: Container[Any],
    chains: Iterable[Sequence[Any]],
    places: Mapping[Any, Position],
    effort: Effort = Effort(),
) -> dict[Any, Position]:
    """Other places in the unit disk for nodes of a connected plane graph, drawn with straight lines that do not cross,
    so that fewer angles are small. `rotations` has the neighbours of each node, clockwise; at those of
    `crossings`, which have four, two edges pass each other. `chains` are the nodes along each edge; one that turns by
    more than FAR turns no farther than it did."""
    number = {node: place for place, node in enumerate(places)}
    moved = places if effort.nodes is None else dict.fromkeys(effort.nodes)
    drawing = _Points(
        [complex(*place) for place in places.values()],
        _Around(rotations, list(places), number),
        [node in crossings for node in places],
        [[number[node] for node in chain] for chain in chains if not moved.keys().isdisjoint(chain)],
        effort.turn,
    )
    drawing.settle([number[node] for node in moved], effort)
    points = [drawing.points[number[node]] for node in moved]
    return {node: (point.real, point.imag) for node, point in zip(moved, points)}


class _Around(dict[int, list[int]]):
    """The numbers of the neighbours of each node by its number, which are found when they are asked for."""

    def __init__(self, rotations: Mapping[Any, Sequence[Any]], nodes: Sequence[Any], number: Mapping[Any, int]):
        super().__init__()
        self._rotations, self._nodes, self._number = rotations, nodes, number

    def __missing__(self, place: int) -> list[int]:
        found = self[place] = [self._number[other] for other in self._rotations[self._nodes[place]]]
        return found


class _Points:
    """The points, and what is round each of them: its neighbours, clockwise; `faces`, the other nodes of each face from
    a neighbour to the next; `walls`, the lines of these faces that do not end at it; and `passing`, the edges that turn
    otherwise where it is moved. `most` is how far each edge may turn, and `turn` what the square of a turn counts."""

    def __init__(
        self,
        points: list[complex],
        around: Mapping[int, Sequence[int]],
        is_crossing: Sequence[bool],
        chains: Sequence[Sequence[int]],
        turn: float,
    ):
        self.points, self.around, self.is_crossing, self.chains = points, around, is_crossing, chains
        self.turn = turn
        self.faces: dict[int, list[list[int]]] = {}
        self.walls: dict[int, list[tuple[int, int]]] = {}
        self.passing: list[list[int]] = [[] for _ in points]
        for number, chain in enumerate(chains):
            for node in chain if len(chain) > 2 else ():
                self.passing[node].append(number)
        self.most: dict[int, float] = {}
        self.room = ROOM / sqrt(len(points))

    def _look_round(self, node: int) -> None:
        """Find the faces round a point, their lines, and how far its edges may turn."""
        go_on()
        self.faces[node] = faces = [self._face(node, first) for first in self.around[node]]
        self.walls[node] = [pair for face in faces for pair in zip(face, face[1:])]
        self.most.update((it, max(FAR, self._turn(it))) for it in self.passing[node])

    def _face(self, node: int, first: int) -> list[int]:
        found, before, other = [], node, first
        while other != node:
            found.append(other)
            others = self.around[other]
            before, other = other, others[(others.index(before) + 1) % len(others)]
        return found

    def _turn(self, number: int) -> float:
        return turn_along([self.points[node] for node in self.chains[number]])

    def settle(self, moved: Sequence[int], effort: Effort) -> None:
        """Move these points until no step is long enough, or enough was looked at."""
        for node in moved:
            self._look_round(node)
        steps, looks, are_left = dict.fromkeys(moved, effort.first), effort.looks, True
        while are_left:
            are_left = False
            for node, step in steps.items():
                go_on()
                if step < LAST or looks < 0 or not any(map(self.strain, (node, *self.around[node]))):
                    continue
                looks -= 1 + len(self.walls[node])
                steps[node] *= LONGER if self.move(node, step) else SHORTER
                are_left = True

    def move(self, node: int, step: float) -> bool:
        """Move a point by a step, if that makes its energy less; whether it did."""
        here, before = self.points[node], self.energy(node) - LITTLE
        for number in range(DIRECTIONS):
            place = self.points[node] = here + rect(step, 2 * pi * number / DIRECTIONS)
            if abs(place) <= 1 and self.energy(node, before) < before and self.is_free(node):
                if all(self._turn(it) <= self.most[it] for it in self.passing[node]):
                    return True
        self.points[node] = here
        return False

    def energy(self, node: int, most: float = inf) -> float:
        """The energy that changes where a point is moved; if that is not less than `most`, anything that is not."""
        energy = self.crowding(node)
        for it in (node, *self.around[node]):
            if energy < most:
                energy += self.strain(it)
        return energy

    def strain(self, node: int) -> float:
        """What small angles at a point count, and turns there; infinity where its lines are not in their order."""
        here, energy, whole = self.points[node], 0.0, 0.0
        ways = [self.points[other] - here for other in self.around[node]]
        wide, weight = AT_CROSSING if self.is_crossing[node] else AT_NODE
        for one, two in zip(ways, ways[1:] + ways[:1]) if len(ways) > 1 else ():
            angle = phase(one * two.conjugate()) % (2 * pi)
            whole += angle
            if angle < wide:
                energy += weight * (wide - angle) ** 2
        if self.is_crossing[node]:
            for one, two in zip(ways, ways[2:]):
                energy += self.turn * phase(-two * one.conjugate()) ** 2
        return energy if whole < 3 * pi else inf

    def crowding(self, node: int) -> float:
        """What it counts that a point is near to the lines of the faces round it, and their points to its own lines."""
        here, room, energy = self.points[node], self.room, 0.0
        for face in self.faces[node]:
            its = [self.points[other] for other in face]
            energy += sum(_nearness(here, one, two, room) for one, two in zip(its, its[1:]))
            energy += sum(_nearness(point, here, its[0], room) for point in its[1:])
            energy += sum(_nearness(point, here, its[-1], room) for point in its[:-1])
        return CROWDED * energy

    def is_free(self, node: int) -> bool:
        """Whether the lines of a point meet no line of the faces round it."""
        here, points = self.points[node], self.points
        for other in self.around[node]:
            there = points[other]
            for one, two in self.walls[node]:
                if other != one and other != two and _meet(here, there, points[one], points[two]):
                    return False
        return True


def _nearness(point: complex, start: complex, end: complex, room: float) -> float:
    """How near a point is to a straight line: from 0, where there is so much room between them, to 1."""
    line, way = end - start, point - start
    length = line.real * line.real + line.imag * line.imag
    part = (way.real * line.real + way.imag * line.imag) / length if length else 0.0
    if part > 0.0:
        way -= min(1.0, part) * line
    far = abs(way)
    return (1 - far / room) ** 2 if far < room else 0.0


def _meet(p: complex, q: complex, r: complex, s: complex) -> bool:
    """Whether two straight lines have a point in common, from p to q and from r to s."""
    one, other = (q - p).conjugate(), (s - r).conjugate()
    return (one * (r - p)).imag * (one * (s - p)).imag <= 0 and (other * (p - r)).imag * (other * (q - r)).imag <= 0
