"""Points for straight drawings: a plane graph spread over a disk, with faces of like size, and edges that pass their
crossings as straight as they can.

The faces are filled with further nodes, so that all of them are triangles, and a ring of nodes round the graph is fixed
on a circle (see `filled_graphs`). The nodes come to their places from few to many (see `contraction`); at each step
they are moved one by one so that an energy gets less, as meshes are smoothed (Freitag and Plassmann, Local
Optimization-Based Simplicial Mesh Untangling and Improvement, 2000): links pull their ends together, triangles push the
more the smaller and the thinner they are. With all nodes there, the two halves of an edge at a crossing pull each other
into one line, and two edges that cross into a right angle, which is easier to read (Huang, Eades and Hong, Larger
Crossing Angles Make Graphs Easier to Read, 2014). A node goes only where each triangle round it still goes
counterclockwise, so no step makes a crossing.
"""

from __future__ import annotations

from cmath import phase
from collections.abc import Container, Iterable, Mapping, Sequence
from math import cos, pi, sin
from typing import Any, NamedTuple

from .contraction import Triangulation, middle_of_sight
from .filled_graphs import FilledGraph, fill

Position = tuple[float, float]

#: The greatest number of nodes that are few.
#: How often all nodes are moved at most whenever so many times more came; when there are many it is less often.
#: How often, at most and at least, they are moved when all are there; how often each is put at the mean of its
#: neighbours before that, where they are few; how many moves there may be, half as many where they are not few; and the
#: way of a node below which it is enough.
FEW = 1000
ROUND_SWEEPS = 6
GROWTH = 1.1
SWEEPS = 250
LEAST_SWEEPS = 5
MEANS = 60
MOVES = 60_000
STILL = 1e-3
#: How much triangles push, those at the ring beside others, and how much more where they are thin; how much the halves
#: of an edge pull each other into one line, how much more with each further crossing of the edge, and how much the two
#: edges of a crossing pull into a right angle.
PUSH = 20.0
PUSH_AT_RING = 0.5
SHAPE = 0.4
STRAIGHTEN = 0.5
MORE = 1.0
SQUARE = 0.7
#: From which turn on, in radians, an edge is pulled more into one line, with what power of its turn, and how often at
#: most that is done again.
FAR = 0.8 * pi
POWER = 8.0
AGAIN = 5
#: Twice the area that a triangle has at least; less cannot be told from nothing.
LEAST_AREA = 1e-14


class _Line(NamedTuple):
    """An edge that passes crossings: the nodes along it, and its crossings with 0 or 1."""

    nodes: list[int]
    passed: list[tuple[int, int]]


def spread(
    rotations: Mapping[Any, Sequence[Any]],
    crossings: frozenset[Any],
    outer: tuple[Any, Any],
    sweeps: int = SWEEPS,
) -> dict[Any, Position] | None:
    """A point in the unit disk for each node of a connected plane graph without parallel edges, which is given by the
    neighbours of each node, clockwise; at least one edge is wanted. Straight lines between neighbours do not cross.

    At the nodes of `crossings`, which have four neighbours, two edges pass each other; they do it as straight as they
    can. The face on the left of the dart `outer`, a node and a neighbour, lies outside. Points are moved at most so
    many `sweeps` when all are there. None where the points have come too near to each other to be told apart.
    """
    filled = fill(rotations, crossings, outer)
    points = _from_few_to_many(filled)
    if points is None:
        return None
    if len(points) <= FEW:
        points = _at_means(filled, points)
    _settle(filled, points, sweeps)
    return {node: points[place] for place, node in enumerate(rotations)}


def _from_few_to_many(filled: FilledGraph) -> list[Position] | None:
    """Places for all nodes, the ring on the unit circle, clockwise."""
    points = [(0.0, 0.0)] * len(filled.links)
    for number, node in enumerate(filled.ring):
        angle = pi / 2 - 2 * pi * number / len(filled.ring)
        points[node] = (cos(angle), sin(angle))
    mesh = Triangulation(filled.around(), filled.ring)
    rounds = mesh.contracted()
    there: list[int] = []
    moved = 0
    for steps in reversed(rounds or ()):
        for step in reversed(steps):
            place = middle_of_sight([points[it] for it in (step.into, *step.others)])
            mesh.expand(step)
            if place is None:
                return None
            points[step.node] = place
            there.append(step.node)
        if len(there) >= GROWTH * moved:
            moved = len(there)
            _move_few(mesh, there, points, max(1, min(ROUND_SWEEPS, 2 * FEW // moved)))
    return points if rounds is not None and _is_plane(filled, points) else None


def _at_means(filled: FilledGraph, points: list[Position]) -> list[Position]:
    """The points with each node, but those of the ring, near the mean of its neighbours: at rest such a drawing is
    plane and as symmetric as the graph (Tutte, How to Draw a Graph, 1963). As they were, where not all of that can be
    told apart."""
    found, ring = list(points), set(filled.ring)
    for _ in range(MEANS):
        for node, links in enumerate(filled.links):
            if node not in ring:
                total = sum(weight for _, weight in links)
                x = sum(weight * found[other][0] for other, weight in links) / total
                y = sum(weight * found[other][1] for other, weight in links) / total
                found[node] = (x, y)
    return found if _is_plane(filled, found) else points


# ---- Nodes moved by what pulls and pushes them


class _Forces:
    """What acts on each node: its links; the triangles at it, as the other two corners and how much they push, and
    `shape`, which says how much more thin ones do; the lines through it, where it is a crossing, as both neighbours and
    their weight, and those that end at it, as the crossing, the node behind it, and the weight; and where right angles
    at crossings would put it."""

    def __init__(self, count: int, shape: float):
        self.shape = shape
        self.links: list[Sequence[tuple[int, float]]] = [()] * count
        self.triangles: list[Sequence[tuple[int, int, float]]] = [()] * count
        self.lines: list[Sequence[tuple[int, int, float]]] = [()] * count
        self.ends: list[Sequence[tuple[int, int, float]]] = [()] * count
        self.squared: list[Sequence[Position]] = [()] * count
        self.crossed: list[tuple[int, tuple[int, int, int, int]]] = []

    @staticmethod
    def of_all(filled: FilledGraph, weights: Mapping[tuple[int, int], float]) -> "_Forces":
        """What acts where all nodes are there; `weights` is how much edges pull into one line at their crossings."""
        forces = _Forces(len(filled.links), SHAPE / len(filled.triangles))
        forces.links = list(filled.links)
        triangles: list[list[tuple[int, int, float]]] = [[] for _ in filled.links]
        lines: list[list[tuple[int, int, float]]] = [[] for _ in filled.links]
        ends: list[list[tuple[int, int, float]]] = [[] for _ in filled.links]
        forces.triangles, forces.lines, forces.ends = list(triangles), list(lines), list(ends)
        ring = set(filled.ring)
        for first, second, third in filled.triangles:
            weight = 1.0 if ring.isdisjoint((first, second, third)) else PUSH_AT_RING
            push = PUSH / len(filled.triangles) ** 2 * weight
            triangles[first].append((second, third, push))
            triangles[second].append((third, first, push))
            triangles[third].append((first, second, push))
        forces.crossed = filled.crossed
        for node, four in filled.crossed:
            for place, other in enumerate(four):
                weight = weights[node, place % 2]
                lines[node].append((other, four[place - 2], weight))
                ends[other].append((node, four[place - 2], weight))
        return forces

    def square(self, points: Sequence[Position]) -> None:
        """Look where the neighbours of crossings would lie if two lines met there at right angles, as far away as they
        are now and turned as little as they can be."""
        squared: list[list[Position]] = [[] for _ in points]
        for node, four in self.crossed:
            ways = [complex(points[other][0] - points[node][0], points[other][1] - points[node][1]) for other in four]
            turned = sum(way / abs(way) * 1j**place for place, way in enumerate(ways))
            for place, (other, way) in enumerate(zip(four, ways)):
                end = complex(*points[node]) + abs(way) * turned / (abs(turned) or 1.0) / 1j**place
                squared[other].append((end.real, end.imag))
        self.squared = list(squared)

    def pull(self, node: int, points: Sequence[Position]) -> tuple[float, float, float]:
        """The point that a node is pulled to by all that pulls it, and the weight of that."""
        total = across = up = 0.0
        for other, weight in self.links[node]:
            x, y = points[other]
            total += weight
            across += weight * x
            up += weight * y
        for first, second, weight in self.lines[node]:
            (x, y), (u, v) = points[first], points[second]
            total += 2 * weight
            across += weight * (x + u)
            up += weight * (y + v)
        for first, second, weight in self.ends[node]:
            (x, y), (u, v) = points[first], points[second]
            total += weight
            across += weight * (2 * x - u)
            up += weight * (2 * y - v)
        for x, y in self.squared[node]:
            total += SQUARE
            across += SQUARE * x
            up += SQUARE * y
        return across / total, up / total, total

    def move(self, node: int, points: list[Position]) -> float:
        """Move a node to where its energy gets less; how far it went."""
        return _move(node, points, self.pull(node, points), self.triangles[node], self.shape)


def _move_few(mesh: Triangulation, there: Sequence[int], points: list[Position], sweeps: int) -> None:
    """Move the nodes that are there, each of which stands for several, so many times: each pulls its neighbours alike,
    and a triangle pushes as much as those that it will be. A node's weight is shared among the triangles at it."""
    share = [weight / max(1, len(others)) for weight, others in zip(mesh.weight, mesh.around)]
    whole = sum(mesh.weight[node] for node in (*there, *mesh.fixed))
    shape = SHAPE / (2 * len(there) + len(mesh.fixed) - 2)
    triangles = []
    for node in there:
        own, others = share[node], mesh.around[node]
        behind = others[1:] + others[:1]
        pushes = [PUSH * ((own + share[one] + share[two]) / whole) ** 2 for one, two in zip(others, behind)]
        triangles.append((node, others, behind, pushes))
    for _ in range(sweeps):
        for node, others, behind, pushes in triangles:
            across = up = 0.0
            for other in others:
                x, y = points[other]
                across += x
                up += y
            total = float(len(others))
            _move(node, points, (across / total, up / total, total), zip(others, behind, pushes), shape)


def _move(
    node: int,
    points: list[Position],
    pull: tuple[float, float, float],
    triangles: Iterable[tuple[int, int, float]],
    shape: float,
) -> float:
    """Move a node to where its energy would be least, by its slope and an estimate of its curvature, or a part of that
    way, if that makes its energy less; how far it went. The triangles are as in _Forces."""
    x, y = points[node]
    middle_x, middle_y, total = pull
    slope_x, slope_y, curvature = total * (x - middle_x), total * (y - middle_y), total
    energy = (slope_x * slope_x + slope_y * slope_y) / total / 2
    twice = 2 * shape
    corners = []
    for first, second, push in triangles:
        u, v = points[first]
        r, s = points[second]
        across, up = v - s, r - u
        length = across * across + up * up
        push += shape * length  # whatever the place of the node is
        corners.append((u, v, r, s, push))
        p, q, m, n = u - x, v - y, r - x, s - y
        area = p * n - q * m
        term = (push + shape * (p * p + q * q + m * m + n * n)) / area
        force, thin = term / area, twice / area
        slope_x -= force * across + thin * (p + m)
        slope_y -= force * up + thin * (q + n)
        curvature += force * length / area + 2 * thin
        energy += term
    way_x, way_y = -slope_x / curvature, -slope_y / curvature
    for _ in range(5):
        if _energy(x + way_x, y + way_y, pull, corners, shape) < energy:
            points[node] = (x + way_x, y + way_y)
            return max(abs(way_x), abs(way_y))
        way_x, way_y = 0.35 * way_x, 0.35 * way_y
    return 0.0


def _lines_through(crossed: Sequence[tuple[int, tuple[int, int, int, int]]]) -> list[_Line]:
    """The edges that pass crossings: each by the nodes along it, and by its crossings, each with 0 or 1, as the edge's
    neighbours are round it."""
    around = dict(crossed)
    found: list[_Line] = []
    seen: set[tuple[int, int]] = set()
    for first in ((node, place) for node in around for place in (0, 1)):
        if first in seen:
            continue
        nodes, passed = [first[0]], [first]
        for way in (0, 2):
            (node, place), last = first, first[0]
            place += way
            while (following := around[node][place]) in around:
                node, last = following, node
                place = (around[node].index(last) + 2) % 4
                nodes.append(node)
                passed.append((node, place % 2))
            nodes.append(following)
            nodes.reverse()
        seen.update(passed)
        found.append(_Line(nodes, passed))
    return found


def _weights(lines: Sequence[_Line], points: Sequence[Position] | None) -> dict[tuple[int, int], float]:
    """How much each edge pulls into one line at each of its crossings: the more, the more crossings it has, and the
    farther it turns where the points are."""
    found: dict[tuple[int, int], float] = {}
    for line in lines:
        weight = STRAIGHTEN * (1 + MORE * (len(line.passed) - 1))
        if points is not None:
            weight *= max(1.0, turn_along([complex(*points[node]) for node in line.nodes]) / FAR) ** POWER
        found.update(dict.fromkeys(line.passed, weight))
    return found


def turn_along(points: Sequence[complex]) -> float:
    """How many radians a chain of straight lines turns at its points, whichever way."""
    ways = [end - start for start, end in zip(points, points[1:])]
    return sum(abs(phase(two * one.conjugate())) for one, two in zip(ways, ways[1:]))


def _energy(
    x: float,
    y: float,
    pull: tuple[float, float, float],
    corners: Iterable[tuple[float, float, float, float, float]],
    shape: float,
) -> float:
    """The energy of a node at a place; more than any other where a triangle would turn over."""
    middle_x, middle_y, total = pull
    energy = total * ((x - middle_x) * (x - middle_x) + (y - middle_y) * (y - middle_y)) / 2
    for u, v, r, s, push in corners:
        p, q, m, n = u - x, v - y, r - x, s - y
        area = p * n - q * m
        if area <= LEAST_AREA:
            return float("inf")
        energy += (push + shape * (p * p + q * q + m * m + n * n)) / area
    return energy


def _settle(filled: FilledGraph, points: list[Position], sweeps: int) -> None:
    """Move the nodes that are not of the ring until they hardly move, or have been moved often; in large graphs that is
    less often. Where edges then turn far, some more times, with these pulled more into one line."""
    lines, ring = _lines_through(filled.crossed), set(filled.ring)
    moves = MOVES if len(points) <= FEW else MOVES // 2
    plain, most = _weights(lines, None), max(LEAST_SWEEPS, min(sweeps, moves // len(points)))
    _move_all(_Forces.of_all(filled, plain), ring, points, most)
    for _ in range(AGAIN if len(points) <= FEW else 0):
        weights = _weights(lines, points)
        if weights == plain:
            return
        _move_all(_Forces.of_all(filled, weights), ring, points, most // 4)


def _move_all(forces: _Forces, ring: Container[int], points: list[Position], sweeps: int) -> None:
    """Move all nodes that are not of the ring, so many times at most."""
    for _ in range(sweeps):
        most = 0.0
        forces.square(points)
        for node in range(len(points)):
            if node not in ring:
                most = max(most, forces.move(node, points))
        if most < STILL:
            return


def _is_plane(filled: FilledGraph, points: Sequence[Position]) -> bool:
    """Whether each triangle goes counterclockwise, so that none lies on another."""
    for first, second, third in filled.triangles:
        (x, y), (u, v), (r, s) = points[first], points[second], points[third]
        if (u - x) * (s - y) - (v - y) * (r - x) <= LEAST_AREA:
            return False
    return True


# ---- Crossings between nodes that have their places


def between(
    neighbours: Mapping[Any, Sequence[Any]], places: Mapping[Any, Position], sweeps: int = 200
) -> dict[Any, Position]:
    """Points for the nodes that have none yet, each at the mean of its neighbours; crossings where the lines between
    their opposite neighbours meet. `neighbours` has the neighbours of these nodes, clockwise."""
    points: list[Position] = list(places.values())
    number = {node: place for place, node in enumerate([*places, *neighbours])}
    middle = (sum(x for x, _ in points) / len(points), sum(y for _, y in points) / len(points))
    points += [middle] * len(neighbours)
    todo = [(number[node], [number[other] for other in others]) for node, others in neighbours.items()]
    for _ in range(sweeps):
        for node, others in todo:
            mean = (
                sum(points[other][0] for other in others) / len(others),
                sum(points[other][1] for other in others) / len(others),
            )
            if len(others) == 4:
                mean = _straight(points, (others[0], others[1], others[2], others[3]), mean)
            points[node] = mean
    return {node: points[number[node]] for node in neighbours}


def _straight(points: Sequence[Position], four: tuple[int, int, int, int], mean: Position) -> Position:
    """Where the lines between opposite neighbours meet; the mean where they do not meet."""
    (ax, ay), (cx, cy), (bx, by), (dx, dy) = (points[node] for node in four)
    area = (bx - ax) * (dy - cy) - (by - ay) * (dx - cx)
    if abs(area) < 1e-12:
        return mean
    along = ((cx - ax) * (dy - cy) - (cy - ay) * (dx - cx)) / area
    other = ((cx - ax) * (by - ay) - (cy - ay) * (bx - ax)) / area
    if not (0.05 < along < 0.95 and 0.05 < other < 0.95):
        return mean
    return ax + along * (bx - ax), ay + along * (by - ay)
