"""Edges as cubic curves that pass their crossings without a corner."""

from __future__ import annotations

from collections.abc import Mapping, Sequence
from math import atan2, hypot, pi
from typing import Any

from ..engine.pictures import Point
from ..engine.results import Planarization
from .scenes import Position, toward

#: How far the control points of a curve lie from its ends, as a part of the chord.
REACH = 0.36
#: The directions in which a curve may pass a point, from that of the line before to that of the line behind.
PARTS = (0.5, 0.35, 0.65, 0.2, 0.8, 0.0, 1.0)
#: At which places along a piece it is measured how it turns. By how much a curve turns at most, nearly half a circle;
#: how far, in radians, its direction may then be from that in which both edges of a crossing would meet at right
#: angles; and how much it counts, at first and then, that it has other directions than it would have else.
STEPS = (0.15, 0.3, 0.5, 0.7, 0.85)
MOST = 0.99 * pi
ASIDE = pi / 2.6
WEIGHTS = (1.6, 0.8, 0.4, 0.2, 0.0)


def crossing_ways(
    result: Planarization, chains: Mapping[int, Sequence[Any]], places: Mapping[Any, Position]
) -> dict[tuple[int, Any], Position]:
    """For an edge and a crossing on it, as a node of its chain, the direction in which the edge would pass if both
    edges met at right angles, turned as little as they can be."""
    found: dict[tuple[int, Any], Position] = {}
    for row in result.picture.crossings:
        point = Point(True, row.id)
        name, darts = result.name_of(point), result.picture.around(point)
        ways = []
        for dart in darts:
            nodes = chains[dart.edge]
            ways.append(complex(*toward(places[name], places[nodes[nodes.index(name) + (-1 if dart.back else 1)]])))
        turned = sum(way * 1j**place for place, way in enumerate(ways))
        for place, dart in enumerate(darts):
            if not dart.back and abs(turned) > 1e-9:
                way = turned / abs(turned) / 1j**place
                found[dart.edge, name] = (way.real, way.imag)
    return found


def edge_ways(
    result: Planarization,
    chains: Mapping[int, Sequence[Any]],
    places: Mapping[Any, Position],
    turns_least: bool = True,
) -> dict[int, list[Position]]:
    """The directions in which each edge passes the nodes of its chain; none of edges that are as good as straight."""
    ways = crossing_ways(result, chains, places)
    passing = {}
    for edge_id, chain in chains.items():
        points = [places[node] for node in chain]
        if not is_as_good_as_straight(points):
            passing[edge_id] = passing_ways(points, [ways.get((edge_id, node)) for node in chain], turns_least)
    return passing


def is_as_good_as_straight(chain: Sequence[Position]) -> bool:
    """Whether all lines of a chain of points have very nearly one direction."""
    lines = _lines(chain)
    return all(
        _cross(lines[0], line) ** 2 < 1e-4 and lines[0][0] * line[0] + lines[0][1] * line[1] > 0 for line in lines
    )


def passing_ways(
    chain: Sequence[Position], ways: Sequence[Position | None], turns_least: bool = True
) -> list[Position]:
    """The directions in which a curve passes the points of a chain.

    They are between those of the lines before and behind a point; where `ways` has one, it is turned toward that the
    more, the sharper the corner is. A curve that would turn by more than half a circle takes those directions with
    which it turns least, if it `turns_least` and then does not.
    """
    lines = _lines(chain)
    passing = _passing(lines, ways)
    if turns_least and sum(map(_turned, passing, passing[1:], lines)) > MOST:
        for weight in WEIGHTS:
            other = _least_turning(lines, passing, ways, weight)
            if sum(map(_turned, other, other[1:], lines)) <= MOST:
                return other
    return passing


def turn_of(chain: Sequence[Position], passing: Sequence[Position]) -> float:
    """By how many radians a curve turns that passes the points of a chain in these directions, where nothing is in its
    way; at least as far as the straight lines between them."""
    return sum(map(_turned, passing, passing[1:], _lines(chain)))


def smooth(
    chain: Sequence[Position], passing: Sequence[Position], reaches: Sequence[float]
) -> tuple[Position, ...]:
    """A chain of points as cubic curves that pass each of them in one direction. `reaches` has for each piece how far
    its control points lie from its ends, beside how far they do where nothing is in the way; with 0 it is a straight
    line."""
    curve: list[Position] = [chain[0]]
    for start, end, leaving, coming, part in zip(chain, chain[1:], passing, passing[1:], reaches):
        reach = REACH * part * hypot(end[0] - start[0], end[1] - start[1])
        curve += [
            (start[0] + reach * leaving[0], start[1] + reach * leaving[1]),
            (end[0] - reach * coming[0], end[1] - reach * coming[1]),
            end,
        ]
    return tuple(curve)


def _lines(chain: Sequence[Position]) -> list[Position]:
    """The directions from each point of a chain to the next."""
    return [toward(start, end) for start, end in zip(chain, chain[1:])]


def _passing(lines: Sequence[Position], ways: Sequence[Position | None]) -> list[Position]:
    """The direction at each point of a chain with these lines."""
    passing = [lines[0]]
    for place, (before, after) in enumerate(zip(lines, lines[1:]), 1):
        middle = toward((0.0, 0.0), (before[0] + after[0], before[1] + after[1]))
        way = ways[place]
        if way is not None:
            share = min(1.0, 1.0 - (before[0] * after[0] + before[1] * after[1]))
            middle = toward((0.0, 0.0), (middle[0] + share * way[0], middle[1] + share * way[1]))
        passing.append(middle if middle != (0.0, 0.0) else after)
    return [*passing, lines[-1]]


def _least_turning(
    lines: Sequence[Position], passing: Sequence[Position], ways: Sequence[Position | None], weight: float
) -> list[Position]:
    """The directions at the points of a chain with these lines with which its curve turns least, where it counts so
    much that they are others than those of `passing`. At each point it is that one, that of the line before or behind,
    or one of some between, but none that is far from that of `ways`."""
    choices = [[lines[0]]]
    for before, after, own, way in zip(lines, lines[1:], passing[1:], ways[1:]):
        parts = [(1 - part) * complex(*before) + part * complex(*after) for part in PARTS]
        others = [toward((0.0, 0.0), (it.real, it.imag)) for it in parts if abs(it) > 1e-9]
        choices.append([own, *(it for it in others if way is None or _angle(way, it) < ASIDE)])
    choices.append([lines[-1]])
    best: list[tuple[float, list[Position]]] = [(0.0, [lines[0]])]
    for line, following, way in zip(lines, choices[1:], passing[1:]):
        best = [
            min(
                (
                    (cost + _turned(path[-1], other, line) + weight * _angle(way, other), [*path, other])
                    for cost, path in best
                ),
                key=lambda it: it[0],
            )
            for other in following
        ]
    return min(best, key=lambda it: it[0])[1]


def _angle(first: Position, second: Position) -> float:
    """The angle between two directions."""
    return abs(atan2(_cross(first, second), first[0] * second[0] + first[1] * second[1]))


def _turned(start: Position, end: Position, line: Position) -> float:
    """By how much a piece turns that begins and ends in these directions, along this line."""
    turn, before = 0.0, start
    for part in STEPS:
        near, middle, far = REACH * (1 - part) ** 2, 2 * part * (1 - part), REACH * part**2
        x, y = (
            (near - REACH * middle) * one + middle * along + (far - REACH * middle) * other
            for one, along, other in zip(start, line, end)
        )
        turn += _angle(before, (x, y))
        before = (x, y)
    return turn + _angle(before, end)


def _cross(first: Position, second: Position) -> float:
    return first[0] * second[1] - first[1] * second[0]
