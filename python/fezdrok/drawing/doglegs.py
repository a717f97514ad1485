"""Shapes whose boxes can be small: on each side of a box one edge goes straight on, and the others bend at once.

Edges that leave a side together hold it as wide as what they lead to. So all but one of them bend: before or behind
that one they leave the next side in their order and turn once, or, where edges of that side come over here, they step
aside on their own side and turn twice (as in the drawings of Foessmeier and Kaufmann, Drawing High Degree Graphs with
Low Bend Numbers, 1995, and the moves of Foessmeier, Hess and Kaufmann, On Improving Orthogonal Drawings, 1998). Which
edge goes on, and which way the others bend at each corner, is what makes the edges turn least. Edges that turn by more
than two right angles are seldom wanted: while there are some, their bends count more, and other faces lie outside.
"""

from __future__ import annotations

from collections.abc import Collection, Iterator
from dataclasses import replace
from itertools import product
from typing import NamedTuple

from ..engine.pictures import Dart, Picture, Point
from .bends import MOST_TURNS, Shape, is_box, least_bends

#: What each right angle counts, beside others, by which an edge turns farther than by MOST_TURNS.
FAR = 20
#: Of how many edges a box stays as wide as straight edges make it, and how often each other one is looked at.
LARGE = 400
ROUNDS = 4
#: How often the bends of edges that turn too far are made to count more, and how many darts all tries have at most.
TRIES = 12
DARTS = 20_000
#: At a corner of a box edges go over it clockwise, or counterclockwise.
CLOCKWISE, BACK = range(2)


class _End(NamedTuple):
    """How an edge leaves a box: so many sides clockwise of its own, with these turns."""

    moved: int
    turns: tuple[int, ...]


STRAIGHT = _End(0, ())


def shape_with_small_boxes(picture: Picture, outer: int | None = None) -> Shape:
    """The shape of a connected picture whose boxes can be small, but those of LARGE edges or more; of several that are
    tried, the one in which the fewest edges turn by more than two right angles, and then the one with the fewest bends.
    The face at the place `outer` lies outside; without one the picture's outer face does, or another."""
    boxes = [it for it in picture.points if is_box(picture, it) and len(picture.rotations[it.id]) < LARGE]
    best, least = None, (0, 0)
    for shape in _tries(picture, boxes, outer):
        far = sum(it > MOST_TURNS for it in _turns(shape).values())
        if best is None or (far, shape.bend_count) < least:
            best, least = shape, (far, shape.bend_count)
        if not far:
            break
    assert best is not None
    return best


def _tries(picture: Picture, boxes: Collection[Point], outer: int | None) -> Iterator[Shape]:
    """Shapes with small boxes: with the face outside, then with others, larger ones first; and with each several, where
    the bends of edges that turn too far, or nearly so, count more and more."""
    faces = [picture.outer_face if outer is None else outer]
    if outer is None:
        faces += sorted(set(range(len(picture.faces))) - {*faces}, key=lambda it: (-len(picture.faces[it]), it))
    left = max(1, DARTS // max(1, sum(1 for _ in picture.darts)))
    for face in faces:
        dear: dict[int, int] = {}
        for _ in range(min(TRIES, left)):
            left -= 1
            shape = narrowed(least_bends(picture, face, True, dear), boxes)
            yield shape
            dear.update({it: dear.get(it, 0) + turns - 1 for it, turns in _turns(shape).items() if turns >= MOST_TURNS})


def _turns(shape: Shape) -> dict[int, int]:
    """By how many right angles each edge turns."""
    return {
        row.id: sum(len(shape.turns(Dart(row.id, segment))) for segment in range(row.segments))
        for row in shape.picture.edges
    }


def narrowed(shape: Shape, boxes: Collection[Point]) -> Shape:
    """The shape in which the edges of these boxes leave them so that they can be small."""
    sides_of = {point: _sides(shape, point) for point in boxes}
    turns = _turns(shape)
    ends: dict[Dart, _End] = {}
    for _ in range(ROUNDS):
        before = dict(ends)
        for sides in sides_of.values():
            for dart in (dart for side in sides for dart in side):
                turns[dart.edge] -= len(ends.get(dart, STRAIGHT).turns)
            found = _least_turns(sides, turns)
            ends.update(found)
            for dart, end in found.items():
                turns[dart.edge] += len(end.turns)
        if ends == before:
            break
    angles, headings = dict(shape.angles), dict(shape.headings)
    for point in boxes:
        around = shape.picture.around(point)
        for dart, last in zip(around, (around[-1], *around[:-1])):
            angles[dart] += ends[dart].moved - ends[last].moved
            headings[dart] = (headings[dart] - ends[dart].moved) % 4
    bent = {dart: end.turns for dart, end in ends.items() if end.turns}
    return replace(shape, angles=angles, headings=headings, ends=bent)


def _sides(shape: Shape, point: Point) -> list[list[Dart]]:
    """The edges of the four sides of a box, clockwise; an edge that is the first of its side comes first."""
    around = shape.picture.around(point)
    first = next(place for place, dart in enumerate(around) if shape.angles[dart])
    sides: list[list[Dart]] = [[], [], [], []]
    place = -shape.angles[around[first]]
    for dart in around[first:] + around[:first]:
        place += shape.angles[dart]
        sides[place].append(dart)
    return sides


def _least_turns(sides: list[list[Dart]], turns: dict[int, int]) -> dict[Dart, _End]:
    """How the edges of a box leave it, so that they turn least; `turns` is by how much they turn elsewhere."""
    ways = [(first, last) for first in (CLOCKWISE, BACK) for last in (CLOCKWISE, BACK)]
    found = [{way: _least_on_side(side, way[0], way[1], turns) for way in ways} for side in sides if side]
    used = [place for place, side in enumerate(sides) if side]
    best: list[tuple[int, dict[Dart, _End]]] = []
    for corners in product((CLOCKWISE, BACK), repeat=4):
        own = [of_side[corners[place - 1], corners[place]] for of_side, place in zip(found, used)]
        if not best or sum(cost for cost, _ in own) < sum(cost for cost, _ in best):
            best = own
    return {dart: end for _, ends in best for dart, end in ends.items()}


def _least_on_side(
    side: list[Dart], first: int, last: int, turns: dict[int, int]
) -> tuple[int, dict[Dart, _End]]:
    """How the edges of a side leave it, where edges go over at its first and its last corner like this, and what that
    counts."""
    before = _End(-1, (-1,)) if first == BACK else _End(0, (1, -1))
    behind = _End(1, (1,)) if last == CLOCKWISE else _End(0, (-1, 1))
    costs = [[_cost(turns[dart.edge], len(end.turns)) for dart in side] for end in (before, STRAIGHT, behind)]
    left, right = 0, sum(costs[2])
    sums = []
    for place in range(len(side)):
        right -= costs[2][place]
        sums.append(left + costs[1][place] + right)
        left += costs[0][place]
    straight = sums.index(min(sums))
    ends = [before] * straight + [STRAIGHT] + [behind] * (len(side) - straight - 1)
    return sums[straight], dict(zip(side, ends))


def _cost(turns: int, more: int) -> int:
    """What it counts that an edge of so many right angles has more of them."""
    return more + FAR * (max(0, turns + more - MOST_TURNS) - max(0, turns - MOST_TURNS))
