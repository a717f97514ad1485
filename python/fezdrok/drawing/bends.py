"""Orthogonal representations: the angle in each corner and the bends of each segment, by a flow of least cost.

The method is that of Tamassia, On Embedding a Graph in the Grid with the Minimum Number of Bends (SIAM Journal on
Computing 16, 1987): each vertex sends four right angles to the corners round it, each face takes as many as its
length wants, and what is sent across a segment from one face to another is a bend. A vertex of more than four edges
is a box: an angle between two of its edges may be 0, and then both leave the same side. At a crossing each angle is 1.
"""

from __future__ import annotations

from collections.abc import Iterator, Mapping
from dataclasses import dataclass, field
from typing import Any

from ..engine.pictures import Dart, Picture, Point
from .flows import Arc, least_cost_flow

#: By how many right angles an edge may turn.
MOST_TURNS = 2
#: The four directions, counterclockwise.
EAST, NORTH, WEST, SOUTH = range(4)


@dataclass(frozen=True)
class Shape:
    """An orthogonal representation of a picture: what a drawing on the grid looks like, without lengths.

    `angles[d]` is the number of right angles, 0 to 4, in the corner at the start of dart d, on its left: between d and
    the next dart counterclockwise. `bends[d]` is how often d turns left; it turns right as often as its twin turns
    left, and never both. `headings[d]` is the direction in which d starts: EAST, NORTH, WEST or SOUTH. `ends[d]` has
    the turns that d makes at its start before all others, where it comes out of a small box (see `doglegs`).
    """

    picture: Picture
    angles: dict[Dart, int]
    bends: dict[Dart, int]
    headings: dict[Dart, int]
    ends: Mapping[Dart, tuple[int, ...]] = field(default_factory=dict)

    @property
    def bend_count(self) -> int:
        """How many bends all edges have together: the cost of the flow in bends, and those at the ends."""
        return sum(self.bends.values()) + sum(map(len, self.ends.values()))

    def turns(self, dart: Dart) -> tuple[int, ...]:
        """The turns of a dart from its start to its end: 1 for a left turn, -1 for a right one."""
        last = tuple(-turn for turn in reversed(self.ends.get(dart.twin, ())))
        return (*self.ends.get(dart, ()), *(1,) * self.bends[dart], *(-1,) * self.bends[dart.twin], *last)

    def is_box(self, point: Point) -> bool:
        """Whether a point is drawn as a box, since it has more than four edges."""
        return is_box(self.picture, point)


def is_box(picture: Picture, point: Point) -> bool:
    """Whether more than four edges end at a point."""
    return not point.is_crossing and len(picture.rotations[point.id]) > 4


def least_bends(picture: Picture, outer: int, are_small: bool = False, dear: Mapping[int, int] = {}) -> Shape:
    """The orthogonal representation of a connected picture with the fewest bends.

    `outer` is the place in `picture.faces` of the face that lies outside. Of all that have the fewest bends it is one
    in which few corners of a vertex take many of its right angles. Where boxes are to be small, a side of a box without
    an edge counts as a bend: then others have more edges, of which all but one bend (see `doglegs`). A bend of an edge
    that is `dear` counts so many quarters more. ValueError where there is no such face.
    """
    if not 0 <= outer < len(picture.faces):
        raise ValueError(f"there is no face {outer}: the picture has {len(picture.faces)}")
    demand: dict[tuple[str, int | Point], int] = {
        ("face", place): _due(picture, place, outer) for place in range(len(picture.faces))
    }
    for point in picture.points:
        spare = 4 - sum(_least(picture, point) for _ in picture.around(point))
        if spare > 0:
            demand["point", point] = -spare
    number_of = {node: number for number, node in enumerate(demand)}
    arcs = list(_arcs(picture, are_small, dear))
    flow, _ = least_cost_flow(
        list(demand.values()),
        [Arc(number_of[start], number_of[end], capacity, cost) for start, end, _, capacity, cost in arcs],
    )
    angles = {dart: _least(picture, picture.start(dart)) for dart in picture.darts}
    bends = dict.fromkeys(picture.darts, 0)
    for (_, _, key, _, _), amount in zip(arcs, flow):
        (bends if key[0] == "bend" else angles)[key[1]] += amount
    return Shape(picture, angles, bends, _headings(picture, angles, bends))


def _least(picture: Picture, point: Point) -> int:
    """How many right angles a corner at a point has at least: none at a box, where edges may leave side by side."""
    return 0 if is_box(picture, point) else 1


def _due(picture: Picture, place: int, outer: int) -> int:
    """How many right angles a face takes beside the least ones of its corners: in all twice its length, and 4 less
    inside, 4 more outside, since the turns round it come to a full circle."""
    face = picture.faces[place]
    least = sum(_least(picture, picture.start(dart)) for dart in face)
    return 2 * len(face) - least + (4 if place == outer else -4)


def _arcs(picture: Picture, are_small: bool, dear: Mapping[int, int]) -> Iterator[tuple[Any, Any, Any, int, int]]:
    """The arcs of the network: start, end, key, capacity, cost of a unit.

    A bend costs more than all angles together can, so bends are the fewest. The first right angle that a corner takes
    beyond its least costs 0, the second 1, and so on; at a box one more, but for four corners that part its edges into
    four like shares, so that about as many leave each side.
    """
    bend = 1 + 10 * len(picture.rotations)
    for point in picture.points:
        around = picture.around(point)
        spare = 4 - sum(_least(picture, point) for _ in around)
        even = {quarter * len(around) // 4 for quarter in range(4)} if is_box(picture, point) else range(len(around))
        for place, dart in enumerate(around if spare > 0 else ()):
            for unit in range(spare):
                cost = unit + (place not in even) + (bend if are_small and unit and is_box(picture, point) else 0)
                yield ("point", point), ("face", picture.face_of(dart)), ("angle", dart, unit), 1, cost
    room = 4 * (len(picture.faces) + len(picture.points)) + 2 * sum(1 for _ in picture.darts)
    for dart in picture.darts:
        left, right = picture.face_of(dart), picture.face_of(dart.twin)
        if left != right:
            cost, few = bend + bend * dear.get(dart.edge, 0) // 4, MOST_TURNS if dear else room
            yield ("face", left), ("face", right), ("bend", dart), few, cost
            if dear:
                yield ("face", left), ("face", right), ("bend", dart), room, cost + 2 * bend


def _headings(picture: Picture, angles: dict[Dart, int], bends: dict[Dart, int]) -> dict[Dart, int]:
    """The direction in which each dart starts, where the first one starts to the east."""
    first = next(picture.darts)
    headings = {first: EAST}
    waiting: list[Dart] = [first]
    while waiting:
        dart = waiting.pop()
        following, back = picture.turn(dart), dart.twin
        found = {
            following: (headings[dart] - angles[following]) % 4,
            back: (headings[dart] + bends[dart] - bends[back] + 2) % 4,
        }
        fresh = [other for other in found if other not in headings]
        headings.update(found)
        waiting.extend(fresh)
    return headings
