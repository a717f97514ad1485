"""Ways through a face of a drawing with straight lines, from one of its corners to another.

The face is cut into triangles by its corners; the way leads from triangle to triangle over the middles of the sides
between them, and is then shortened where it stays as far from all corners as it was, or far enough.
"""

from __future__ import annotations

from collections.abc import Sequence
from math import atan2, dist, hypot, pi

Position = tuple[float, float]
Triangle = tuple[int, int, int]

#: How far from the corners of a face a way that is shortened stays, beside the extent of the face, unless it was nearer
#: before; and by how much it may then come nearer.
CLEAR = 0.03
NEARER = 0.6
#: How far beyond all corners the frame of an outer face is, beside their extent.
FRAME = 0.15
#: The sine of an angle that is taken for none.
FLAT = 1e-9


def route(face: Sequence[Position], start: int) -> list[Position]:
    """The bends of a way from the corner at the place `start` of a face to its corner 0.

    The face is given by the points along it, so that it lies on the left; points that it passes more than once stand
    there as often. Where they go clockwise or have no area between them, it is the outer face.
    """
    corners, start = (list(face), start) if area(face) > 0 else _framed(face, start)
    sleeve = _sleeve(triangles(corners), start)
    ends = {corners[start], corners[0]}
    are_joined = any({point, other} == ends for point, other in zip(corners, [*corners[1:], corners[0]]))
    if len(sleeve) == 1:
        if not are_joined:
            return []
        xs, ys = zip(*(corners[place] for place in sleeve[0]))
        return [(sum(xs) / 3, sum(ys) / 3)]
    bends = []
    for first, second in zip(sleeve, sleeve[1:]):
        (x, y), (u, v) = (corners[place] for place in set(first) & set(second))
        bends.append(((x + u) / 2, (y + v) / 2))
    return _shortened([corners[start], *bends, corners[0]], corners, are_joined)


def spot_in_sight(face: Sequence[Position]) -> Position:
    """A point in a face, which is given as for `route`, that sees its corner 0: the middle of the largest triangle at
    it."""
    corners = list(face) if area(face) > 0 else _framed(face, 0)[0]
    beside = [triangle for triangle in triangles(corners) if 0 in triangle]
    xs, ys = zip(*(corners[it] for it in max(beside, key=lambda three: turn(*(corners[it] for it in three)))))
    return sum(xs) / 3, sum(ys) / 3


def area(points: Sequence[Position]) -> float:
    """Twice the area within a chain of points that is closed, which is less than 0 where they go clockwise. Where it
    goes back as it came, that is 0, whatever is rounded."""
    steps = set(zip(points, [*points[1:], points[0]]))
    x, y = points[0]
    return sum(
        (p - x) * (s - y) - (r - x) * (q - y) for (p, q), (r, s) in sorted(steps) if ((r, s), (p, q)) not in steps
    )


def turn(first: Position, second: Position, third: Position) -> float:
    """Twice the area of a triangle, which is less than 0 where its corners go clockwise."""
    return (second[0] - first[0]) * (third[1] - first[1]) - (second[1] - first[1]) * (third[0] - first[0])


# ---- The outer face


def _framed(face: Sequence[Position], start: int) -> tuple[list[Position], int]:
    """The outer face as one with an end: a frame round it, joined with one of its highest corners by a line; and the
    new place of the corner `start`. Corner 0 stays the first."""
    xs, ys = zip(*face)
    margin = FRAME * (max(max(xs) - min(xs), max(ys) - min(ys)) or 1.0)
    left, right, bottom, top = min(xs) - margin, max(xs) + margin, min(ys) - margin, max(ys) + margin
    gate = _open_upwards(face)
    x, y = face[gate]
    frame = [(x, top), (left, top), (left, bottom), (right, bottom), (right, top), (x, top)]
    return [*face[: gate + 1], *frame, *face[gate:]], start if start <= gate else start + len(frame) + 1


def _open_upwards(face: Sequence[Position]) -> int:
    """The place of a highest corner from which the way up leads into the face."""
    highest = max(face, key=lambda point: (point[1], point[0]))
    places = [place for place, point in enumerate(face) if point == highest]
    return next((it for it in places if _is_open(face[it - 1], face[it], face[(it + 1) % len(face)])), places[0])


def _is_open(before: Position, point: Position, behind: Position) -> bool:
    """Whether the way up lies in the corner on the left of the way through a point."""
    to_before, to_behind = (atan2(y - point[1], x - point[0]) for x, y in (before, behind))
    return (pi / 2 - to_behind) % (2 * pi) < ((to_before - to_behind) % (2 * pi) or 2 * pi)


# ---- Triangles


def triangles(corners: Sequence[Position]) -> list[Triangle]:
    """The triangles into which a face is cut by lines between its corners, counterclockwise: again and again a corner
    is cut off whose neighbours see each other (Meisters, Polygons Have Ears, 1975). The face may pass a point more than
    once."""
    left = list(range(len(corners)))
    found: list[Triangle] = []
    place = 0
    while len(left) > 3:
        place = _next_ear(corners, left, place)
        found.append((left[place - 1], left[place], left[(place + 1) % len(left)]))
        del left[place]
        place += 1
    return [*found, (left[0], left[1], left[2])]


def _next_ear(corners: Sequence[Position], left: Sequence[int], first: int) -> int:
    """The place of the next corner, from the first on, that can be cut off. Flat ones are taken only where there are no
    others, and any where rounding leaves none at all."""
    for flat in (FLAT, 0.0):
        for step in range(len(left)):
            place = (first + step) % len(left)
            if _is_ear(corners, left, place, flat):
                return place
    return first % len(left)


def _is_ear(corners: Sequence[Position], left: Sequence[int], place: int, flat: float) -> bool:
    """Whether a corner can be cut off: no other corner lies in its triangle or on its sides, or nearly so, and it is
    not flat."""
    a, b, c = (corners[left[it]] for it in (place - 1, place, (place + 1) % len(left)))
    if turn(a, b, c) <= flat * dist(a, b) * dist(b, c):
        return False
    least_x, most_x = min(a[0], b[0], c[0]), max(a[0], b[0], c[0])
    least_y, most_y = min(a[1], b[1], c[1]), max(a[1], b[1], c[1])
    beside = -flat * dist(a, c) ** 2
    for other in left:
        point = corners[other]
        if least_x <= point[0] <= most_x and least_y <= point[1] <= most_y and point not in (a, b, c):
            if turn(a, b, point) >= 0 and turn(b, c, point) >= 0 and turn(c, a, point) >= beside:
                return False
    return True


def _sleeve(found: Sequence[Triangle], start: int) -> list[Triangle]:
    """The fewest triangles, each beside the one before it, from one at the corner `start` to one at corner 0."""
    beside: dict[frozenset[int], list[Triangle]] = {}
    for triangle in found:
        for place in range(3):
            beside.setdefault(frozenset((triangle[place - 1], triangle[place])), []).append(triangle)
    paths = [[triangle] for triangle in found if start in triangle]
    seen = {path[0] for path in paths}
    for path in paths:
        if 0 in path[-1]:
            return path
        for place in range(3):
            for other in beside[frozenset((path[-1][place - 1], path[-1][place]))]:
                if other not in seen:
                    seen.add(other)
                    paths.append([*path, other])
    raise AssertionError("the triangles of a face do not hang together")


# ---- Ways that are shortened


def _shortened(way: list[Position], corners: Sequence[Position], are_joined: bool) -> list[Position]:
    """The bends of a way without those that it does not need. Where its ends are joined along the face, one is
    kept."""
    xs, ys = zip(*corners)
    clear = CLEAR * max(max(xs) - min(xs), max(ys) - min(ys))
    place = 1
    while place < len(way) - 1:
        is_last_bend = len(way) == 3 and are_joined
        if not is_last_bend and _is_free(way[place - 1], way[place], way[place + 1], corners, clear):
            del way[place]
            place = max(1, place - 1)
        else:
            place += 1
    return way[1:-1]


def _is_free(
    first: Position, second: Position, third: Position, corners: Sequence[Position], clear: float
) -> bool:
    """Whether a way may lead from the first point to the third at once, and not by the second."""
    side = turn(first, second, third)
    a, b, c = (first, second, third) if side > 0 else (first, third, second)
    for point in corners:
        if point in (first, third):
            continue
        if side and turn(a, b, point) >= 0 and turn(b, c, point) >= 0 and turn(c, a, point) >= 0:
            return False
        near = distance(point, first, third)
        if near < clear and near < NEARER * min(distance(point, first, second), distance(point, second, third)):
            return False
    return True


def distance(point: Position, start: Position, end: Position) -> float:
    """How far a point is from a straight line between two others."""
    across, up = end[0] - start[0], end[1] - start[1]
    length = across * across + up * up
    along = ((point[0] - start[0]) * across + (point[1] - start[1]) * up) / length if length else 0.0
    along = max(0.0, min(1.0, along))
    return hypot(start[0] + along * across - point[0], start[1] + along * up - point[1])
