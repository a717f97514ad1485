"""A second planarizer, in Python, written from docs/MODEL.md alone: slow, and without a line of the program.

The tests run the same scripts here and by the program, and compare whole reports.
"""

from __future__ import annotations

import heapq
from collections.abc import Iterable, Sequence
from dataclasses import replace

from fezdrok import (
    Crossing, Dart, Delete, Deleted, Edge, Entry, Grow, Grown, Insert, Inserted, Limits, Picture, Point, Refused,
    Report,
)
from fezdrok.engine.reports import Call, Prices, Reply

Heights = dict[int, int]


def run(
    start: Picture, calls: Iterable[Call], prices: Sequence[int | None] = (), limits: Limits = Limits()
) -> Report:
    """The report of these calls, made one after another."""
    history: list[Entry] = []
    picture = start
    for call in calls:
        entered = Insert(call.u, call.v, call.kind) if isinstance(call, Insert) else call
        reply, picture = step(picture, entered, prices, limits)
        history.append(Entry(entered, 0, reply))
    kept = trimmed(prices)
    return Report(tuple(history), limits, picture, kept, start, 2 if None in kept else 1)


def trimmed(prices: Sequence[int | None]) -> Prices:
    """The prices without the ones at their end."""
    kept = list(prices)
    while kept and kept[-1] == 1:
        kept.pop()
    return tuple(kept)


def step(picture: Picture, call: Call, prices: Sequence[int | None], limits: Limits) -> tuple[Reply, Picture]:
    """The reply of a call, and the picture after it."""
    if isinstance(call, Grow):
        return grow(picture, call, limits)
    if isinstance(call, Delete):
        return delete(picture, call.edge)
    return insert(picture, call, prices, limits)


def put_in(around: tuple[int, ...], position: int, edge: int) -> tuple[int, ...]:
    """A rotation with an edge in the corner at a position; position 0 is the end of the list."""
    return (*around, edge) if position == 0 else (*around[:position], edge, *around[position:])


# ---- Growth


def grow(picture: Picture, call: Grow, limits: Limits) -> tuple[Reply, Picture]:
    vertices, edge = len(picture.rotations), picture.next_edge
    if call.u >= vertices:
        return Refused(1, "NoVertex"), picture
    if call.position >= len(picture.rotations[call.u]):
        return Refused(3, "NoPosition"), picture
    if call.kind > 63:
        return Refused(5, "BadKind"), picture
    if vertices >= limits.vertices or edge >= limits.edges:
        return Refused(7, "Full"), picture
    rotations = [*picture.rotations, (edge,)]
    rotations[call.u] = put_in(rotations[call.u], call.position, edge)
    rows = (*picture.edges, Edge(edge, call.u, vertices, call.kind))
    return Grown(vertices, edge), replace(picture, rotations=tuple(rotations), edges=rows, next_edge=edge + 1)


# ---- Insertion


def insert(picture: Picture, call: Insert, prices: Sequence[int | None], limits: Limits) -> tuple[Reply, Picture]:
    vertices = len(picture.rotations)
    if call.u >= vertices or call.v >= vertices:
        return Refused(1, "NoVertex"), picture
    if call.u == call.v:
        return Refused(2, "SameEnds"), picture
    if call.kind > 63:
        return Refused(5, "BadKind"), picture
    if picture.next_edge >= limits.edges:
        return Refused(7, "Full"), picture
    route = first_route(picture, call.u, call.v, prices)
    if route is None:
        return Refused(9, "NoRoute"), picture
    if picture.next_crossing + len(route.crossed) > limits.crossings:
        return Refused(7, "Full"), picture
    return route, shown(picture, call, route)


def price_of(picture: Picture, dart: Dart, prices: Sequence[int | None]) -> int | None:
    kind = picture.edge(dart.edge).kind
    return prices[kind] if kind < len(prices) else 1


def first_route(picture: Picture, u: int, v: int, prices: Sequence[int | None]) -> Inserted | None:
    """The first of the least routes: heights of faces, then the first tight dart of each face down to the target."""
    faces = picture.faces
    face_of = {dart: number for number, face in enumerate(faces) for dart in face}
    corners = {vertex: [face_of[dart] for dart in picture.around(Point(False, vertex))] for vertex in (u, v)}
    heights = face_heights(picture, face_of, set(corners[v]), prices)
    lowest = min((heights[face] for face in corners[u] if face in heights), default=None)
    if lowest is None:
        return None
    start = next(place for place, face in enumerate(corners[u]) if heights.get(face) == lowest)
    face, crossed = corners[u][start], []
    while heights[face]:
        crossed.append(first_tight(picture, faces[face], face_of, heights, prices))
        face = face_of[crossed[-1].twin]
    return Inserted(picture.next_edge, tuple(crossed), start, corners[v].index(face), lowest)


def face_heights(
    picture: Picture, face_of: dict[Dart, int], targets: set[int], prices: Sequence[int | None]
) -> Heights:
    """For each face the least cost of a walk to one of the targets, where there is one."""
    heights: Heights = {}
    waiting = [(0, face) for face in targets]
    while waiting:
        height, face = heapq.heappop(waiting)
        if face in heights:
            continue
        heights[face] = height
        for dart in picture.faces[face]:
            price = price_of(picture, dart, prices)
            if price is not None:
                heapq.heappush(waiting, (height + price, face_of[dart.twin]))
    return heights


def first_tight(
    picture: Picture, face: Sequence[Dart], face_of: dict[Dart, int], heights: Heights, prices: Sequence[int | None]
) -> Dart:
    """The first dart of a face, in canonical order, behind which the rest costs as much less as the dart costs."""
    height = heights[face_of[face[0]]]
    for dart in sorted(face):
        price = price_of(picture, dart, prices)
        if price is not None and heights.get(face_of[dart.twin]) == height - price:
            return dart
    raise AssertionError("a height above 0 has a tight dart")


def shown(picture: Picture, call: Insert, route: Inserted) -> Picture:
    """The picture with the new edge along the route."""
    numbered = list(enumerate(route.crossed, picture.next_crossing))
    rows = tuple(replace(row, crossings=woven(row, numbered)) for row in picture.edges)
    rotations = list(picture.rotations)
    for vertex, position in ((call.u, route.start), (call.v, route.end)):
        rotations[vertex] = put_in(rotations[vertex], position, route.edge)
    crossings = tuple(
        Crossing(number, dart.edge, route.edge, "rtl" if dart.back else "ltr") for number, dart in numbered
    )
    row = Edge(route.edge, call.u, call.v, call.kind, tuple(number for number, _ in numbered))
    counters = (route.edge + 1, picture.next_crossing + len(numbered))
    return Picture(tuple(rotations), (*rows, row), (*picture.crossings, *crossings), *counters)


def woven(row: Edge, numbered: Sequence[tuple[int, Dart]]) -> tuple[int, ...]:
    """The path of an edge with the new crossings on each of its segments."""
    path: list[int] = []
    for segment in range(row.segments):
        path.extend(number for number, dart in numbered if (dart.edge, dart.segment) == (row.id, segment))
        path.extend(row.crossings[segment : segment + 1])
    return tuple(path)


# ---- Deletion


def delete(picture: Picture, edge: int) -> tuple[Reply, Picture]:
    row = next((row for row in picture.edges if row.id == edge), None)
    if row is None:
        return Refused(4, "NoEdge"), picture
    after = without(picture, row)
    if not is_connected(after, ()):
        cut = next(
            n for n in range(row.segments) if not is_connected(picture, {(edge, segment) for segment in range(n + 1)})
        )
        return Refused(6, "Cut", cut), picture
    return Deleted(edge), after


def without(picture: Picture, gone: Edge) -> Picture:
    """The picture without an edge and its crossings."""
    rows = [row for row in picture.edges if row.id != gone.id]
    rows = [replace(row, crossings=tuple(x for x in row.crossings if x not in gone.crossings)) for row in rows]
    rotations = [from_least([edge for edge in around if edge != gone.id]) for around in picture.rotations]
    crossings = tuple(row for row in picture.crossings if row.id not in gone.crossings)
    return Picture(tuple(rotations), tuple(rows), crossings, picture.next_edge, picture.next_crossing)


def from_least(around: list[int]) -> tuple[int, ...]:
    place = around.index(min(around)) if around else 0
    return tuple(around[place:] + around[:place])


def is_connected(picture: Picture, opened: Iterable[tuple[int, int]]) -> bool:
    """Whether all points hang together by the segments that are not opened."""
    parts = {point: point for point in picture.points}

    def part(point: Point) -> Point:
        while parts[point] != point:
            point = parts[point]
        return point

    for dart in picture.darts:
        if dart[:2] not in opened:
            parts[part(picture.start(dart))] = part(picture.end(dart))
    return len({part(point) for point in parts}) == 1
