"""Compaction: coordinates on the grid for a mesh, by longest paths and then by flows of least cost.

Each axis is taken by itself. Along the x axis the nodes that links to the north and south join have one coordinate and
are a bar; a link to the east keeps two bars apart. Where all faces are rectangles (see `meshes`), longest paths over
these links give a drawing without crossings (Tamassia 1987). That drawing is then made smaller: bars that see each
other keep their order, and of all coordinates with these orders those are taken for which the links have the least
total length. This is the dual of a flow of least cost (as in Klau and Mutzel, Optimal Compaction of Orthogonal Grid
Drawings, 1999, where the orders are given). It is done for one axis and then the other, until nothing gets shorter.
"""

from __future__ import annotations

from bisect import bisect_left, insort
from collections.abc import Collection, Iterable, Iterator, Mapping, Sequence
from heapq import heappop, heappush
from typing import NamedTuple

from .flows import Arc, least_cost_flow
from .meshes import Mesh, rectangles

#: For two bars the least distance from the first to the second.
Gaps = dict[tuple[int, int], int]
#: For two nodes of one level how far apart they stand at least, where that is more than 1.
Room = Mapping[tuple[int, int], int]
Places = list[tuple[int, int]]

#: How many times each axis is made shorter at most, and how much a side of a box counts beside other links.
ROUNDS = 4
SIDE = 3
#: The greatest number of nodes of a mesh whose axes are made shorter more than once each.
MANY = 3000


class Spacing(NamedTuple):
    """How far apart what lies side by side is at least: twice the distance is the sum of what both have in `halves`,
    node by node; but bars that the links of `near` join, as sides of boxes, need be 1 apart alone where neither has one
    of the `points`. `side` is how much a side of a box counts beside other links."""

    halves: Sequence[int]
    near: Collection[tuple[int, int]] = ()
    points: Collection[int] = ()
    side: int = SIDE


def compact_mesh(
    mesh: Mesh,
    sides: Collection[tuple[int, int]] = (),
    room: tuple[Room, Room] = ({}, {}),
    by_flow: bool = True,
    spacing: Spacing | None = None,
) -> Places:
    """A point of the grid for each node of a connected mesh, so that links meet in nodes alone and run as they should.

    `sides` are the links, as start and end to the east or north, that are sides of boxes: they count more, so that
    boxes are small. `room[axis]` says of two nodes, of which the second lies further along the axis, how far apart they
    have to be; what is not named is apart as the `spacing` says, or else at least 1. With `by_flow` False the links
    have the lengths that longest paths give them. The least coordinates are 0.
    """
    cut = rectangles(mesh)
    axes = [_first_axis(cut, axis)[: len(mesh.links)] for axis in (0, 1)]
    bars = [_bars(mesh, axis) for axis in (0, 1)]
    even = Spacing([1] * len(mesh.links))
    rounds = ROUNDS if len(mesh.links) <= MANY else 1
    if spacing is not None:
        axes = _shortened(mesh, axes, bars, sides, ({}, {}), by_flow and rounds > 1, even, 1)
        most = max(spacing.halves)
        axes = [[most * it for it in axis] for axis in axes]
    axes = _shortened(mesh, axes, bars, sides, room, by_flow, spacing or even, rounds)
    least = [min(axis) for axis in axes]
    return [(x - least[0], y - least[1]) for x, y in zip(*axes)]


def _shortened(
    mesh: Mesh,
    axes: list[list[int]],
    bars: list[list[int]],
    sides: Collection[tuple[int, int]],
    room: tuple[Room, Room],
    by_flow: bool,
    spacing: Spacing,
    rounds: int,
) -> list[list[int]]:
    """The coordinates along both axes made shorter, one axis after the other, so many times at most."""
    pulls = [_pull(mesh, axis, bars[axis], sides, spacing.side) for axis in (0, 1)]
    length = None
    for _ in range(rounds):
        for axis in (0, 1):
            gaps = _gaps_seen(bars[axis], axes[axis], axes[1 - axis], room[axis], spacing)
            axes[axis] = _shorter(pulls[axis], bars[axis], gaps, by_flow)
        before, length = length, sum(map(_length, pulls, bars, axes))
        if before is not None and length >= before:
            break
    return axes


def _bars(mesh: Mesh, axis: int) -> list[int]:
    """For each node its bar: a number that nodes have in common where links across the axis join them."""
    bar = [-1] * len(mesh.links)
    count = 0
    for first in range(len(mesh.links)):
        if bar[first] >= 0:
            continue
        waiting = [first]
        while waiting:
            node = waiting.pop()
            bar[node] = count
            around = mesh.links[node]
            waiting.extend(
                around[heading] for heading in (1 - axis, 3 - axis) if heading in around and bar[around[heading]] < 0
            )
        count += 1
    return bar


def _first_axis(cut: Mesh, axis: int) -> list[int]:
    """Coordinates along an axis of the nodes of a mesh of rectangles, by longest paths."""
    bar = _bars(cut, axis)
    gaps = {(bar[start], bar[around[axis]]): 1 for start, around in enumerate(cut.links) if axis in around}
    place = _longest(max(bar) + 1, gaps)
    return [place[it] for it in bar]


def _longest(count: int, gaps: Gaps) -> list[int]:
    """The least coordinates from 0 on with these gaps; the bars are taken in an order in which all gaps lead on."""
    following: list[list[tuple[int, int]]] = [[] for _ in range(count)]
    before = [0] * count
    for (start, end), gap in gaps.items():
        following[start].append((end, gap))
        before[end] += 1
    place = [0] * count
    ready = [bar for bar in range(count) if before[bar] == 0]
    for bar in ready:
        for end, gap in following[bar]:
            place[end] = max(place[end], place[bar] + gap)
            before[end] -= 1
            if before[end] == 0:
                ready.append(end)
    if len(ready) < count:
        raise AssertionError("the gaps go round in a circle")
    return place


def _gaps_seen(
    bar: Sequence[int], along: Sequence[int], across: Sequence[int], room: Room, spacing: Spacing
) -> Gaps:
    """The gaps between bars that see each other: on each level, a line across which bars lie, each keeps its distance
    from the next.

    A bar lies on all levels from its lowest node to its highest, and on those beside them that are nearer than what it
    has there. What keeps its order on each level cannot come to lie on another or beyond it.
    """
    base, most = min(spacing.halves), max(spacing.halves)
    place: dict[int, int] = dict(zip(bar, along))
    first: dict[int, int] = {}
    last: dict[int, int] = {}
    ranges: list[tuple[int, int, int, int]] = []
    for node, (it, level, half) in enumerate(zip(bar, across, spacing.halves)):
        first[it] = min(2 * level - base, first.get(it, 2 * level))
        last[it] = max(2 * level + base, last.get(it, 2 * level))
        if half > base:
            ranges.append((it, 2 * level - half, 2 * level + half, half + most * (node in spacing.points)))
    ranges += [(it, first[it], last[it], base) for it in place]
    for start, end in spacing.near:
        if bar[start] == bar[end] and across[start] < across[end]:
            half = max(spacing.halves[start], spacing.halves[end])
            ranges.append((bar[start], 2 * across[start] - half, 2 * across[end] + half, half))
    near = {(bar[start], bar[end]) for start, end in spacing.near}
    gaps: Gaps = {}
    for one, two, first_half, second_half in _side_by_side(place, ranges):
        is_near = max(first_half, second_half) <= most and (one, two) in near
        gap = 1 if is_near else ((first_half - 1) % most + (second_half - 1) % most + 3) // 2
        if gap > gaps.get((one, two), 0):
            gaps[one, two] = gap
    for (start, end), gap in room.items():
        pair = bar[start], bar[end]
        gaps[pair] = max(gap, gaps.get(pair, 1))
    return gaps


def _side_by_side(
    place: Mapping[int, int], ranges: Iterable[tuple[int, int, int, int]]
) -> Iterator[tuple[int, int, int, int]]:
    """Each two bars that have none between them on some level, the one before and the one behind, and what each has
    there. `ranges` has for bars the first level, the first one behind, and what the bar has between; the most counts.
    Of bars at one place each is beside those at the next."""
    events: dict[int, tuple[list[tuple[int, int]], list[tuple[int, int]]]] = {}
    for bar, start, end, half in ranges:
        events.setdefault(start, ([], []))[1].append((bar, half))
        events.setdefault(end, ([], []))[0].append((bar, half))
    there: dict[int, dict[int, list[int]]] = {}
    places: list[int] = []
    for level in sorted(events):
        ends, starts = events[level]
        changed = {place[bar] for bar, _ in ends} | {place[bar] for bar, _ in starts}
        for bar, half in ends:
            own = there[place[bar]]
            own[bar].remove(half)
            if not own[bar]:
                del own[bar]
        for bar, half in starts:
            if place[bar] not in there:
                there[place[bar]] = {}
                insort(places, place[bar])
            there[place[bar]].setdefault(bar, []).append(half)
        for at in changed:
            if not there[at]:
                del there[at]
                del places[bisect_left(places, at)]
        pairs = set()
        for at in changed:
            spot = bisect_left(places, at)
            pairs |= {(spot - 1, spot), (spot, spot + 1)} if at in there else {(spot - 1, spot)}
        for before, behind in pairs:
            if before >= 0 and behind < len(places):
                for one, its in there[places[before]].items():
                    for other, others in there[places[behind]].items():
                        yield one, other, max(its), max(others)


def _pull(mesh: Mesh, axis: int, bar: Sequence[int], sides: Collection[tuple[int, int]], side: int) -> list[int]:
    """What each bar counts in the total length: the links that end at it less those that start from it."""
    pull = [0] * (max(bar) + 1)
    for start, around in enumerate(mesh.links):
        if axis in around:
            weight = side if (start, around[axis]) in sides else 1
            pull[bar[start]] -= weight
            pull[bar[around[axis]]] += weight
    return pull


def _length(pull: Sequence[int], bar: Sequence[int], along: Sequence[int]) -> int:
    """The total length of the links along an axis, where each counts as its bars say."""
    place = dict(zip(bar, along))
    return sum(weight * place[it] for it, weight in enumerate(pull))


def _shorter(pull: Sequence[int], bar: Sequence[int], gaps: Gaps, by_flow: bool) -> list[int]:
    """Coordinates along an axis with these gaps; by flow, those with the least total length of links."""
    place = _longest(len(pull), gaps)
    if by_flow:
        place = _least_length(place, gaps, pull)
    return [place[it] for it in bar]


def _least_length(place: Sequence[int], gaps: Gaps, pull: Sequence[int]) -> list[int]:
    """The coordinates with these gaps for which the sum of `pull` times coordinate is least.

    In the dual, a bar takes as much flow as its pull says, and a gap carries flow at the cost of what is to spare in
    it. In the best coordinates the gaps that carry flow are exact. `place` are any coordinates with these gaps.
    """
    room = sum(abs(it) for it in pull)
    arcs = [Arc(start, end, room, place[end] - place[start] - gap) for (start, end), gap in gaps.items()]
    flow, potential = least_cost_flow(pull, arcs)
    tight = {(end, start): -gap for ((start, end), gap), amount in zip(gaps.items(), flow) if amount > 0}
    return _settled([it - less for it, less in zip(place, potential)], {**gaps, **tight})


def _settled(place: Sequence[int], gaps: Gaps) -> list[int]:
    """The least coordinates from 0 on with these gaps, some of which are negative and lead back. `place` are any
    coordinates with these gaps, by which each gap has something to spare: Dijkstra's."""
    following: list[list[tuple[int, int]]] = [[] for _ in place]
    for (start, end), gap in gaps.items():
        following[start].append((end, place[end] - place[start] - gap))
    spare = list(place)
    waiting = sorted((far, bar) for bar, far in enumerate(place))
    while waiting:
        far, bar = heappop(waiting)
        for end, more in following[bar] if far == spare[bar] else ():
            if far + more < spare[end]:
                spare[end] = far + more
                heappush(waiting, (far + more, end))
    return [it - far for it, far in zip(place, spare)]
