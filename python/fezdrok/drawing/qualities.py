"""How well a drawing can be read, in numbers: angles, turns, bends, lengths and sizes, as they stand in the file."""

from __future__ import annotations

from collections.abc import Iterable, Sequence
from dataclasses import dataclass, replace
from math import atan2, degrees, dist, pi
from statistics import fmean, median

from ..engine.pictures import Point
from .drawings import Drawing
from .pages import Page, PageLine, PagePoint
from .scenes import Position, stepped

#: A direction on the page.
Way = tuple[float, float]

#: What angles are small, in degrees, and what turns are large.
SMALL_ANGLE = 8.0
LARGE_TURN = 180.0
#: Below how many degrees a change of direction is no bend.
STRAIGHT = 1.0
#: How far, in pixels, a curve may be from the straight lines by which it is measured, and how many these are at most.
TOLERANCE = 0.02
MOST_STEPS = 64


@dataclass(frozen=True)
class Quality:
    """How well a drawing can be read. Angles are in degrees, lengths in pixels.

    `node_angle` is the least angle between two edges that leave a node at one point, one after the other, and
    `crossing_angle` that at which two edges cross, at most 90; None where there is none. `small_angles` is the share of
    all these angles that are below 8 degrees. An edge turns by all its changes of direction together: `greatest_turn`
    and `mean_turn` are over all edges, and `turning_edges` is the share of those that turn by more than 180 degrees.
    `bends` is how many corners all edges have together, `node_share` how much of the page nodes cover, `length_ratio`
    how long the longest edge is beside the median, and `area` that of the page.
    """

    node_angle: float | None
    crossing_angle: float | None
    small_angles: float
    greatest_turn: float
    mean_turn: float
    turning_edges: float
    bends: int
    node_share: float
    length_ratio: float
    area: float


def quality(drawing: Drawing) -> Quality:
    """Measure how well a drawing can be read.

    Parameters
    ----------
    drawing : Drawing
        As `drawing_of` gives it.

    Returns
    -------
    Quality

    Examples
    --------
    >>> import networkx as nx
    >>> from fezdrok import drawing_of, planarize, quality
    >>> found = quality(drawing_of(planarize(nx.complete_graph(5)), style="orthogonal"))
    >>> found.node_angle, found.crossing_angle, found.greatest_turn
    (90.0, 90.0, 270.0)
    """
    page = Page(drawing.scene)
    at_nodes, at_crossings = _angles(page.lines)
    angles = [*at_nodes, *at_crossings]
    chains = [_chain(line, page.steps) for line in page.lines]
    turns = [round(sum(_turns(chain)), 6) for chain in chains] or [0.0]
    lengths = [sum(map(dist, chain, chain[1:])) / page.steps for chain in chains] or [1.0]
    width, height = page.size
    covered = sum(
        pi * node.right * node.right if node.is_round else 4 * node.right * node.down for node in page.nodes
    )
    return Quality(
        min(at_nodes, default=None),
        min(at_crossings, default=None),
        _share(angle < SMALL_ANGLE for angle in angles),
        max(turns),
        fmean(turns),
        _share(turn > LARGE_TURN for turn in turns),
        sum(_bends(page.line(replace(stroke, rounding=0.0))) for stroke in drawing.scene.strokes),
        covered / (width * height),
        max(lengths) / (median(lengths) or 1.0),
        width * height / page.steps**2,
    )


def _share(are: Iterable[bool]) -> float:
    """How many of all are so; 0 where there are none."""
    found = list(are)
    return sum(found) / len(found) if found else 0.0


# ---- Angles


def _angles(lines: Iterable[PageLine]) -> tuple[list[float], list[float]]:
    """The angles between edges that follow each other round a point: at nodes, and at crossings."""
    ways: dict[tuple[Point, PagePoint], list[Way]] = {}
    for line in lines:
        for piece, start, end in zip(line.pieces, line.marks, line.marks[1:]):
            for mark, points in ((start, piece), (end, piece[::-1])):
                if mark is not None:
                    ways.setdefault((mark, points[0]), []).append(_way(points))
    at_nodes: list[float] = []
    at_crossings: list[float] = []
    for (mark, _), around in ways.items():
        if mark.is_crossing:
            at_crossings.append(min(_between(around)))
        elif len(around) > 1:
            at_nodes += _between(around)
    return at_nodes, at_crossings


def _way(points: Sequence[PagePoint]) -> Way:
    """The direction in which a piece begins."""
    x, y = points[0]
    return next(((u - x, v - y) for u, v in points if (u, v) != (x, y)), (0, 0))


def _between(ways: Sequence[Way]) -> list[float]:
    """The angles from each direction to the next, once round."""
    around = sorted(degrees(atan2(y, x)) for x, y in ways)
    return [following - angle for angle, following in zip(around, [*around[1:], around[0] + 360])]


# ---- Turns and bends


def _chain(line: PageLine, steps: int) -> list[Position]:
    """The points of an edge as a chain of straight lines. A curve has 1, 2, 4, .. 64 of them at equal steps, by which
    its turns are measured more closely than by the few that would be near enough to it."""
    tolerance = max(1, int(TOLERANCE * steps))
    points: list[Position] = [line.pieces[0][0]]
    for piece in line.pieces:
        points += piece[1:] if len(piece) == 2 else stepped(piece, _steps(piece, tolerance))
    return [point for place, point in enumerate(points) if place == 0 or point != points[place - 1]]


def _steps(piece: Sequence[PagePoint], tolerance: int) -> int:
    """At how many equal steps a curve is nearer to its chords than the tolerance, in units of the page (Wang, The
    Subdivision Method for Finding the Intersection Between Two Bezier Curves, 1984, has the bound)."""
    bend = max(abs(a - 2 * b + c) for its in zip(*piece) for a, b, c in zip(its, its[1:], its[2:]))
    steps = 1
    while steps < MOST_STEPS and steps * steps * tolerance < bend:
        steps *= 2
    return steps


def _turns(chain: Sequence[Position]) -> list[float]:
    """By how many degrees a chain turns at each of its points."""
    ways = [(u - x, v - y) for (x, y), (u, v) in zip(chain, chain[1:])]
    return [_turn(one, other) for one, other in zip(ways, ways[1:])]


def _turn(one: Way, other: Way) -> float:
    """The angle from a direction to another, whichever way round."""
    (x, y), (u, v) = one, other
    return degrees(abs(atan2(x * v - y * u, x * u + y * v)))


def _bends(line: PageLine) -> int:
    """How many corners an edge has between its pieces."""
    ends = [(_way(piece[::-1]), _way(following)) for piece, following in zip(line.pieces, line.pieces[1:])]
    return sum(_turn((-x, -y), way) > STRAIGHT for (x, y), way in ends)
