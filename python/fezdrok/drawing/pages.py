"""Scenes on a page: whole numbers for all that is drawn, as they stand in the file.

A page counts in units of a tenth, a hundredth or a thousandth of a pixel, from its upper left corner to the right and
down. Each place of a scene has one point of the page, whatever else is drawn, so that lines which meet in the scene
meet on the page.
"""

from __future__ import annotations

from dataclasses import dataclass
from math import floor
from typing import NamedTuple

from ..engine.graph_edges import Node
from ..engine.pictures import Point
from .giving_way import go_on
from .scenes import NodeShape, Position, Scene, Stroke, pieces_of

PagePoint = tuple[int, int]

#: The width of the margin, in pixels.
MARGIN = 10
#: How much larger the points of broken curves are, so that they are whole numbers: six cuts in halves lose nothing.
FINE = 64**3
#: How often a curve is cut in halves at most. With a tenth of a pixel as the tolerance it is enough for all whose way
#: over their control points is no longer than a hundred thousand pixels.
MOST_CUTS = 10


class PageNode(NamedTuple):
    """A node on the page: its middle, and how far its shape reaches to the right and down from there."""

    node: Node
    middle: PagePoint
    right: int
    down: int
    is_round: bool


@dataclass(frozen=True)
class PageLine:
    """An edge on the page. Its pieces are straight lines, of two points each, or cubic curves, of four; the last point
    of a piece is the first of the next. `marks` says for the ends of the pieces which points of the picture they are;
    None is a bend."""

    edge_id: int
    pieces: tuple[tuple[PagePoint, ...], ...]
    marks: tuple[Point | None, ...]


class Page:
    """A scene on a page. `steps` is how many units of the page a pixel has, `corner` its upper left corner, and `size`
    its width and height. Where it goes on from a page with the same unit and decimals, that one's corner is where it
    was, and strokes and nodes that are in both scenes have the same lines and nodes on both pages."""

    def __init__(self, scene: Scene, before: "Page | None" = None):
        self.scene = scene
        self.steps = 10**scene.decimals
        left, bottom, right, top = scene.bounds
        self._factor = scene.unit * self.steps
        margin = MARGIN * self.steps
        west, north = floor(left * self._factor) - margin, floor(-top * self._factor) - margin
        self._left: int = west if before is None else before._left
        self._top: int = north if before is None else before._top
        self.corner = west - self._left, north - self._top
        east, south = self.at((right, bottom))
        self.size = east + margin - self.corner[0], south + margin - self.corner[1]
        lines: dict[int, PageLine] = {}
        nodes: dict[int, PageNode] = {}
        if before is not None:
            lines = {id(stroke): line for stroke, line in zip(before.scene.strokes, before.lines)}
            nodes = {id(shape): node for shape, node in zip(before.scene.nodes, before.nodes)}
        self.lines: list[PageLine] = [lines.get(id(stroke)) or self.line(stroke) for stroke in scene.strokes]
        self.nodes: list[PageNode] = [nodes.get(id(shape)) or self._node(shape) for shape in scene.nodes]

    def _node(self, shape: NodeShape) -> PageNode:
        return PageNode(
            shape.node,
            self.at(shape.middle),
            floor(shape.width * self._factor / 2 + 1e-6),
            floor(shape.height * self._factor / 2 + 1e-6),
            not shape.box and abs(shape.width - shape.height) * self._factor < 0.1,
        )

    def at(self, place: Position) -> PagePoint:
        """The point of the page for a place of the scene."""
        x, y = place
        return round(x * self._factor) - self._left, -round(y * self._factor) - self._top

    def line(self, stroke: Stroke) -> PageLine:
        """A stroke as it would stand on this page."""
        go_on()
        pieces, marks = pieces_of(stroke)
        return PageLine(stroke.edge_id, tuple(tuple(map(self.at, piece)) for piece in pieces), marks)


def flattened(piece: tuple[PagePoint, ...], tolerance: int) -> list[PagePoint]:
    """The points of a piece as a renderer breaks it into straight lines, FINE times as large, and so whole numbers.

    A curve is cut in the middle of its parameter (de Casteljau's construction), and so are its halves, until each is at
    most the `tolerance` from its chord, in units of the page, or MOST_CUTS cuts led to it. A point of a curve is a mean
    of its ends and its control points, in which these weigh three quarters at most (Bernstein's polynomials), and
    distances from a chord are convex. So a curve is at most three quarters as far from its chord as one of its control
    points, also where it runs back, or ends where it began.
    """
    start, one, two, end = (complex(*piece[place]) for place in (0, 1, -2, -1))
    points, left, far = [start], [(MOST_CUTS, one, two, end)], 4 / 3 * tolerance
    while left:
        cuts, one, two, end = left.pop()
        start = points[-1]
        chord = end - start
        if not cuts or _is_near(one - start, chord, far) and _is_near(two - start, chord, far):
            points.append(end)
            continue
        first, middle, last = (start + one) / 2, (one + two) / 2, (two + end) / 2
        before, after = (first + middle) / 2, (middle + last) / 2
        left += (cuts - 1, after, last, end), (cuts - 1, first, before, (before + after) / 2)
    return [(round(point.real * FINE), round(point.imag * FINE)) for point in points]


def _is_near(point: complex, end: complex, far: float) -> bool:
    """Whether a point is at most so far from the straight line from 0 to an end."""
    turned, length = point * end.conjugate(), abs(end)
    if 0 < turned.real < length * length:
        return abs(turned.imag) <= far * length
    return min(abs(point), abs(point - end)) <= far
