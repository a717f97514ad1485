"""Crossings as bridges, by what is drawn over the edges: the edge that was there first has a gap where the newcomer
passes over it; in orthogonal drawings the newcomer leads over it in a small arc.

The edges themselves stay as they are, so that what is judged of a drawing is what stands in its file.
"""

from __future__ import annotations

from collections.abc import Sequence
from dataclasses import replace
from math import cos, dist, hypot, pi, sin
from typing import NamedTuple

from ..engine.pictures import Point
from ..engine.results import Planarization
from .scenes import Look, Position, Scene, Stroke, flat, toward

#: How far from its middle a bridge reaches, and how much of the edge below it is seen beside it, in pixels.
REACH = 5.0
SEEN = 1.5
#: The radius of an arc in pixels, and of how many lines it is made.
RADIUS = 4.0
ARC_STEPS = 4
#: Into how many lines a curve between two crossings is broken, and what part of it a bridge may take at most.
STEPS = 32
PART = 0.45


class Bridge(NamedTuple):
    """A bridge: what is covered by the background, and how wide; then what is drawn again of the edge that was there
    first, if anything, and of the newcomer; with the looks of both edges."""

    gap: tuple[Position, ...]
    gap_width: float
    below: tuple[Position, ...]
    below_look: Look
    above: tuple[Position, ...]
    above_look: Look


def bridges(result: Planarization, scene: Scene, are_arcs: bool) -> list[Bridge]:
    """A bridge for each crossing: gaps, or arcs where the edges run along a grid."""
    stroke_of = {stroke.edge_id: stroke for stroke in scene.strokes}
    found = []
    for row in result.picture.crossings:
        first, newcomer = stroke_of[row.crossed], stroke_of[row.newcomer]
        mark = Point(True, row.id)
        width = newcomer.look.width + 2 * SEEN
        above: tuple[Position, ...]
        below: tuple[Position, ...] = ()
        if are_arcs:
            start, middle, end = _around(newcomer, mark, RADIUS / scene.unit)
            below = _around(first, mark, (width / 2 + 0.5) / scene.unit)
            above = _arc(start, middle, end)
        else:
            above = start, _, end = _around(newcomer, mark, REACH / scene.unit)
        found.append(Bridge((start, end), width, below, first.look, above, newcomer.look))
    return found


def _around(stroke: Stroke, mark: Point, reach: float) -> tuple[Position, Position, Position]:
    """Three points along an edge: before a crossing, the crossing, and behind it."""
    place, step = stroke.marks.index(mark), 3 if stroke.curved else 1
    beside = replace(stroke, points=stroke.points[step * (place - 1) : step * (place + 1) + 1], rounding=0.0)
    line = flat(beside, STEPS)
    middle = len(line) // 2
    return _along(line[middle::-1], reach), line[middle], _along(line[middle:], reach)


def _along(line: Sequence[Position], reach: float) -> Position:
    """The point so far along a chain of lines, or at that part of it which a bridge may take."""
    lengths = [hypot(u - x, v - y) for (x, y), (u, v) in zip(line, line[1:])]
    left = min(reach, PART * sum(lengths))
    for (x, y), (u, v), length in zip(line, line[1:], lengths):
        if left <= length and length:
            return x + left / length * (u - x), y + left / length * (v - y)
        left -= length
    return line[-1]


def _arc(start: Position, middle: Position, end: Position) -> tuple[Position, ...]:
    """A half circle over a point of a straight line between two points about as far from it, on its upper or left
    side."""
    (x, y), (u, v), radius = middle, toward(start, end), min(dist(start, middle), dist(middle, end))
    across, up = (-v, u) if max(u, v) > 0.5 else (v, -u)
    arc = []
    for step in range(ARC_STEPS + 1):
        along, high = -radius * cos(pi * step / ARC_STEPS), radius * sin(pi * step / ARC_STEPS)
        arc.append((x + along * u + high * across, y + along * v + high * up))
    return tuple(arc)
