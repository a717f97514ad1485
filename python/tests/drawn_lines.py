"""What an SVG file shows, read from its text alone: the lines of its edges, where they meet, and its nodes.

Nothing here is from the package. Curves are broken into steps of equal parameter, other ones than the package takes,
and numbers are as the file has them.
"""

from __future__ import annotations

import re
from collections import Counter
from math import hypot
from typing import Dict, List, NamedTuple, Tuple
from xml.etree import ElementTree

SVG = "{http://www.w3.org/2000/svg}"
STEPS = 45
#: How near to each other, in pixels, two points are one.
NEAR = 1e-5

Place = Tuple[float, float]


class DrawnNode(NamedTuple):
    """A node: its middle, and how far it reaches to the right and down from there."""

    middle: Place
    right: float
    down: float


def numbers(text: str) -> List[float]:
    """The numbers in a part of path data, which may follow each other without a space."""
    return [float(word) for word in re.findall(r"-?(?:\d+\.?\d*|\.\d+)", text)]


def drawn_line(data: str) -> List[Place]:
    """The points of a path of the commands M, l, c, q, of which the last breaks each curve into straight lines."""
    points: List[Place] = []
    for letter, text in re.findall(r"([A-Za-z])([^A-Za-z]*)", data):
        values = numbers(text)
        if letter == "M":
            points.append((values[0], values[1]))
            continue
        width = {"l": 2, "q": 4, "c": 6}[letter]
        for start in range(0, len(values), width):
            x, y = points[-1]
            steps = zip(values[start : start + width : 2], values[start + 1 :: 2])
            ends = [(x, y), *((x + u, y + v) for u, v in steps)]
            points += [ends[1]] if letter == "l" else [on_curve(ends, step / STEPS) for step in range(1, STEPS + 1)]
    return points


def on_curve(ends: List[Place], part: float) -> Place:
    """The point of a Bezier curve at a parameter, by de Casteljau's way."""
    while len(ends) > 1:
        ends = [(x + part * (u - x), y + part * (v - y)) for (x, y), (u, v) in zip(ends, ends[1:])]
    return ends[0]


def edges_in(root: ElementTree.Element) -> List[List[Place]]:
    """The lines of all edges, in the order of the file."""
    return [drawn_line(it.get("d")) for it in root.iter(f"{SVG}path") if it.get("fill") is None]


def nodes_in(root: ElementTree.Element) -> Dict[str, DrawnNode]:
    """The nodes by their names."""
    shapes = {it.get("id"): it for it in root.find(f".//{SVG}defs")}
    uses = [(it, shapes[it.get("href")[1:]]) for it in root.iter(f"{SVG}use")]
    return {
        it.get("data-node"): DrawnNode(
            (float(it.get("x")), float(it.get("y"))),
            float(shape.get("r") or float(shape.get("width")) / 2),
            float(shape.get("r") or float(shape.get("height")) / 2),
        )
        for it, shape in uses
    }


def meetings(lines: List[List[Place]]) -> Dict[Tuple[int, int], List[Place]]:
    """For each two lines, by their places, the points that they have in common, each once; a line with itself, where it
    meets itself. Segments are taken from left to right, each with those that are not yet passed."""
    pieces = sorted(
        (min(p, q), max(p, q), line, number)
        for line, points in enumerate(lines)
        for number, (p, q) in enumerate(zip(points, points[1:]))
        if p != q
    )
    found: Dict[Tuple[int, int], List[Place]] = {}
    open_pieces: List[Tuple] = []
    for piece in pieces:
        open_pieces = [it for it in open_pieces if it[1][0] >= piece[0][0] - NEAR]
        for other in open_pieces:
            if other[2] == piece[2] and abs(other[3] - piece[3]) == 1:
                continue
            for place in common(piece[:2], other[:2]):
                places = found.setdefault((min(piece[2], other[2]), max(piece[2], other[2])), [])
                if all(hypot(place[0] - x, place[1] - y) > NEAR for x, y in places):
                    places.append(place)
        open_pieces.append(piece)
    return found


def common(first: Tuple[Place, Place], second: Tuple[Place, Place]) -> List[Place]:
    """The points that two segments have in common: none, one, or where they lie on each other the ends of that part."""
    (x, y), (u, v) = first
    (p, q), (r, s) = second
    if max(y, v) < min(q, s) - NEAR or max(q, s) < min(y, v) - NEAR:
        return []
    area = (u - x) * (s - q) - (v - y) * (r - p)
    if abs(area) <= 1e-9 * hypot(u - x, v - y) * hypot(r - p, s - q):
        return [it for it in (*first, *second) if distance(it, first) <= NEAR and distance(it, second) <= NEAR]
    along = ((p - x) * (s - q) - (q - y) * (r - p)) / area
    other = ((p - x) * (v - y) - (q - y) * (u - x)) / area
    spare, other_spare = NEAR / hypot(u - x, v - y), NEAR / hypot(r - p, s - q)
    if -spare <= along <= 1 + spare and -other_spare <= other <= 1 + other_spare:
        return [(x + along * (u - x), y + along * (v - y))]
    return []


def distance(point: Place, segment: Tuple[Place, Place]) -> float:
    """How far a point is from a segment."""
    (x, y), (u, v) = segment
    length = (u - x) ** 2 + (v - y) ** 2
    part = ((point[0] - x) * (u - x) + (point[1] - y) * (v - y)) / length if length else 0.0
    part = max(0.0, min(1.0, part))
    return hypot(x + part * (u - x) - point[0], y + part * (v - y) - point[1])


def shown_crossings(text: str, ends: List[Tuple[str, str]]) -> Counter:
    """How often each two edges cross in a file, where `ends` has the labels at the ends of each edge in the order of
    the file. What two edges have in common at a node of both is no crossing; what an edge has with itself is."""
    root = ElementTree.fromstring(text)
    lines, nodes = edges_in(root), nodes_in(root)
    found: Counter = Counter()
    for (one, other), places in meetings(lines).items():
        shared = [nodes[label] for label in {*ends[one]} & {*ends[other]}]
        for x, y in places:
            if not any(hypot(x - node.middle[0], y - node.middle[1]) <= NEAR for node in shared):
                found[frozenset((one, other))] += 1
    return found


def nodes_on_edges(text: str, ends: List[Tuple[str, str]]) -> List[Tuple[str, int]]:
    """Each node, by its label, with the place of each edge that it lies on though the edge does not end there."""
    root = ElementTree.fromstring(text)
    return [
        (label, place)
        for label, node in nodes_in(root).items()
        for place, points in enumerate(edges_in(root))
        if label not in ends[place]
        and min(distance(node.middle, segment) for segment in zip(points, points[1:])) < min(node.right, node.down)
    ]
