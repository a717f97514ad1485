"""What a drawing shows, without saying by what it is drawn: lines, nodes with their labels, marks, and a legend.

A scene is made from a planarization by `straight_scene` or `orthogonal_scene`; `svg` writes it as SVG, `drawing` draws
it by matplotlib. x runs to the east, y to the north; `Scene.unit` says how many pixels a step of either is.
"""

from __future__ import annotations

from collections.abc import Mapping, Sequence
from dataclasses import dataclass, replace
from math import ceil, hypot
from operator import mul
from typing import NamedTuple

from ..engine.graph_edges import Node, Price
from ..engine.pictures import Point
from ..engine.results import Planarization
from .labels import LEAST_NODE, label_in_one_line, label_of, label_size, point_width
from .orthogonal_layout import STEP, OrthogonalDrawing

Position = tuple[float, float]

#: The colour of edges that all cost the same, and those of up to six prices, the dearest first.
PLAIN = "#36618e"
COLOURS = ("#b03a2e", "#0072b2", "#d58a00", "#009e73", "#a4509b", "#5a9bd4")
#: The colour of edges that must not be crossed.
FORBIDDEN = "#222222"
#: The greatest number of nodes for which there is time to give each the room that it wants.
MANY = 600
#: How many pixels a step of the grid is at least in orthogonal drawings, and in those with arrows.
GRID_UNIT = 22.0
ARROW_UNIT = 34.0
#: The same of the finer grid on which nodes are of one size, and how far apart these are at least.
FINE_UNIT = 7.5
FINE_ARROW_UNIT = 8.5
NODE_GAP = 9.0
#: The radius of the arc of a bend, in pixels, and what part of a straight line beside it it may take.
ROUNDING = 4.0
PART = 1 / 3
#: How far the control points of a quarter of a circle are from its ends, beside its radius.
QUARTER = 0.55


class Look(NamedTuple):
    """How the edges of a kind look."""

    color: str
    width: float


@dataclass(frozen=True)
class Stroke:
    """An edge. `points` are the ends of its straight lines; where it is `curved`, they are an end and then, again and
    again, two control points of a cubic curve and its other end. `marks` says of each end of a line or a curve which
    point of the picture it is; None is a bend. `head` is the triangle of an arrow, or empty. Bends between straight
    lines are rounded with the radius `rounding`, where there is room. `label` stands beside its middle."""

    edge_id: int
    points: tuple[Position, ...]
    curved: bool
    look: Look
    marks: tuple[Point | None, ...]
    head: tuple[Position, ...] = ()
    rounding: float = 0.0
    label: str = ""


class NodeShape(NamedTuple):
    """A node: its label, with a line break between lines, its middle, and its width and height. It is drawn with round
    ends, unless it is a box. `scale` is the height of its label beside that of others, which is less where there is
    little room. `color` and `rim`, the width of its rim in pixels, are its own; None is as others are."""

    node: Node
    label: str
    middle: Position
    width: float
    height: float
    box: bool
    scale: float = 1.0
    color: str | None = None
    rim: float | None = None


@dataclass(frozen=True)
class Scene:
    """All that a drawing shows. `dots` are the marks of crossings; `legend` says what the looks of edges mean, and is
    empty where all look alike. In a file coordinates have so many `decimals`, in pixels."""

    unit: float
    strokes: tuple[Stroke, ...]
    nodes: tuple[NodeShape, ...]
    dots: tuple[Position, ...]
    legend: tuple[tuple[str, Look], ...]
    decimals: int = 1

    @property
    def bounds(self) -> tuple[float, float, float, float]:
        """The least and the greatest x and y of what is drawn: left, bottom, right, top."""
        points = [point for stroke in self.strokes for point in stroke.points]
        for node in self.nodes:
            (x, y), width, height = node.middle, node.width / 2, node.height / 2
            points += [(x - width, y - height), (x + width, y + height)]
        xs, ys = [x for x, _ in points], [y for _, y in points]
        return min(xs), min(ys), max(xs), max(ys)


# ---- How edges look


def looks(result: Planarization, color: str = PLAIN) -> tuple[list[Look], tuple[tuple[str, Look], ...]]:
    """The look of each kind, and the legend, which is empty where all edges have one price.

    Edges that must not be crossed are dark and broad. Up to six prices have colours of their own; more share a range
    of colours, and the legend has the dearest, the cheapest and some between.
    """
    prices = result.prices
    numbers = sorted({price for price in prices if price is not None}, reverse=True)
    if len(prices) == 1 and numbers:
        return [Look(color, 1.4)], ()
    of_price: dict[Price, Look] = {None: Look(FORBIDDEN, 3.0)}
    are_few, last = len(numbers) <= len(COLOURS), len(numbers) - 1
    for place, price in enumerate(numbers):
        of_price[price] = Look(COLOURS[place] if are_few else _between(place / last), 1.6)
    shown = numbers if are_few else [numbers[round(step * last / 4)] for step in range(5)]
    legend = [("not to be crossed", of_price[None])] if None in prices else []
    legend += [(f"price {price}", of_price[price]) for price in shown]
    return [of_price[price] for price in prices], tuple(legend)


def _between(part: float) -> str:
    """A colour on the way from the dearest to the cheapest."""
    first, last = (0xB0, 0x3A, 0x2E), (0x8F, 0xC1, 0xE8)
    return "#" + "".join(f"{round(start + part * (end - start)):02x}" for start, end in zip(first, last))


# ---- Orthogonal drawings


def grid_of(
    result: Planarization, names: Mapping[Node, str], is_fixed: bool
) -> tuple[float, dict[Node, tuple[int, int]]]:
    """How many pixels a step of the grid is, and the width and height in steps for the nodes whose labels are too long
    for a point of the grid, or have more lines than one. Of more than MANY nodes all are points, unless they have more
    than four edges, and the grid is so wide that the labels fit."""
    is_directed, are_many = result.graph.is_directed(), len(result.node_of) > MANY
    shown = {node: label_of(name) for node, name in names.items()}
    step = STEP * (FINE_ARROW_UNIT if is_directed else FINE_UNIT)
    most = step - NODE_GAP if is_fixed else 0.93 * GRID_UNIT
    large = {node for node, it in shown.items() if not are_many and ("\n" in it or point_width(it) > most)}
    dense = {node for node, at in result.vertex_of.items() if len(result.picture.rotations[at]) > 4}
    widths = [point_width(label_in_one_line(it)) for node, it in shown.items() if node not in large | dense]
    widest = max(widths, default=LEAST_NODE)
    if not is_fixed:
        unit = (ARROW_UNIT if is_directed else GRID_UNIT) + 2.0 * ceil((widest - LEAST_NODE) / 2)
        return unit, {node: _in_steps(label_size(shown[node]), 4.0, GRID_UNIT, 1) for node in large}
    unit = max(step, 2.0 * ceil((widest + NODE_GAP) / 2)) / STEP
    sizes = {node: label_size(it) if node in large else (point_width(it), LEAST_NODE) for node, it in shown.items()}
    return unit, {node: _in_steps(sizes[node], 0.0, unit, 2) for node in large | dense}


def _in_steps(size: tuple[float, float], more: float, unit: float, least: int) -> tuple[int, int]:
    """A width and a height in pixels, and more, as steps of a grid: at least so many across, and two up."""
    width, height = (ceil((extent + more) / unit) for extent in size)
    return max(least, width), max(2, height)


def orthogonal_scene(
    result: Planarization, drawing: OrthogonalDrawing, unit: float, names: Mapping[Node, str], color: str = PLAIN
) -> Scene:
    """The scene of an orthogonal drawing, where a step of the grid is so many pixels. Crossings have no mark: two lines
    cross at right angles."""
    kinds, legend = looks(result, color)
    nodes = []
    for node, box in drawing.boxes.items():
        label = label_in_one_line(names[node]) if box.is_point else label_of(names[node])
        width, height = float(box.right - box.left), float(box.top - box.bottom)
        if box.is_point:
            width, height = point_width(label) / unit, LEAST_NODE / unit
        nodes.append(NodeShape(node, label, box.middle, width, height, not box.is_point))
    strokes = []
    for edge_id, line in drawing.lines.items():
        row = result.picture.edge(edge_id)
        crossings = [(Point(True, it), drawing.crossings[it]) for it in row.crossings]
        points, marks = _with_crossings(line, crossings)
        marks = (Point(False, row.a), *marks[1:-1], Point(False, row.b))
        strokes.append(Stroke(edge_id, points, False, kinds[row.kind], marks, (), ROUNDING / unit))
    return with_arrows(result, Scene(unit, tuple(strokes), tuple(nodes), (), legend, 2))


def _with_crossings(
    line: Sequence[Position], crossings: Sequence[tuple[Point, Position]]
) -> tuple[tuple[Position, ...], tuple[Point | None, ...]]:
    """The points of a line along the grid with the crossings on it, which are given in their order; and for each point
    the crossing that it is."""
    points: list[Position] = [line[0]]
    marks: list[Point | None] = [None]
    left = list(crossings)
    for (x, y), end in zip(line, line[1:]):
        across, up = sorted((x, end[0])), sorted((y, end[1]))
        while left and across[0] <= left[0][1][0] <= across[1] and up[0] <= left[0][1][1] <= up[1]:
            mark, place = left.pop(0)
            points.append(place)
            marks.append(mark)
        points.append(end)
        marks.append(None)
    return tuple(points), tuple(marks)


# ---- Lines and curves in pieces


def pieces_of(stroke: Stroke) -> tuple[list[tuple[Position, ...]], tuple[Point | None, ...]]:
    """A stroke in straight lines, of two points each, and cubic curves, of four; and what the ends of these are of the
    picture. Bends that are rounded are curves."""
    points, step = stroke.points, 3 if stroke.curved else 1
    pieces = [points[start : start + step + 1] for start in range(0, len(points) - 1, step)]
    if stroke.curved or not stroke.rounding:
        return pieces, stroke.marks
    found: list[tuple[Position, ...]] = []
    marks, start = [stroke.marks[0]], points[0]
    for before, bend, end, mark in zip(points, points[1:], points[2:], stroke.marks[1:]):
        arc = _rounded(before, bend, end, stroke.rounding) if mark is None else (bend,)
        found.append((start, arc[0]))
        if len(arc) > 1:
            found.append(arc)
            marks.append(None)
        marks.append(mark)
        start = arc[-1]
    return [*found, (start, points[-1])], (*marks, stroke.marks[-1])


def _rounded(before: Position, bend: Position, end: Position, radius: float) -> tuple[Position, ...]:
    """The arc in the place of a bend between two straight lines, as a cubic curve."""
    (x, y), (u, v), (r, s) = bend, toward(bend, before), toward(bend, end)
    radius = min(radius, PART * hypot(before[0] - x, before[1] - y), PART * hypot(end[0] - x, end[1] - y))
    ways = ((u, v, 1.0), (u, v, 1.0 - QUARTER), (r, s, 1.0 - QUARTER), (r, s, 1.0))
    return tuple((x + part * radius * across, y + part * radius * up) for across, up, part in ways)


def flat(stroke: Stroke, steps: int = 16) -> list[Position]:
    """The points of a stroke as a chain of short straight lines, for what knows no curves."""
    points = [stroke.points[0]]
    for piece in pieces_of(stroke)[0]:
        points += piece[1:] if len(piece) == 2 else stepped(piece, steps)
    return points


def stepped(piece: Sequence[Position], steps: int) -> list[Position]:
    """The points of a cubic curve at the ends of so many equal steps of its parameter."""
    points = []
    for part in (step / steps for step in range(1, steps + 1)):
        weights = ((1 - part) ** 3, 3 * part * (1 - part) ** 2, 3 * part**2 * (1 - part), part**3)
        x, y = (sum(map(mul, weights, values)) for values in zip(*piece))
        points.append((x, y))
    return points


def longest_piece(stroke: Stroke) -> tuple[Position, ...]:
    """The straight line or the curve of a stroke whose ends are farthest apart."""
    return max(pieces_of(stroke)[0], key=lambda piece: hypot(piece[-1][0] - piece[0][0], piece[-1][1] - piece[0][1]))


def middle_of(stroke: Stroke) -> Position:
    """The middle of the longest piece of a stroke, where its label stands."""
    longest = longest_piece(stroke)
    if len(longest) == 2:
        return (longest[0][0] + longest[1][0]) / 2, (longest[0][1] + longest[1][1]) / 2
    (x, y), (u, v), (p, q), (r, s) = longest
    return (x + 3 * u + 3 * p + r) / 8, (y + 3 * v + 3 * q + s) / 8


def toward(start: Position, end: Position) -> Position:
    """The direction from one point to another as a vector of length 1, or of length 0 where they are one."""
    length = hypot(end[0] - start[0], end[1] - start[1])
    return ((end[0] - start[0]) / length, (end[1] - start[1]) / length) if length > 1e-12 else (0.0, 0.0)


# ---- Arrows


def with_arrows(result: Planarization, scene: Scene) -> Scene:
    """The scene, where the graph is directed with an arrow on each edge, at the node that it leads to, which has none
    yet."""
    if not result.graph.is_directed():
        return scene
    shape_of = {shape.node: shape for shape in scene.nodes}
    strokes = []
    for stroke in scene.strokes:
        if stroke.head:
            strokes.append(stroke)
            continue
        source, target = result.edge_of[stroke.edge_id][:2]
        line = flat(stroke)
        if result.node_of[result.picture.edge(stroke.edge_id).a] != source:
            line.reverse()
        strokes.append(replace(stroke, head=_head(line, shape_of[target], scene.unit)))
    return replace(scene, strokes=tuple(strokes))


def _head(line: Sequence[Position], node: NodeShape, unit: float) -> tuple[Position, ...]:
    """The triangle of an arrow whose tip is where a line comes to the rim of the node at its end."""
    place = len(line) - 1
    while place > 1 and _is_in(node, line[place - 1]):
        place -= 1
    outside, inside = line[place - 1], line[place]
    for _ in range(30):
        middle = ((outside[0] + inside[0]) / 2, (outside[1] + inside[1]) / 2)
        outside, inside = (outside, middle) if _is_in(node, middle) else (middle, inside)
    x, y = toward(line[place - 1], line[place])
    length, half = 7.0 / unit, 2.6 / unit
    back = (outside[0] - length * x, outside[1] - length * y)
    return outside, (back[0] - half * y, back[1] + half * x), (back[0] + half * y, back[1] - half * x)


def _is_in(node: NodeShape, point: Position) -> bool:
    """Whether a point lies in a node: a box, or a bar with round ends."""
    x, y = abs(point[0] - node.middle[0]), abs(point[1] - node.middle[1])
    if node.box:
        return x <= node.width / 2 and y <= node.height / 2
    return hypot(max(0.0, x - (node.width - node.height) / 2), y) <= node.height / 2
