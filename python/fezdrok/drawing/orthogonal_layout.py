"""Orthogonal drawings of a planarization: the second and third step of the topology-shape-metrics method.

The first step, the planarization, says which edges cross and what bounds each face. `least_bends` makes a shape of it:
the right angles and the bends (see `bends`), or `shape_with_small_boxes` one of more bends whose boxes can be small
(see `doglegs`). `compact_mesh` makes coordinates of the shape (see `compaction`).
"""

from __future__ import annotations

from collections.abc import Mapping, Sequence
from dataclasses import dataclass
from typing import NamedTuple

from ..engine.graph_edges import Node
from ..engine.pictures import Picture, Point
from ..engine.results import Planarization
from .bends import Shape, least_bends
from .compaction import Places, Spacing, compact_mesh
from .doglegs import shape_with_small_boxes
from .meshes import Expansion, expand
from .shelf_packing import shelf_packing

GridPoint = tuple[int, int]

#: The greatest number of nodes of a path that is drawn without a turn.
SHORT = 40
#: Where boxes are small: how far apart points are, and lines, and how wide a box is, at least; and how much its sides
#: count beside other links.
STEP = 4
LINE = 2
LEAST_BOX = 2
SMALL = 100


class Box(NamedTuple):
    """A rectangle on the grid; a point where both its width and its height are 0."""

    left: int
    bottom: int
    right: int
    top: int

    @property
    def middle(self) -> tuple[float, float]:
        """The point in its middle."""
        return ((self.left + self.right) / 2, (self.bottom + self.top) / 2)

    @property
    def is_point(self) -> bool:
        """Whether it has no width and no height."""
        return self.left == self.right and self.bottom == self.top

    def moved(self, x: int, y: int) -> "Box":
        """The same rectangle elsewhere."""
        return Box(self.left + x, self.bottom + y, self.right + x, self.top + y)


@dataclass(frozen=True)
class OrthogonalDrawing:
    """A drawing on the grid; x runs to the east, y to the north, and the least of both is 0.

    `boxes` has the place of each node of the graph: a point, or a rectangle where it has more than four edges or was
    given a size. `crossings` has the point of each crossing id. `lines` has for each edge id the ends of its straight
    lines: from the side of its first node's box over its bends to its other node; crossings lie within those lines.
    `bends` is the number of bends that the flow came to.
    """

    boxes: dict[Node, Box]
    crossings: dict[int, GridPoint]
    lines: dict[int, tuple[GridPoint, ...]]
    bends: int

    @property
    def size(self) -> tuple[int, int]:
        """The width and the height."""
        points = [point for line in self.lines.values() for point in line]
        points += [corner for box in self.boxes.values() for corner in ((box.left, box.bottom), (box.right, box.top))]
        return max(x for x, _ in points), max(y for _, y in points)

    @property
    def length(self) -> int:
        """The total length of all edges."""
        return sum(abs(x - u) + abs(y - v) for line in self.lines.values() for (x, y), (u, v) in zip(line, line[1:]))


def orthogonal_drawing(
    result: Planarization,
    sizes: Mapping[Node, tuple[int, int]] | None = None,
    *,
    outer: int | None = None,
    by_flow: bool = True,
    node_size: str = "grow",
) -> OrthogonalDrawing:
    """An orthogonal drawing of a planarization: edges along the grid, with the fewest bends that its picture allows
    where the face at the place `outer` lies outside, and without it `result.outer_face`. The parts of a graph that is
    not connected lie side by side, each with its own outer face (ValueError where `outer` is given).

    `sizes` gives the least width and height of nodes, in steps of the grid, as for their labels; such nodes are boxes.
    With `by_flow` False the lines are as long as longest paths make them, which takes less time. A long path is a
    spiral.

    With `node_size` "grow" boxes are as large as straight edges make them. With "fixed" they are as large as their own
    size and the number of edges on their sides want, and more edges bend; seldom by more than two right angles. The
    grid is finer then: two nodes that are points are 4 steps apart, edges 2, and at the side of a box 1. Another face
    may then lie outside, unless `outer` says which.
    """
    if node_size not in ("fixed", "grow"):
        raise ValueError(f"the node size {node_size!r} is not known: it is 'fixed' or 'grow'")
    picture = result.picture
    if result.parts:
        if outer is not None:
            raise ValueError("the graph is not connected, and each part has an outer face of its own: leave outer out")
        return _side_by_side(
            result,
            [
                orthogonal_drawing(part, _sizes_in(part, sizes), by_flow=by_flow, node_size=node_size)
                for part in result.parts
            ],
            STEP if node_size == "fixed" else 1,
        )
    if not picture.edges:
        width, height = (sizes or {}).get(result.node_of[0], (0, 0))
        return OrthogonalDrawing({result.node_of[0]: Box(0, 0, width, height)}, {}, {}, 0)
    order = path_order(picture)
    if order is not None and len(order) > SHORT and not sizes:
        return _spiral(result, order, STEP if node_size == "fixed" else 1)
    wide = {Point(False, result.vertex_of[node]): size for node, size in (sizes or {}).items()}
    if node_size == "fixed":
        return _with_small_boxes(result, wide, outer, by_flow)
    shape = least_bends(picture, picture.outer_face if outer is None else outer)
    expansion = expand(shape, wide)
    places = compact_mesh(expansion.mesh, expansion.sides, _room(expansion, wide), by_flow)
    return _drawing(result, shape, expansion, places)


def _with_small_boxes(
    result: Planarization, wide: Mapping[Point, tuple[int, int]], outer: int | None, by_flow: bool
) -> OrthogonalDrawing:
    """The drawing on a finer grid whose boxes are as large as what was given and their edges want."""
    picture = result.picture
    shape = shape_with_small_boxes(picture, outer)
    boxes = [point for point in picture.points if shape.is_box(point)]
    wide = {**dict.fromkeys(boxes, (LEAST_BOX, LEAST_BOX)), **wide}
    expansion = expand(shape, wide)
    halves, near = [LINE] * len(expansion.mesh.links), set(expansion.sides)
    points = {expansion.port[picture.around(it)[0]] for it in picture.points if not (it.is_crossing or it in wide)}
    for node in points:
        halves[node] = STEP
    for north_west, south_west, south_east, north_east in expansion.corners.values():
        for corner in (north_west, south_west, south_east, north_east):
            halves[corner] = STEP
        near |= {(north_west, north_east), (south_west, south_east), (south_west, north_west), (south_east, north_east)}
    spacing = Spacing(halves, near, points, SMALL)
    places = compact_mesh(expansion.mesh, expansion.sides, _room(expansion, wide), by_flow, spacing)
    return _drawing(result, shape, expansion, places)


def path_order(picture: Picture) -> list[int] | None:
    """The vertices of a picture along it, if it is a path of at least one edge; else None."""
    degrees = list(map(len, picture.rotations))
    if not picture.edges or len(picture.edges) != len(degrees) - 1 or max(degrees) > 2 or picture.crossings:
        return None
    order, last = [degrees.index(1)], -1
    while len(order) < len(degrees):
        edge = picture.edge(next(it for it in picture.rotations[order[-1]] if it != last))
        order.append(edge.a + edge.b - order[-1])
        last = edge.id
    return order


def _spiral(result: Planarization, order: Sequence[int], step: int) -> OrthogonalDrawing:
    """A path as a spiral on the grid, from its middle out: after each two arms they are an edge longer."""
    x = y = heading = 0
    places = {order[0]: (0, 0)}
    arm, left = 1, 1
    for vertex in order[1:]:
        x, y = x + (step, 0, -step, 0)[heading], y + (0, step, 0, -step)[heading]
        places[vertex] = (x, y)
        left -= 1
        if left == 0:
            heading = (heading + 1) % 4
            arm += heading % 2 == 0
            left = arm
    least = tuple(min(place[axis] for place in places.values()) for axis in (0, 1))
    at = {vertex: (x - least[0], y - least[1]) for vertex, (x, y) in places.items()}
    boxes = {node: Box(*at[vertex], *at[vertex]) for vertex, node in enumerate(result.node_of)}
    return OrthogonalDrawing(boxes, {}, {row.id: (at[row.a], at[row.b]) for row in result.picture.edges}, 0)


def _sizes_in(part: Planarization, sizes: Mapping[Node, tuple[int, int]] | None) -> dict[Node, tuple[int, int]]:
    """The sizes that are given for nodes of a part."""
    return {node: size for node, size in (sizes or {}).items() if node in part.vertex_of}


def _side_by_side(result: Planarization, drawings: Sequence[OrthogonalDrawing], step: int) -> OrthogonalDrawing:
    """One drawing from those of the parts, which are two edges of least length apart."""
    boxes: dict[Node, Box] = {}
    crossings: dict[int, GridPoint] = {}
    lines: dict[int, tuple[GridPoint, ...]] = {}
    corners = shelf_packing([drawing.size for drawing in drawings], 2 * step)
    for drawing, (left, bottom), (_, edge, crossing) in zip(drawings, corners, result.offsets):
        x, y = int(left), int(bottom)
        boxes.update((node, box.moved(x, y)) for node, box in drawing.boxes.items())
        crossings.update((crossing + place, (u + x, v + y)) for place, (u, v) in drawing.crossings.items())
        lines.update((edge + place, tuple((u + x, v + y) for u, v in line)) for place, line in drawing.lines.items())
    return OrthogonalDrawing(boxes, crossings, lines, sum(drawing.bends for drawing in drawings))


def _room(
    expansion: Expansion, wide: Mapping[Point, tuple[int, int]]
) -> tuple[dict[tuple[int, int], int], dict[tuple[int, int], int]]:
    """How far apart the corners of the boxes have to be that were given a size, along either axis."""
    corners = {point: expansion.corners[point] for point in wide}
    return (
        {(north_west, north_east): wide[point][0] for point, (north_west, _, _, north_east) in corners.items()},
        {(south_west, north_west): wide[point][1] for point, (north_west, south_west, _, _) in corners.items()},
    )


def _drawing(result: Planarization, shape: Shape, expansion: Expansion, places: Places) -> OrthogonalDrawing:
    """The drawing whose mesh has these places."""
    picture = shape.picture
    boxes = {node: _box(picture, expansion, places, Point(False, vertex)) for vertex, node in enumerate(result.node_of)}
    crossings = {row.id: places[expansion.port[picture.around(Point(True, row.id))[0]]] for row in picture.crossings}
    lines = {edge_id: _bent([places[node] for node in chain]) for edge_id, chain in expansion.chains.items()}
    return OrthogonalDrawing(boxes, crossings, lines, shape.bend_count)


def _box(picture: Picture, expansion: Expansion, places: Places, point: Point) -> Box:
    """The place of a vertex."""
    if point in expansion.corners:
        _, south_west, _, north_east = expansion.corners[point]
        return Box(*places[south_west], *places[north_east])
    x, y = places[expansion.port[picture.around(point)[0]]]
    return Box(x, y, x, y)


def _bent(points: list[GridPoint]) -> tuple[GridPoint, ...]:
    """The points of a line without those between its ends at which it goes straight on."""
    kept = points[:1]
    for before, point, after in zip(points, points[1:], points[2:]):
        if (before[0] == point[0]) != (point[0] == after[0]):
            kept.append(point)
    return (*kept, points[-1])
