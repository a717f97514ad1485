"""Whether a drawing is true: its lines meet where the picture has crossings and nodes, and nowhere else.

What is judged is the page as it stands in the file, with all curves broken into straight lines as renderers do. All
numbers are whole, so nothing is rounded in any test. Lines that could meet are found by a grid (see `segment_grid`).
"""

from __future__ import annotations

from collections import Counter
from collections.abc import Collection, Container, Iterable, Iterator, Mapping, Sequence
from copy import copy
from typing import NamedTuple

from ..engine.pictures import Dart, Point
from ..engine.results import Planarization
from .giving_way import go_on
from .pages import FINE, Page, PageLine, PageNode, PagePoint, flattened
from .segment_grid import SegmentGrid

#: An edge id and the place of a piece along the edge.
Piece = tuple[int, int]
#: How far, in pixels, a curve may be from the straight lines that stand for it.
TOLERANCE = 0.1
#: The least x and y, and the greatest.
Extent = tuple[int, int, int, int]


class Defect(NamedTuple):
    """What is false in a drawing. `words` say what, `place` is where, in pixels from the upper left corner of the page,
    and `pieces` are the pieces of the edges that are at fault, each as an edge id and a place along the edge."""

    words: str
    place: tuple[float, float]
    pieces: tuple[Piece, ...] = ()

    def __str__(self) -> str:
        return f"{self.words} at {self.place[0]:.1f}, {self.place[1]:.1f}"


class _Straight(NamedTuple):
    """A straight line of the page: its ends, FINE times as large; its piece, the place of the line along its edge, and
    what of the picture its ends are."""

    x: int
    y: int
    u: int
    v: int
    piece: Piece
    number: int
    start: Point | None
    end: Point | None


def defects(result: Planarization, page: Page) -> list[Defect]:
    """All that is false on a page that shows a planarization; empty where it is true."""
    return Judge(result, page).defects()


class Judge:
    """A page with all its straight lines, and how the darts of the picture leave their points. Edges can be drawn
    otherwise, and are then judged beside all that stays. `extents` are the least x and y of each line, and the
    greatest; `judged` counts the lines that were judged. The pieces of `yielding` are drawn otherwise if anything is
    told of them: then no more is."""

    def __init__(self, result: Planarization, page: Page):
        self.result, self.page, self.picture = result, page, result.picture
        self.lines: dict[int, _Straight] = {}
        self.extents: dict[int, Extent] = {}
        self.judged = self._next = 0
        self.drawn: dict[int, PageLine] = {}
        self.places_of: dict[int, range] = {}
        self.found: list[Defect] = []
        self.yielding: set[Piece] = set()
        self.wrong: set[Piece] = set()  # of those, what was told of
        self.leaving: dict[Dart, tuple[PagePoint, PagePoint, Piece]] = {}
        self.tangents: dict[Dart, PagePoint] = {}
        self.degree: Counter[Point | None] = Counter()
        self.shapes = {result.vertex_of[node.node]: _Shape(node) for node in page.nodes}
        for line in page.lines:
            self._add(line)
        self.grid = SegmentGrid([*self.lines.values()])
        self.boxes = SegmentGrid.of_rectangles([self.shapes[vertex].bounds for vertex in range(len(self.shapes))])

    def defects(self) -> list[Defect]:
        """What is false."""
        self.judged += len(self.lines)
        hubs = {place: self._hub(line) for place, line in self.lines.items()}
        for places in self.grid.squares.values():
            go_on()
            if self.wrong:
                places = [place for place in places if self.lines[place].piece not in self.wrong]
            for one, other in _pairs(places, hubs, self.extents):
                self._judge_pair(one, other)
        self._judge_orders(self.picture.points)
        self._judge_shapes(self.shapes)
        return self._told()

    def drawn_otherwise(self, lines: Sequence[PageLine], pieces: Container[Piece]) -> list[Defect]:
        """What is false about these pieces where the edges are drawn like this from now on. No other piece of these
        edges may be drawn otherwise; what is false among others alone is not told again."""
        judged = []
        self._take_out([drawn.edge_id for drawn in lines])
        for drawn in lines:
            for place in self._add(drawn):
                if self.lines[place].piece in pieces:
                    judged.append(place)
                else:
                    self.grid.add(place, self.lines[place])
        self._judge_lines(judged, {drawn.edge_id for drawn in lines})
        return self._told()

    def beside(self, result: Planarization, page: Page) -> tuple["Judge", list[Defect]]:
        """The judge of a page that goes on from this one, and what is false there if nothing is here. What is one
        object on both pages stands where it stood: it was judged, and is true. So each line and each node that is not
        one is judged beside all that are there, and then the whole is true: what can be false is false about a line or
        a node, about two of them, or about the order in which edges pass a point, which are fresh where it changed."""
        judge = copy(self)
        judge.result, judge.page, judge.picture, judge.judged = result, page, result.picture, 0
        judge.found, judge.yielding, judge.wrong = [], set(), set()
        for name in ("lines", "extents", "drawn", "places_of", "leaving", "tangents", "degree", "shapes"):
            setattr(judge, name, getattr(self, name).copy())
        judge.grid, judge.boxes = self.grid.copy(), self.boxes.copy()
        there = {line.edge_id: line for line in page.lines}
        judge._take_out([edge_id for edge_id, line in self.drawn.items() if there.get(edge_id) is not line])
        fresh = [line for line in page.lines if line.edge_id not in judge.drawn]
        judged = [place for line in fresh for place in judge._add(line)]
        nodes = judge._put_nodes(page)
        judge._judge_lines(judged, {line.edge_id for line in fresh})
        judge._judge_shapes(nodes)
        return judge, judge._told()

    def has(self, vertex: int, node: PageNode) -> bool:
        """Whether a vertex is drawn as this object."""
        return vertex in self.shapes and self.shapes[vertex].page_node is node

    def _put_nodes(self, page: Page) -> set[int]:
        """Puts the shapes of all nodes of a page in the place of those that are there; the vertices of those that are
        not the same objects."""
        there = {self.result.vertex_of[node.node]: node for node in page.nodes}
        gone = {vertex for vertex, it in self.shapes.items() if there.get(vertex) is not it.page_node}
        for vertex in gone:
            self.boxes.remove(vertex, self.boxes.covered(*self.shapes.pop(vertex).bounds))
        fresh = there.keys() - self.shapes.keys()
        for vertex in fresh:
            shape = self.shapes[vertex] = _Shape(there[vertex])
            for square in self.boxes.covered(*shape.bounds):
                self.boxes.squares.setdefault(square, []).append(vertex)
        return fresh

    def _judge_lines(self, judged: Sequence[int], edge_ids: Iterable[int]) -> None:
        """These lines, which come into the grid, beside all lines and nodes, and how these edges pass their points."""
        for place in judged:
            squares = [self.grid.squares.setdefault(square, []) for square in self.grid.passed(self.lines[place])]
            if self.lines[place].piece not in self.wrong:  # or else it is drawn otherwise, and then judged
                self.judged += 1
                self._judge_line(place, squares)
            for others in squares:
                others.append(place)
        points = {point for edge_id in edge_ids for point in self.picture.path(edge_id)}
        self._judge_orders(points)
        for point in points:
            if not point.is_crossing:
                self._judge_ends(point)
        for place in judged:
            line = self.lines[place]
            for vertex in self.boxes.along(line) if line.piece not in self.wrong else ():
                self._judge_shape(vertex, place)

    def _told(self) -> list[Defect]:
        """What was found, each defect once."""
        merged: dict[tuple[str, tuple[float, float]], dict[Piece, None]] = {}
        for words, place, pieces in self.found:
            merged.setdefault((words, place), {}).update(dict.fromkeys(pieces))
        self.found, self.wrong = [], set()
        return [Defect(words, place, tuple(pieces)) for (words, place), pieces in merged.items()]

    def _tell(self, words: str, place: PagePoint, *pieces: Piece) -> None:
        unit = FINE * self.page.steps
        self.wrong.update(self.yielding.intersection(pieces))
        self.found.append(Defect(words, (place[0] / unit, place[1] / unit), pieces))

    def _name(self, edge_id: int) -> str:
        return f"the edge {self.result.edge_of[edge_id]!r}"

    # ---- The lines of the edges

    def _add(self, line: PageLine) -> range:
        """The straight lines of an edge, and their places. It has to pass the points of its path in their order."""
        go_on()
        path = self.picture.path(line.edge_id)
        if tuple(mark for mark in line.marks if mark is not None) != path:
            self._tell(f"{self._name(line.edge_id)} does not pass its crossings in their order", (0, 0))
        number = segment = 0
        first = self._next
        self.drawn[line.edge_id] = line
        tolerance = max(1, int(TOLERANCE * self.page.steps))
        for place, piece in enumerate(line.pieces):
            own = (line.edge_id, place)
            points = _distinct(flattened(piece, tolerance))
            marks = (line.marks[place], line.marks[place + 1])
            if len(points) < 2:
                self._tell(f"a part of {self._name(line.edge_id)} has no length", points[0], own)
                continue
            for mark, point, beside, tangent, dart in (
                (marks[0], points[0], points[1], _tangent(piece), Dart(line.edge_id, segment)),
                (marks[1], points[-1], points[-2], _tangent(piece[::-1]), Dart(line.edge_id, segment, True)),
            ):
                if mark is not None:
                    self.leaving[dart], self.tangents[dart] = (point, beside, own), tangent
                    self.degree[mark] += 1
            last = len(points) - 2
            for step, (start, end) in enumerate(zip(points, points[1:])):
                ends = (marks[0] if step == 0 else None, marks[1] if step == last else None)
                self.lines[self._next] = _Straight(*start, *end, own, number, *ends)
                (x, y), (u, v) = start, end
                self.extents[self._next] = (x if x < u else u, y if y < v else v, u if x < u else x, v if y < v else y)
                self._next += 1
                number += 1
            segment += marks[1] is not None
        places = self.places_of[line.edge_id] = range(first, self._next)
        return places

    def _take_out(self, edge_ids: Sequence[int]) -> None:
        """The straight lines of these edges are there no more."""
        for place in (place for edge_id in edge_ids for place in self.places_of.pop(edge_id)):
            self.grid.remove(place, self.grid.passed(self.lines.pop(place)))
            del self.extents[place]
        for edge_id in edge_ids:
            marks = [mark for mark in self.drawn.pop(edge_id).marks if mark is not None]
            for dart in (Dart(edge_id, segment, back) for segment in range(len(marks) - 1) for back in (False, True)):
                if self.leaving.pop(dart, None) is not None:
                    del self.tangents[dart]
                    self.degree[marks[dart.segment + dart.back]] -= 1

    # ---- Lines that meet

    def _hub(self, line: _Straight) -> Point | None:
        """The end of a line at which most lines end."""
        return line.start if self.degree[line.start] >= self.degree[line.end] else line.end

    def _judge_pair(self, one: int, other: int) -> None:
        """Two lines that have a point in common have to share an end, and nothing else."""
        first, second = self.lines[min(one, other)], self.lines[max(one, other)]
        if self.wrong and (first.piece in self.wrong or second.piece in self.wrong):
            return
        if _meet_falsely(first, second):
            its, others = self._name(first.piece[0]), self._name(second.piece[0])
            words = f"{its} meets {others}" if its != others else f"{its} meets itself"
            self._tell(words, _meeting(first, second), first.piece, second.piece)

    def _judge_line(self, place: int, squares: Iterable[Iterable[int]]) -> None:
        """A line and all others that are in these squares."""
        left, top, right, bottom = self.extents[place]
        hub = self._hub(self.lines[place])
        for other in set().union(*squares):
            x, y, u, v = self.extents[other]
            if x <= right and u >= left and y <= bottom and v >= top and other != place:
                if hub is None or self._hub(self.lines[other]) != hub:
                    self._judge_pair(other, place)

    # ---- The order round points

    def _judge_orders(self, points: Iterable[Point]) -> None:
        """The edges leave each node, and pass each crossing, in the clockwise order of the picture: by the straight
        lines that stand for them, and by the tangents of their curves."""
        for point in points:
            go_on()
            darts = [dart for dart in self.picture.around(point) if dart in self.leaving]
            left = [self.leaving[dart] for dart in darts]
            at = left[0][0] if point.is_crossing and left else (0, 0)
            if not point.is_crossing:
                at = self.shapes[point.id].middle
            for dart, (end, _, piece) in zip(darts, left) if point.is_crossing else ():
                if end != at:
                    self._tell(f"{self._name(dart.edge)} is not at its crossing", end, piece)
            by_tangent = [_way(at, self.leaving[dart][0], self.tangents[dart]) for dart in darts]
            if not is_clockwise([_way(at, end, beside) for end, beside, _ in left]) or not is_clockwise(by_tangent):
                what = "crossing" if point.is_crossing else f"node {self.result.node_of[point.id]!r}"
                self._tell(f"the edges at the {what} are not in their order", at, *(piece for _, _, piece in left))

    # ---- Nodes

    def _judge_ends(self, point: Point) -> None:
        """The edges of a node come to its shape."""
        for dart in self.picture.around(point):
            if dart in self.leaving and not self.shapes[point.id].has(self.leaving[dart][0]):
                end, _, piece = self.leaving[dart]
                self._tell(f"{self._name(dart.edge)} does not come to its node", end, piece)

    def _judge_shape(self, vertex: int, place: int) -> None:
        """A node and a line that is near it, which may be one of the node's own."""
        shape, line = self.shapes[vertex], self.lines[place]
        left, top, right, bottom = shape.bounds
        x, y, u, v = self.extents[place]
        if u < left or x > right or v < top or y > bottom:
            return
        for mark, end in ((line.start, (line.x, line.y)), (line.end, (line.u, line.v))):
            if mark is not None and mark.is_crossing and shape.has(end):
                self._tell(f"the node {shape.node!r} lies on a crossing", end, line.piece)
        edge_id, piece = line.piece
        if Point(False, vertex) not in self.drawn[edge_id].marks[piece : piece + 2] and shape.meets(line):
            self._tell(f"the node {shape.node!r} lies on {self._name(edge_id)}", shape.middle, line.piece)

    def _judge_shapes(self, vertices: Collection[int]) -> None:
        """None of these nodes lies on a line that is not its own, or on another node."""
        for vertex in vertices:
            go_on()
            shape = self.shapes[vertex]
            self._judge_ends(Point(False, vertex))
            for place in self.grid.near(*shape.bounds):
                if self.lines[place].piece not in self.wrong:
                    self._judge_shape(vertex, place)
            for number in self.boxes.near(*shape.bounds):
                other = self.shapes[number]
                if (number < vertex or number not in vertices) and shape.overlaps(other):
                    self._tell(f"the node {other.node!r} lies on the node {shape.node!r}", shape.middle)


# ---- Tests in whole numbers


class _Shape:
    """The shape of a node, FINE times as large: a disk, or else the rectangle round it."""

    def __init__(self, node: PageNode):
        self.page_node, self.node, self.is_round = node, node.node, node.is_round
        self.middle = (node.middle[0] * FINE, node.middle[1] * FINE)
        self.right, self.down = node.right * FINE, node.down * FINE
        (x, y), right, down = self.middle, self.right, self.down
        #: The least x and y, and the greatest.
        self.bounds = (x - right, y - down, x + right, y + down)

    def has(self, point: PagePoint) -> bool:
        """Whether a point lies in the shape or on its rim."""
        across, up = abs(point[0] - self.middle[0]), abs(point[1] - self.middle[1])
        if self.is_round:
            return across * across + up * up <= self.right * self.right
        return across <= self.right and up <= self.down

    def meets(self, line: _Straight) -> bool:
        """Whether a straight line that is not wholly on one side of it has a point in the shape or on its rim."""
        if self.has((line.x, line.y)) or self.has((line.u, line.v)):
            return True
        left, top, right, bottom = self.bounds
        start, end = (line.x, line.y), (line.u, line.v)
        if self.is_round:
            across, up = end[0] - start[0], end[1] - start[1]
            along = (self.middle[0] - start[0]) * across + (self.middle[1] - start[1]) * up
            length = across * across + up * up
            turn = side(start, end, self.middle)
            return 0 <= along <= length and turn * turn <= self.right * self.right * length
        corners = ((left, top), (right, top), (right, bottom), (left, bottom))
        turns = [side(start, end, corner) for corner in corners]
        return min(turns) <= 0 <= max(turns)

    def overlaps(self, other: "_Shape") -> bool:
        """Whether two shapes have a point in common; of disks it is their rectangles that must be apart, but for two
        disks."""
        across, up = abs(self.middle[0] - other.middle[0]), abs(self.middle[1] - other.middle[1])
        if self.is_round and other.is_round:
            return across * across + up * up <= (self.right + other.right) ** 2
        return across <= self.right + other.right and up <= self.down + other.down


def side(start: PagePoint, end: PagePoint, point: PagePoint) -> int:
    """Twice the area of a triangle, which is positive where the point lies clockwise, as the page is seen, of the line
    from start to end."""
    return (end[0] - start[0]) * (point[1] - start[1]) - (end[1] - start[1]) * (point[0] - start[0])


def is_clockwise(ways: Sequence[PagePoint]) -> bool:
    """Whether vectors turn clockwise, as the page is seen, once round from each to the next, and no two have one
    direction."""
    if (0, 0) in ways:
        return False
    rounds = 0
    for (x, y), (u, v) in zip(ways, [*ways[1:], *ways[:1]]):
        halves = (y < 0 or y == 0 and x < 0, v < 0 or v == 0 and u < 0)
        turn = x * v - y * u
        if len(ways) > 1 and turn == 0 and halves[0] == halves[1]:
            return False
        rounds += halves[0] > halves[1] or halves[0] == halves[1] and turn <= 0
    return rounds == min(1, len(ways))


def _way(at: PagePoint, end: PagePoint, beside: PagePoint) -> PagePoint:
    """The direction of an edge at a point: from the point to where the edge ends, at the side of a box, or else along
    the edge."""
    if end != at:
        return end[0] - at[0], end[1] - at[1]
    return beside[0] - end[0], beside[1] - end[1]


def _pairs(
    places: Sequence[int], hubs: Mapping[int, Point | None], extents: Mapping[int, Extent]
) -> Iterator[tuple[int, int]]:
    """All pairs of lines whose extents meet, of which not both come from one hub. Two lines that do meet elsewhere only
    where they have one direction, which the order round the hub tells."""
    groups: dict[Point | None, list[int]] = {}
    for place in places:
        groups.setdefault(hubs[place], []).append(place)
    before: list[int] = []
    for hub, group in groups.items():
        for number, place in enumerate(group):
            left, top, right, bottom = extents[place]
            for other in before if hub is not None else (*before, *group[:number]):
                x, y, u, v = extents[other]
                if x <= right and u >= left and y <= bottom and v >= top:
                    yield place, other
        before += group


def _meet_falsely(first: _Straight, second: _Straight) -> bool:
    """Whether two lines whose extents meet have a point in common that is no end which they share."""
    x, y, u, v = first[:4]
    p, q, r, s = second[:4]
    one = (u - x) * (q - y) - (v - y) * (p - x)
    other = (u - x) * (s - y) - (v - y) * (r - x)
    if one > 0 and other > 0 or one < 0 and other < 0:
        return False
    third = (r - p) * (y - q) - (s - q) * (x - p)
    fourth = (r - p) * (v - q) - (s - q) * (u - p)
    if third > 0 and fourth > 0 or third < 0 and fourth < 0:
        return False
    shared = _shared_end(first, second)
    if shared is None:
        return True
    if one or other or third or fourth:
        return False
    far, near = (shared[0] * 2 - x - u, shared[1] * 2 - y - v), (shared[0] * 2 - p - r, shared[1] * 2 - q - s)
    return far[0] * near[0] + far[1] * near[1] > 0


def _meeting(first: _Straight, second: _Straight) -> PagePoint:
    """Where two lines meet; of those in one direction, the end of one that lies on the other."""
    start, end, other_start, other_end = first[:2], first[2:4], second[:2], second[2:4]
    before, after = side(other_start, other_end, start), side(other_start, other_end, end)
    if before != after:
        parts = before - after
        return start[0] + (end[0] - start[0]) * before // parts, start[1] + (end[1] - start[1]) * before // parts
    return max(min(start, end), min(other_start, other_end))


def _shared_end(first: _Straight, second: _Straight) -> PagePoint | None:
    """The end that two lines share, if they do: they follow each other along an edge, or end at one point."""
    if first.piece[0] == second.piece[0] and abs(first.number - second.number) == 1:
        return (first.u, first.v) if first.number < second.number else (first.x, first.y)
    if first.start is not None and first.start in (second.start, second.end):
        return first.x, first.y
    if first.end is not None and first.end in (second.start, second.end):
        return first.u, first.v
    return None


def _tangent(piece: Sequence[PagePoint]) -> PagePoint:
    """A point on the tangent of a piece at its beginning, FINE times as large: the first of its points that is
    another."""
    x, y = next((it for it in piece if it != piece[0]), piece[0])
    return x * FINE, y * FINE


def _distinct(points: Sequence[PagePoint]) -> list[PagePoint]:
    """The points without those that are equal to the one before."""
    return [point for place, point in enumerate(points) if place == 0 or point != points[place - 1]]
