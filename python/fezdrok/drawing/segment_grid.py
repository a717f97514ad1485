"""Straight lines in the squares of a grid that they pass, so that those near each other are found without a look at
all pairs."""

from __future__ import annotations

from collections.abc import Iterable, Iterator, Sequence
from copy import copy
from math import sqrt
from typing import Any

#: A square of the grid: its column and its row.
Square = tuple[int, int]
#: A segment: a tuple that begins with the x and y of its one end and of its other.
Segment = tuple[Any, ...]

#: How many squares a segment passes, in the mean, at most.
MOST_PASSED = 12


class SegmentGrid:
    """Segments, and the squares that they pass: `squares[column, row]` has the places of the segments in it. Also a
    square that a segment only comes near to may have it; none that it passes is missed."""

    def __init__(self, segments: Sequence[Segment]):
        self.size = _square_size(segments)
        self.squares: dict[Square, list[int]] = {}
        for place, segment in enumerate(segments):
            self.add(place, segment)

    def add(self, place: int, segment: Segment) -> None:
        """One more segment, by its place."""
        for square in self.passed(segment):
            self.squares.setdefault(square, []).append(place)

    def remove(self, place: int, squares: Iterable[Square]) -> None:
        """What is at this place less, which is in these squares."""
        for square in squares:
            self.squares[square].remove(place)

    def copy(self) -> "SegmentGrid":
        """The same grid, to be changed without this one."""
        other = copy(self)
        other.squares = {square: places[:] for square, places in self.squares.items()}
        return other

    @staticmethod
    def of_rectangles(bounds: Sequence[tuple[float, float, float, float]]) -> "SegmentGrid":
        """A grid of rectangles, each the least x and y and the greatest, with the places of those in each square."""
        grid = SegmentGrid(())
        grid.size = _square_size(bounds)
        for place, its in enumerate(bounds):
            for square in grid.covered(*its):
                grid.squares.setdefault(square, []).append(place)
        return grid

    def covered(self, left: float, bottom: float, right: float, top: float) -> Iterator[Square]:
        """The squares that a rectangle covers."""
        for column in range(int(left // self.size), int(right // self.size) + 1):
            for row in range(int(bottom // self.size), int(top // self.size) + 1):
                yield column, row

    def passed(self, segment: Segment) -> list[Square]:
        """The squares that a segment passes, column by column."""
        x, y, u, v = segment[:4]
        if x > u:
            x, y, u, v = u, v, x, y
        size, spare = self.size, 1e-3 * self.size
        first, last = int((x - spare) // size), int((u + spare) // size)
        if first == last:
            low, high = (y, v) if y < v else (v, y)
            return [(first, row) for row in range(int((low - spare) // size), int((high + spare) // size) + 1)]
        found = []
        slope = (v - y) / (u - x) if u > x else 0.0
        for column in range(first, last + 1):
            low, high = y, v
            if slope:
                low = y + slope * (min(max(x, column * size - spare), u) - x)
                high = y + slope * (max(min(u, (column + 1) * size + spare), x) - x)
            if low > high:
                low, high = high, low
            found += [(column, row) for row in range(int((low - spare) // size), int((high + spare) // size) + 1)]
        return found

    def along(self, segment: Segment) -> set[int]:
        """The places of all that are in the squares that a segment passes."""
        return {place for square in self.passed(segment) for place in self.squares.get(square, ())}

    def near(self, left: float, bottom: float, right: float, top: float) -> set[int]:
        """The places of all segments that come into a rectangle, and of some near it."""
        columns = range(int(left // self.size), int(right // self.size) + 1)
        rows = range(int(bottom // self.size), int(top // self.size) + 1)
        if len(columns) * len(rows) <= len(self.squares):
            squares: Iterable[Square] = self.covered(left, bottom, right, top)
        else:
            squares = [it for it in self.squares if it[0] in columns and it[1] in rows]
        return {place for square in squares for place in self.squares.get(square, ())}


def _square_size(segments: Sequence[Segment]) -> float:
    """The size of squares of which there are about as many as segments, but not so many that long segments pass very
    many."""
    if not segments:
        return 1.0
    xs = [it for x, _, u, *_ in segments for it in (x, u)]
    ys = [it for _, y, _, v, *_ in segments for it in (y, v)]
    width, height = max(xs) - min(xs), max(ys) - min(ys)
    length = sum(max(abs(u - x), abs(v - y)) for x, y, u, v, *_ in segments) / len(segments)
    return max(sqrt(float(width) * float(height) / len(segments)), length / MOST_PASSED) or 1.0
