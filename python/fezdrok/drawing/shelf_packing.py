"""Rectangles laid side by side: the parts of a graph that is not connected."""

from __future__ import annotations

from collections.abc import Sequence
from math import sqrt


def shelf_packing(sizes: Sequence[tuple[float, float]], gap: float) -> list[tuple[float, float]]:
    """The lower left corners of rectangles of these widths and heights, in rows from the left, none nearer to another
    than the gap. Higher ones come first, and a row ends where the whole would be wider than high."""
    area = sum((width + gap) * (height + gap) for width, height in sizes)
    widest = max([sqrt(area) * 1.1, *(width for width, _ in sizes)])
    corners = [(0.0, 0.0)] * len(sizes)
    x = y = row = 0.0
    for place in sorted(range(len(sizes)), key=lambda place: -sizes[place][1]):
        width, height = sizes[place]
        if x > 0 and x + width > widest:
            x, y, row = 0.0, y + row + gap, 0.0
        corners[place] = (x, y)
        x, row = x + width + gap, max(row, height)
    return corners
