"""Layouts as those of networkx: positions of the nodes of a graph."""

from __future__ import annotations

from typing import Any

from .drawing.straight_layout import positions
from .engine.graph_edges import Node
from .search.planarization import planarize


def layout(
    graph: Any, *, scale: float = 1.0, center: tuple[float, float] = (0.0, 0.0), **options: Any
) -> dict[Node, tuple[float, float]]:
    """Positions for the nodes of a graph, as `networkx.planar_layout` gives them, also where it is not planar.

    The graph is planarized, and the positions are those of its straight drawing. Where it is planar and has no parallel
    edges, straight edges between them do not cross. Else edges have their crossings elsewhere than on straight lines,
    and `networkx.draw` shows other crossings than `fezdrok.draw`; `from_positions` counts them.

    Parameters
    ----------
    graph : networkx.Graph or list of pairs
        As for `planarize`.
    scale : float, optional
        How far from the center the positions are at most, to the sides and up and down.
    center : pair of floats, optional
    options
        Those of `planarize`.

    Returns
    -------
    dict
        For each node its x and y.

    Raises
    ------
    ValueError
        As `planarize`.

    Examples
    --------
    >>> import networkx as nx
    >>> from fezdrok import from_positions, layout
    >>> grid = nx.grid_2d_graph(3, 4)
    >>> pos = layout(grid)
    >>> len(pos), from_positions(grid, pos).crossings
    (12, 0)
    """
    result = planarize(graph, **options)
    places = positions(result)
    xs, ys = zip(*places.values())
    middle = (max(xs) + min(xs)) / 2, (max(ys) + min(ys)) / 2
    extent = max(max(xs) - min(xs), max(ys) - min(ys)) / 2
    unit = scale / extent if extent else 0.0
    return {
        node: (center[0] + unit * (x - middle[0]), center[1] + unit * (y - middle[1]))
        for node, (x, y) in ((node, places[node]) for node in result.graph)
    }
