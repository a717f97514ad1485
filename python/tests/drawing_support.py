"""What the tests of drawings share: the graphs that are drawn, planar results without the program, and lines that
touch."""

from __future__ import annotations

from functools import lru_cache
from typing import Any, Dict, Tuple

import networkx as nx

from fezdrok import Planarization, from_networkx_embedding, planarize


def grid_with_chords() -> Any:
    """A grid of 6 x 6 nodes with six chords."""
    graph = nx.convert_node_labels_to_integers(nx.grid_2d_graph(6, 6))
    graph.add_edges_from([(0, 14), (3, 19), (8, 33), (12, 27), (5, 22), (30, 10)])
    return graph


@lru_cache(maxsize=None)
def pictured() -> Dict[str, Any]:
    """The four graphs whose pictures are shown, planarized."""
    graphs = {
        "petersen": nx.petersen_graph(),
        "k6": nx.complete_graph(6),
        "grid": grid_with_chords(),
        "scale_free": nx.barabasi_albert_graph(60, 2, seed=1),
    }
    return {name: planarize(graph, seed=2) for name, graph in graphs.items()}


def planar_result(graph: Any) -> Planarization:
    """A planar graph as networkx embeds it, without the program."""
    embedding = nx.check_planarity(graph)[1]
    picture, nodes = from_networkx_embedding(embedding), list(embedding)
    return Planarization(
        graph, picture, tuple(nodes), {row.id: (nodes[row.a], nodes[row.b]) for row in picture.edges}, (1,), ()
    )


def side(p: Any, q: Any, r: Any) -> int:
    """On which side of the line from p to q the point r lies: 1, -1, or 0 on it. Exact for whole numbers."""
    turn = (q[0] - p[0]) * (r[1] - p[1]) - (q[1] - p[1]) * (r[0] - p[0])
    return (turn > 0) - (turn < 0)


def is_between(p: Any, q: Any, r: Any) -> bool:
    """Whether r, on the line through p and q, lies between them."""
    return min(p[0], q[0]) <= r[0] <= max(p[0], q[0]) and min(p[1], q[1]) <= r[1] <= max(p[1], q[1])


def touch(first: Tuple[Any, Any], second: Tuple[Any, Any]) -> bool:
    """Whether two straight lines have a point in common."""
    (p, q), (r, s) = first, second
    if any(
        max(p[axis], q[axis]) < min(r[axis], s[axis]) or max(r[axis], s[axis]) < min(p[axis], q[axis])
        for axis in (0, 1)
    ):
        return False
    if side(p, q, r) != side(p, q, s) and side(r, s, p) != side(r, s, q):
        return True
    ends = ((p, q, r), (p, q, s), (r, s, p), (r, s, q))
    return any(side(*points) == 0 and is_between(*points) for points in ends)
