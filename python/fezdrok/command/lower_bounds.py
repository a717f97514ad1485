"""How many crossings a graph has at least in any drawing.

The crossings of a graph are those of its blocks. A block that is not planar has one at least; with n nodes, m edges and
no cycle shorter than g it has m - g (n - 2) / (g - 2) at least, which is Euler's formula, and where it has 3 nodes or
more 7 m / 3 - 25 (n - 2) / 3 (Pach, Radoičić, Tardos and Tóth, "Improving the Crossing Lemma by Finding More Crossings
in Sparse Graphs", 2006), and 5 m - 139 (n - 2) / 6 (Ackerman, "On Topological Graphs with at Most Four Crossings per
Edge", 2019). Parallel edges count once.
"""

from __future__ import annotations

from collections import deque
from collections.abc import Iterable
from math import ceil
from typing import Any

from ..engine.graph_edges import GraphEdge


def crossings_at_least(edges: Iterable[GraphEdge]) -> int:
    """A lower bound of the number of crossings of a graph with these edges, 0 exactly where it is planar."""
    import networkx

    graph = networkx.Graph(edge[:2] for edge in edges if edge[0] != edge[1])
    blocks = (graph.subgraph(nodes) for nodes in networkx.biconnected_components(graph))
    return sum(_of_block(block) for block in blocks)


def _of_block(block: Any) -> int:
    """The bound of a block."""
    import networkx

    count, size = len(block), int(block.number_of_edges())
    if count < 5 or size < 9 or networkx.is_planar(block):
        return 0
    cycle = _girth(block)
    euler = size - cycle * (count - 2) / (cycle - 2)
    bounds: tuple[float, ...] = (euler, (7 * size - 25 * (count - 2)) / 3, 5 * size - 139 * (count - 2) / 6)
    return max(1, *(ceil(bound - 1e-9) for bound in bounds))


def _girth(block: Any) -> int:
    """The length of a shortest cycle, found by a search in breadth from each node."""
    best = len(block)
    for root in block:
        depth, above, waiting = {root: 0}, {root: root}, deque([root])
        while waiting and 2 * depth[waiting[0]] + 1 < best:
            node = waiting.popleft()
            for other in block[node]:
                if other not in depth:
                    depth[other], above[other] = depth[node] + 1, node
                    waiting.append(other)
                elif above[node] != other:
                    best = min(best, depth[node] + depth[other] + 1)
        if best == 3:
            break
    return best
