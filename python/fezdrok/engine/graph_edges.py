"""The edges of a graph: what they are called, and what crossing them may cost."""

from __future__ import annotations

from collections.abc import Container, Hashable
from typing import Any

Node = Hashable
#: An edge of a graph as its `edges` gives it: two nodes, and in a multigraph a key.
GraphEdge = tuple[Any, ...]
#: None where the edge must not be crossed.
Price = int | None

#: How many kinds of edges the program knows, one for each price, and what crossing an edge costs at most.
KINDS = 64
GREATEST_PRICE = 1000


def name_among(names: Container[GraphEdge], graph: Any, edge: GraphEdge) -> GraphEdge:
    """The one of these names that an edge has, which an undirected graph may name either way round; KeyError where it
    has none."""
    u, v, *key = edge
    for name in (edge,) if graph.is_directed() else (edge, (v, u, *key)):
        if name in names:
            return name
    if graph.is_multigraph() and not key:
        raise KeyError(f"{edge!r} names no edge: the graph is a multigraph, where the key is required")
    raise KeyError(f"the graph has no edge {edge!r}")


def judge_kinds(count: int, advice: str = "") -> None:
    """ValueError if so many different prices are more than kinds."""
    if count > KINDS:
        raise ValueError(
            f"there are {count} different prices: the program knows {KINDS} kinds of edges, one for each price{advice}"
        )
