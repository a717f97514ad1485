"""Copies of graphs, which are made when they are first asked for."""

from __future__ import annotations

from collections.abc import Sequence
from typing import Any, NamedTuple

from .graph_edges import Node


class GraphCopy:
    """What the method `copy` of a graph of networkx gives, kept as rows until `graph` is first asked for, which takes a
    fifth of the time. What is done to the graph itself does not change it.

    `node_rows` has each node with its attributes, `edge_rows` each edge as the graph's `edges` gives it, in a
    multigraph with its key, and with its attributes. Both are empty once there is a graph.
    """

    def __init__(self, graph: Any):
        self._kind, self._attributes = graph.__class__, dict(graph.graph)
        self.node_rows: list[tuple[Node, dict[str, Any]]]
        self.edge_rows: list[tuple[Any, ...]]
        self.node_rows = [(node, data.copy()) for node, data in graph.nodes(data=True)]
        if graph.is_multigraph():
            self.edge_rows = [(u, v, key, data.copy()) for u, v, key, data in graph.edges(data=True, keys=True)]
        else:
            self.edge_rows = [(u, v, data.copy()) for u, v, data in graph.edges(data=True)]

    @classmethod
    def of_itself(cls, graph: Any) -> GraphCopy:
        """Stands for a graph that is not copied."""
        made = cls.__new__(cls)
        made.__dict__["graph"] = graph
        return made

    def __getattr__(self, name: str) -> Any:
        """The graph, when it is first asked for."""
        if name != "graph":
            raise AttributeError(f"a GraphCopy has no {name!r}")
        graph = self._kind()
        graph.graph.update(self._attributes)
        graph.add_nodes_from(self.node_rows)
        graph.add_edges_from(self.edge_rows)
        graph = self.__dict__.setdefault("graph", graph)  # two threads get one
        self.node_rows, self.edge_rows = [], []
        return graph


class GraphPart(NamedTuple):
    """The part of a copy that some of its nodes have, a view that is made when it is asked for."""

    copy: GraphCopy
    nodes: Sequence[Node]

    @property
    def graph(self) -> Any:
        """The view."""
        return self.copy.graph.subgraph(self.nodes)
