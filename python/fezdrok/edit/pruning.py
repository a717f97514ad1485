"""A planarization without one of its nodes, with the rest of its picture as it is."""

from __future__ import annotations

from dataclasses import replace

from ..drawing.near_lines import hangs_together, restricted
from ..engine.graph_edges import Node
from ..engine.pictures import Edge, Picture
from ..engine.results import Planarization
from ..files.embeddings import from_least


def without_node(result: Planarization, node: Node) -> Planarization | None:
    """The planarization without this node and its edges; None where no edge is left, or the rest does not hang
    together. The ids of edges stay, and vertices move up."""
    gone, picture = result.vertex_of[node], result.picture
    kept = {row.id: result.edge_of[row.id] for row in picture.edges if gone not in (row.a, row.b)}
    rows = restricted(picture, kept)
    rotations = [around for vertex, around in enumerate(rows.rotations) if vertex != gone]
    if not kept or not all(rotations) or not hangs_together(rows):
        return None
    edges = (
        Edge(row.id, row.a - (row.a > gone), row.b - (row.b > gone), row.kind, row.crossings) for row in rows.edges
    )
    around = tuple(from_least(list(it)) for it in rotations)
    left = Picture(around, tuple(edges), rows.crossings, rows.next_edge, rows.next_crossing)
    graph = result.graph.copy()
    graph.remove_node(node)
    node_of = tuple(it for it in result.node_of if it != node)
    return replace(result, graph=graph, picture=left, node_of=node_of, edge_of=kept, reports=(), tries=())
