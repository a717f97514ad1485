"""Planarizations that a search goes on from, of the same graph and maybe with other prices."""

from __future__ import annotations

from typing import Any

from ..engine.graph_edges import GraphEdge, name_among
from ..engine.pictures import Crossing, Edge, Picture
from ..engine.results import Planarization, single
from ..files.embeddings import from_least
from ..files.graphs import PricedGraph


def start_parts(start: Any, source: PricedGraph) -> tuple[Planarization, ...]:
    """What a start has of each connected part of the graph, in the order of their first nodes. ValueError where it is
    no planarization of this graph, or has a crossing on an edge that must not be crossed."""
    import networkx

    if not isinstance(start, Planarization):
        raise ValueError(f"start is {start!r:.80}: it must be a Planarization")
    if set(start.node_of) != set(source.nodes) or len(start.edge_of) != len(source.edges):
        raise ValueError(f"start is {start!r}: it is of another graph")
    id_of = {place: _id_in(start, source, edge) for place, edge in enumerate(source.edges)}
    for place, edge_id in id_of.items():
        if source.price(place) is None and start.picture.edge(edge_id).crossings:
            raise ValueError(f"start has crossings on the edge {source.edges[place]!r}, which must not be crossed")
    joined = networkx.Graph()
    joined.add_nodes_from(source.nodes)
    joined.add_edges_from(edge[:2] for edge in source.edges)
    parts = list(networkx.connected_components(joined))
    part_of = {node: number for number, part in enumerate(parts) for node in part}
    nodes: list[list[Any]] = [[] for _ in parts]
    places: list[dict[int, int]] = [{} for _ in parts]
    for node in source.nodes:
        nodes[part_of[node]].append(node)
    for place, edge_id in id_of.items():
        places[part_of[source.edges[place][0]]][place] = edge_id
    return tuple(_part(start, source, *part) for part in zip(nodes, places))


def _id_in(start: Planarization, source: PricedGraph, edge: GraphEdge) -> int:
    """The id that an edge of the graph has in a start; ValueError where it has none."""
    try:
        return start.id_of[name_among(start.id_of, source.copy.graph, edge)]
    except KeyError:
        raise ValueError(f"start is of another graph: it has no edge {edge!r}") from None


def _part(start: Planarization, source: PricedGraph, nodes: list[Any], id_of: dict[int, int]) -> Planarization:
    """What a start has of these nodes and of the edges at these places, which have these ids there: without the edges
    of other parts, with the kinds and prices of now, and with ids from 0 on in the order of the graph's edges."""
    if not id_of:
        return single(source.part(nodes), nodes[0], source.prices)
    edge_id = {old: number for number, old in enumerate(id_of.values())}
    rows = [row for row in start.picture.crossings if row.crossed in edge_id and row.newcomer in edge_id]
    crossing_id = {row.id: number for number, row in enumerate(rows)}
    vertex = {start.vertex_of[node]: number for number, node in enumerate(nodes)}
    edges = tuple(
        Edge(
            number,
            vertex[row.a],
            vertex[row.b],
            source.kinds[place],
            tuple(crossing_id[it] for it in row.crossings if it in crossing_id),
        )
        for number, (place, row) in enumerate((place, start.picture.edge(old)) for place, old in id_of.items())
    )
    crossings = tuple(
        Crossing(number, edge_id[row.crossed], edge_id[row.newcomer], row.sign) for number, row in enumerate(rows)
    )
    rotations = (start.picture.rotations[it] for it in vertex)
    around = tuple(from_least([edge_id[it] for it in rotation]) for rotation in rotations)
    edge_of = {number: source.edges[place] for number, place in enumerate(id_of)}
    picture = Picture(around, edges, crossings, len(edges), len(crossings))
    return Planarization(source.part(nodes), picture, tuple(nodes), edge_of, source.prices, ())
