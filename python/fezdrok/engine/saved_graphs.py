"""Graphs as JSON, with their attributes, for the file of a planarization.

A graph is `{"directed", "multigraph", "attributes", "nodes", "edges"}`: a node is `[NAME,ATTRIBUTES]`, an edge
`[PLACE,PLACE,KEY,ATTRIBUTES]`, with the places of its ends among the nodes, and null as KEY where the graph is no
multigraph. A name that is a tuple is an array.
"""

from __future__ import annotations

import math
import warnings
from numbers import Integral, Real
from typing import Any

from .faults import PlanarWarning
from .graph_edges import GraphEdge


def edges_of(graph: Any) -> list[GraphEdge]:
    """The edges of a graph as its `edges` gives them, in a multigraph with their keys."""
    return [*iter(graph.edges(keys=True))] if graph.is_multigraph() else [*iter(graph.edges())]


def graph_json(graph: Any) -> dict[str, Any]:
    """The graph as a JSON object. ValueError where a name is no text, no number and no tuple of these; an attribute
    whose value JSON does not know is left out, with a PlanarWarning."""
    lost: set[str] = set()
    place_of = {node: place for place, node in enumerate(graph)}
    keys = {"keys": True} if graph.is_multigraph() else {}
    value = {
        "directed": graph.is_directed(),
        "multigraph": graph.is_multigraph(),
        "attributes": _attributes(graph.graph, lost),
        "nodes": [[name_json(node), _attributes(data, lost)] for node, data in graph.nodes(data=True)],
        "edges": [
            [place_of[u], place_of[v], name_json(key[0]) if key else None, _attributes(data, lost)]
            for u, v, *key, data in graph.edges(data=True, **keys)
        ],
    }
    if lost:
        names = ", ".join(sorted(lost))
        warnings.warn(f"left out are attributes whose values JSON does not know: {names}", PlanarWarning, stacklevel=2)
    return value


def graph_from_json(value: dict[str, Any]) -> Any:
    """The networkx graph of such an object. ValueError where a node or an edge stands there twice, KeyError or another
    exception of Python's where it is of another form."""
    import networkx

    kinds = {
        (False, False): networkx.Graph,
        (True, False): networkx.DiGraph,
        (False, True): networkx.MultiGraph,
        (True, True): networkx.MultiDiGraph,
    }
    graph = kinds[value["directed"], value["multigraph"]](**value["attributes"])
    names = [name_from_json(name) for name, _ in value["nodes"]]
    graph.add_nodes_from((name, data) for name, (_, data) in zip(names, value["nodes"]))
    if len(graph) != len(names):
        raise ValueError("a node stands there twice")
    name_of = dict(enumerate(names))
    for u, v, key, data in value["edges"]:
        named = {"key": name_from_json(key)} if value["multigraph"] else {}
        graph.add_edge(name_of[u], name_of[v], **named)
        graph.edges[(name_of[u], name_of[v], *named.values())].update(data)
    if graph.number_of_edges() != len(value["edges"]):
        raise ValueError("an edge stands there twice")
    return graph


def name_json(name: Any) -> Any:
    """The name of a node, or the key of an edge, as JSON has it."""
    value = _plain(name)
    if value is _LOST or isinstance(name, (list, dict)):
        raise ValueError(f"{name!r} cannot be saved as a name: it is no text, no number and no tuple of these")
    return value


def name_from_json(value: Any) -> Any:
    """The name that stands so in JSON."""
    return tuple(map(name_from_json, value)) if isinstance(value, list) else value


#: Stands for a value that JSON does not know.
_LOST = object()


def _plain(value: Any) -> Any:
    """A value as JSON has it, or _LOST."""
    if value is None or isinstance(value, (bool, str)):
        return value
    if isinstance(value, Integral):
        return int(value)
    if isinstance(value, Real):
        return float(value) if math.isfinite(value) else _LOST
    if isinstance(value, (list, tuple)):
        parts = [_plain(part) for part in value]
        return _LOST if any(part is _LOST for part in parts) else parts
    if isinstance(value, dict) and all(isinstance(key, str) for key in value):
        rows = {key: _plain(part) for key, part in value.items()}
        return _LOST if any(part is _LOST for part in rows.values()) else rows
    return _LOST


def _attributes(data: dict[Any, Any], lost: set[str]) -> dict[str, Any]:
    """The attributes that JSON knows; the names of the others are noted."""
    kept = {key: _plain(value) if isinstance(key, str) else _LOST for key, value in data.items()}
    lost.update(str(key) for key, value in kept.items() if value is _LOST)
    return {key: value for key, value in kept.items() if value is not _LOST}
