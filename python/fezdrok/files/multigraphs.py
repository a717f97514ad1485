"""Planarizations as multigraphs of networkx, which writes them as GML or GraphML."""

from __future__ import annotations

from typing import TYPE_CHECKING, Any

from ..engine.pictures import Point
from ..engine.results import Planarization

if TYPE_CHECKING:
    from networkx import MultiGraph
else:
    MultiGraph = Any


def to_networkx_graph(result: Planarization) -> MultiGraph:
    """Make a networkx MultiGraph of a planarization, which networkx writes as GML or GraphML.

    The nodes are `v0`, `v1`, .. for the vertices and `x0`, `x1`, .. for the crossings; `label` is the `str` of the node
    of the graph, or the name of the crossing, and `crossing` is 1 for a crossing and else 0. Each segment is an edge
    with the id of its edge as `edge`, its place along it as `segment`, and the price of crossing it as `price`, which
    is 0 where it must not be crossed. Nodes and edges have their attributes of the graph too, those of these names as
    `node_label`, `edge_price` and so on.

    Parameters
    ----------
    result : Planarization
        What is to be written.

    Returns
    -------
    networkx.MultiGraph
        A MultiDiGraph where the graph is directed, whose segments run as their edges do.

    Examples
    --------
    >>> import networkx as nx
    >>> from fezdrok import planarize, to_networkx_graph
    >>> graph = to_networkx_graph(planarize(nx.complete_graph(5)))
    >>> len(graph), graph.number_of_edges(), graph.nodes["x0"]
    (6, 12, {'label': 'x0', 'crossing': 1})
    """
    import networkx

    picture = result.picture
    graph = networkx.MultiDiGraph() if result.graph.is_directed() else networkx.MultiGraph()
    for point in picture.points:
        own = {} if point.is_crossing else result.graph.nodes[result.node_of[point.id]]
        words = {"label": str(result.name_of(point)), "crossing": int(point.is_crossing)}
        graph.add_node(_short(point), **_together("node", words, own))
    for row in picture.edges:
        edge = result.edge_of[row.id]
        for place, segment in enumerate(result.segments(*edge)):
            words = {"edge": row.id, "segment": place, "price": result.prices[row.kind] or 0}
            ends = _short(picture.start(segment.dart)), _short(picture.end(segment.dart))
            graph.add_edges_from([(*ends, _together("edge", words, result.graph.edges[edge]))])
    return graph


def _together(kind: str, words: dict[str, Any], own: dict[Any, Any]) -> dict[Any, Any]:
    """The words of a planarization, and the attributes of the graph, those of the same names by longer ones."""
    return {**words, **{f"{kind}_{key}" if key in words else key: value for key, value in own.items()}}


def _short(point: Point) -> str:
    """A name for a point of the picture."""
    return f"{'x' if point.is_crossing else 'v'}{point.id}"
