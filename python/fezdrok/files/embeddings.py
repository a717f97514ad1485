"""Pictures as networkx embeddings, and networkx embeddings as start pictures.

networkx is imported where it is used: whoever runs single commands does not wait for it.
"""

from __future__ import annotations

from collections.abc import Callable, Mapping, Sequence
from typing import TYPE_CHECKING, Any

from ..engine.graph_edges import Node
from ..engine.graph_pictures import Dummy
from ..engine.pictures import Dart, Edge, Picture, Point
from ..engine.results import Planarization

if TYPE_CHECKING:
    from networkx import PlanarEmbedding
else:
    PlanarEmbedding = Any


# ---- From a picture to an embedding


def to_networkx_embedding(result: Planarization) -> PlanarEmbedding:
    """Make a networkx PlanarEmbedding of a planarization, which passes `check_structure`.

    Its nodes are the nodes of the graph and a Dummy for each crossing. Each node has the attribute `dummy`; a
    crossing has `crossing`, its id, and `edges`, the two edges of the graph that cross there. Each half-edge has
    `edge`, the edge of the graph that it is a part of.

    Parameters
    ----------
    result : Planarization

    Returns
    -------
    networkx.PlanarEmbedding

    Examples
    --------
    >>> import networkx as nx
    >>> from fezdrok import planarize, to_networkx_embedding
    >>> embedding = to_networkx_embedding(planarize(nx.complete_graph(5)))
    >>> [node for node, data in embedding.nodes(data=True) if data["dummy"]]
    [x0]
    """
    import networkx

    picture = result.picture
    names = _names(result)
    bends = _bends(picture, result.layer)
    embedding = networkx.PlanarEmbedding()
    embedding.set_data(_neighbours(picture, names, bends))
    embedding.add_nodes_from(names.values())
    for point, name in names.items():
        embedding.nodes[name].update(_point_data(result, point))
    for bend in bends.values():
        embedding.nodes[bend].update(dummy=True, bend=result.edge_of[bend.of.edge])
    for dart in picture.darts:
        edge = result.edge_of[dart.edge]
        start, following = names[picture.start(dart)], _neighbour(picture, names, bends, dart)
        embedding.edges[start, following]["edge"] = edge
        embedding.edges[following, start]["edge"] = edge
    return embedding


def rotations_of(result: Planarization) -> dict[Any, list[Any]]:
    """The neighbours of each node of that embedding, clockwise, without one: of a planarization with an edge whose
    graph is connected."""
    picture = result.picture
    data = _neighbours(picture, _names(result), _bends(picture, result.layer))
    order = dict.fromkeys(it for node, others in data.items() for it in (node, *reversed(others)))
    return {node: data[node] for node in order}


def chains_of(result: Planarization) -> dict[int, list[Any]]:
    """The nodes of that embedding along each edge, from its end `a` to its end `b`, by edge ids."""
    picture, names, bends = result.picture, _names(result), _bends(result.picture, result.layer)
    chains: dict[int, list[Any]] = {}
    for edge_id in result.edge_of:
        first, *others = picture.path(edge_id)
        chains[edge_id] = [names[first]]
        for segment, point in enumerate(others):
            bend = bends.get(Dart(edge_id, segment))
            chains[edge_id] += [names[point]] if bend is None else [bend, names[point]]
    return chains


def _names(result: Planarization) -> dict[Point, Any]:
    """The node of the embedding for each point of the picture."""
    return {point: result.name_of(point) for point in result.picture.points}


def _bends(picture: Picture, layer: int) -> dict[Dart, Dummy]:
    """For both darts of each segment that has an earlier one between the same points, the point put into it."""
    joined = set()
    bends: dict[Dart, Dummy] = {}
    for dart in picture.darts:
        ends = frozenset((picture.start(dart), picture.end(dart)))
        if not dart.back and ends in joined:
            bends[dart] = bends[dart.twin] = Dummy("bend", dart, layer)
        joined.add(ends)
    return bends


def _neighbour(picture: Picture, names: Mapping[Point, Any], bends: Mapping[Dart, Dummy], dart: Dart) -> Any:
    """The node that comes next along a dart."""
    return bends.get(dart, names[picture.end(dart)])


def _neighbours(picture: Picture, names: Mapping[Point, Any], bends: Mapping[Dart, Dummy]) -> dict[Any, list[Any]]:
    """For each node of the embedding its neighbours, clockwise."""
    data = {
        name: [_neighbour(picture, names, bends, dart) for dart in picture.around(point)]
        for point, name in names.items()
    }
    for bend in bends.values():
        data[bend] = [names[picture.start(bend.of)], names[picture.end(bend.of)]]
    return data


def _point_data(result: Planarization, point: Point) -> dict[str, Any]:
    """The attributes of a node of the embedding."""
    if not point.is_crossing:
        return {"dummy": False, "vertex": point.id}
    row = result.picture.crossing(point.id)
    return {"dummy": True, "crossing": point.id, "edges": (result.edge_of[row.crossed], result.edge_of[row.newcomer])}


# ---- From an embedding to a picture


def from_networkx_embedding(
    embedding: PlanarEmbedding, kind: Callable[[Any, Any], int] = lambda u, v: 0
) -> Picture:
    """Make the picture of a networkx PlanarEmbedding, to start a Planarizer with.

    Vertex i is the node number i of `list(embedding)`. The edges are numbered in the order in which they are met
    round vertex 0, 1, .. clockwise. All nodes become vertices, also dummies.

    Parameters
    ----------
    embedding : networkx.PlanarEmbedding
    kind : callable, optional
        Gives the kind of the edge between two nodes, from 0 to 63; 0 for all unless given.

    Returns
    -------
    Picture

    Raises
    ------
    ValueError
        Where the embedding has no edge or is not connected.
    networkx.NetworkXException
        Where it is no embedding.

    Examples
    --------
    >>> import networkx as nx
    >>> from fezdrok import from_networkx_embedding
    >>> from_networkx_embedding(nx.check_planarity(nx.icosahedral_graph())[1])
    <Picture: 12 vertices, 30 edges, 0 crossings>
    """
    embedding.check_structure()
    rotations = {node: list(embedding.neighbors_cw_order(node)) for node in embedding}
    vertex = {node: number for number, node in enumerate(rotations)}
    ids: dict[frozenset[Node], int] = {}
    edges: list[tuple[Node, Node]] = []
    for node, around in rotations.items():
        fresh = [(node, other) for other in around if frozenset((node, other)) not in ids]
        ids.update((frozenset(pair), len(edges) + place) for place, pair in enumerate(fresh))
        edges.extend(fresh)
    _judge_connected(rotations)
    lists = [from_least([ids[frozenset((node, other))] for other in around]) for node, around in rotations.items()]
    rows = tuple(Edge(number, vertex[u], vertex[v], kind(u, v)) for number, (u, v) in enumerate(edges))
    return Picture(tuple(lists), rows, (), len(rows), 0)


def _judge_connected(rotations: Mapping[Node, Sequence[Node]]) -> None:
    """ValueError unless there is an edge and every node hangs together with every other."""
    import networkx

    if not any(rotations.values()):
        raise ValueError("the embedding has no edge: the smallest picture is one edge between two vertices")
    if not networkx.is_connected(networkx.Graph(rotations)):
        raise ValueError("the embedding is not connected")


def from_least(around: list[int]) -> tuple[int, ...]:
    """The same cycle, listed from its least id on."""
    place = around.index(min(around))
    return tuple(around[place:] + around[:place])
