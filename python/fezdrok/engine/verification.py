"""Whether a planarization is whole, and true of its graph: the program judges its pictures, the rest is told here."""

from __future__ import annotations

from collections import Counter
from typing import Any

from .faults import Fault, VerificationError
from .graph_edges import GREATEST_PRICE, KINDS, GraphEdge
from .graph_pictures import GraphPicture
from .pictures import Picture
from .planarizer import Planarizer
from .program import PathLike
from .saved_graphs import edges_of


def verify(result: GraphPicture, graph: Any = None, program: PathLike | None = None) -> None:
    """VerificationError unless the planarization is whole and true of this graph, or of its own."""
    _verify_prices(result)
    _verify_names(result, result.graph if graph is None else graph)
    planarizer = Planarizer(program=program)
    for part in result.parts or (result,):
        _verify_picture(part, planarizer)
    _verify_ends(result)
    if result.parts:
        _verify_parts(result)


def _fail(words: str) -> None:
    raise VerificationError(words)


def _verify_prices(result: GraphPicture) -> None:
    """There are no more prices than kinds, and each is one that the program takes."""
    if len(result.prices) > KINDS:
        _fail(f"there are {len(result.prices)} prices, and {KINDS} kinds")
    for price in result.prices:
        if price is not None and not (isinstance(price, int) and 1 <= price <= GREATEST_PRICE):
            _fail(f"the price {price!r} is no whole number from 1 to {GREATEST_PRICE}")


def _verify_names(result: GraphPicture, graph: Any) -> None:
    """The nodes and the edges are those of the graph, each once; loops of the graph count for nothing."""
    if result.graph.is_directed() != graph.is_directed():
        _fail("one of the planarization and the graph is directed, and the other is not")
    _same("node", Counter(result.node_of), Counter(graph))
    due = [edge for edge in edges_of(graph) if edge[0] != edge[1]]
    _same("edge", _named(result.edge_of.values(), graph), _named(due, graph))


def _named(edges: Any, graph: Any) -> Counter[Any]:
    """How often each edge is there, without keys, and in an undirected graph whichever way round it is named."""
    return Counter(_ends(edge) if graph.is_directed() else frozenset(_ends(edge)) for edge in edges)


def _ends(edge: GraphEdge) -> GraphEdge:
    return edge[:2]


def _same(word: str, found: Counter[Any], due: Counter[Any]) -> None:
    for name in [*due, *found]:
        if found[name] != due[name]:
            shown = tuple(name) if isinstance(name, frozenset) else name
            _fail(f"the {word} {shown!r} is there {found[name]} times, and in the graph {due[name]} times")


def _verify_picture(part: GraphPicture, planarizer: Planarizer) -> None:
    """The program takes the picture of a part, and counts what is counted here."""
    picture = part.picture
    if not picture.edges:
        if picture != Picture(((),), ()) or len(part.node_of) != 1:
            _fail("a part without edges is not one node")
        return
    try:
        counts = planarizer.check(picture)
    except Fault as fault:
        raise VerificationError(f"the program refuses a picture: {fault}") from fault
    if counts != picture.counts:
        _fail(f"the program counts {counts}, and here are {picture.counts}")
    if counts.vertices != len(part.node_of):
        _fail(f"a picture has {counts.vertices} vertices, and its part {len(part.node_of)} nodes")


def _verify_ends(result: GraphPicture) -> None:
    """Each edge of the picture is one of the graph, with its ends and a price; one that must not be crossed has no
    crossing."""
    if {row.id for row in result.picture.edges} != set(result.edge_of):
        _fail("the edges of the picture and those that have names are not the same")
    for row in result.picture.edges:
        edge = result.edge_of[row.id]
        if {result.node_of[row.a], result.node_of[row.b]} != set(edge[:2]):
            _fail(f"the edge {edge!r} has other ends in the picture")
        if not row.kind < len(result.prices):
            _fail(f"the edge {edge!r} has the kind {row.kind}, which has no price")
        if result.prices[row.kind] is None and row.crossings:
            _fail(f"the edge {edge!r} must not be crossed, and has {len(row.crossings)} crossings")


def _verify_parts(result: GraphPicture) -> None:
    """The whole has the crossings and the cost of its parts."""
    for name in ("crossings", "cost"):
        whole, parts = getattr(result, name), sum(getattr(part, name) for part in result.parts)
        if whole != parts:
            _fail(f"the whole has {name} {whole}, and its parts {parts} together")
