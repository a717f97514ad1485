"""Planarizations that go on: edges of a graph are inserted and taken out by the names of their nodes, one by one."""

from __future__ import annotations

from collections.abc import Callable, Mapping, Sequence
from dataclasses import replace
from types import TracebackType
from typing import Any, Generic, TypeVar

from .answers import Renumbered, Route
from .faults import MemoryFault, NotPlanarized
from .graph_edges import KINDS, GraphEdge, Node, Price, judge_kinds, name_among
from .graph_pictures import GraphPicture
from .pictures import Counts, Picture
from .program import PathLike
from .reports import Deleted, Grown, Inserted, Limits, Refused, Reply, Report
from .session import Session

#: The edge that a call is for, and the attributes that it has in the graph.
_Asked = tuple[GraphEdge, dict[str, Any]]
#: What a session goes on from and gives: a Planarization.
Result = TypeVar("Result", bound=GraphPicture)


class GraphSession(Generic[Result]):
    """A planarization that is changed edge by edge. See `Planarization.session`.

    `graph` is the graph of now, a copy of the planarization's own. `edge_of[e]` is its edge that has the id e in the
    picture, as the graph's `edges` gives it, and `prices` are those that an edge may have. They are to be read only.

    An edge that the program refuses is NotPlanarized, which changes nothing, and the session goes on. What ends it is
    as said of Session. A call that was interrupted, as by Ctrl-C, was carried out wholly or not at all; the next call
    finds out which.

    Parameters
    ----------
    result : Planarization
        Of a graph that is connected and has an edge, else ValueError.
    prices : sequence of int or None, optional
        Prices that new edges may have, beside those of the result and 1; ValueError for more than 64 in all.
    limits : Limits, optional
    program : str or os.PathLike, optional
    process : bool, optional
        Whether the session is a process of its own, as said of Session.

    Examples
    --------
    >>> from fezdrok import planarize
    >>> with planarize([("a", "b"), ("b", "c"), ("c", "a")]).session() as session:
    ...     reply = session.grow_edge("a", "d")
    ...     reply = session.insert_edge("d", "b")
    ...     session
    ...     session.result()
    <GraphSession: 4 nodes, 5 edges>
    <Planarization: 4 nodes, 5 edges, 0 crossings>
    """

    def __init__(
        self,
        result: Result,
        prices: Sequence[Price] = (),
        limits: Limits | None = None,
        program: PathLike | None = None,
        process: bool = False,
    ):
        if result.parts:
            raise ValueError("the graph is not connected: begin a session for each of the planarization's parts")
        if not result.picture.edges:
            raise ValueError("the graph has no edge: the smallest picture is one edge between two vertices")
        self.prices = _session_prices(result.prices, prices)
        self.graph = result.graph.copy()
        self._source = result
        self._reports: Sequence[Report] = result.reports
        self._node_of: list[Node] = list(result.node_of)
        self._vertex_of: dict[Node, int] = dict(result.vertex_of)
        self._place_of: dict[Node, int] = {node: place for place, node in enumerate(self.graph)}
        self.edge_of: dict[int, GraphEdge] = {edge_id: self._name(*edge) for edge_id, edge in result.edge_of.items()}
        self._id_of: dict[GraphEdge, int] = {edge: edge_id for edge_id, edge in self.edge_of.items()}
        self._asked: _Asked = ((), {})
        self._entries: list[tuple[_Asked, Reply]] = []  # one for each call of the report
        self._is_settled = True
        self._session = Session(result.picture, limits, self.prices, program, process)

    def __repr__(self) -> str:
        words = "closed" if self.is_closed else f"{len(self._node_of)} nodes, {len(self.edge_of)} edges"
        return f"<GraphSession: {words}>"

    # ---- Edges

    def insert_edge(self, u: Node, v: Node, price: Price = 1) -> Inserted:
        """A new edge between two nodes along the first of the cheapest routes. To cross it costs `price`, or it must
        not be crossed (None).

        networkx.NodeNotFound where one of them is no node; ValueError where they are joined already and the graph is no
        multigraph, or where the price is none of `prices`; NotPlanarized where the program refuses the edge, as 9
        NoRoute, and where the edge must not be crossed and its route crosses others.
        """
        self._settle()
        start, end, kind = self._vertex(u), self._vertex(v), self._kind(price)
        if not self.graph.is_multigraph() and self.graph.has_edge(u, v):
            raise ValueError(f"the graph has the edge {(u, v)!r} already, and is no multigraph")
        name = self._name(u, v, self.graph.new_edge_key(u, v)) if self.graph.is_multigraph() else self._name(u, v)
        route = self._session.route(start, end) if price is None else None
        if isinstance(route, Route) and route.crossed:
            raise NotPlanarized(name)
        inserted: Inserted = self._made(name, lambda: self._session.insert(start, end, kind))
        return inserted

    def grow_edge(self, u: Node, v: Node, price: Price = 1, position: int = 0) -> Grown:
        """A new node `v` on a new edge from the node `u`, which begins in the corner at this position of it.

        networkx.NodeNotFound where `u` is no node; ValueError where `v` is one already or is None, which networkx takes
        for no node, where it is not equal to itself, or where the price is none of `prices`; TypeError where `v` has no
        hash; NotPlanarized where the program refuses the edge, as 7 Full.
        """
        self._settle()
        start, kind = self._vertex(u), self._kind(price)
        if v is None:
            raise ValueError("None cannot be a node of a graph")
        if v != v:
            raise ValueError(f"{v!r} is not equal to itself, so its edges could not be found")
        if v in self._vertex_of:
            raise ValueError(f"{v!r} is a node of the graph already")
        name = (u, v, 0) if self.graph.is_multigraph() else (u, v)
        grown: Grown = self._made(name, lambda: self._session.grow(start, position, kind))
        return grown

    def delete_edge(self, u: Node, v: Node, *key: Any) -> Deleted:
        """An edge taken out, which an undirected graph may name either way round. In a multigraph its key must be
        given: `delete_edge(u, v, key)`.

        KeyError where there is none; NotPlanarized where the program refuses it, as 6 Cut: the graph would fall apart.
        """
        self._settle()
        name = name_among(self._id_of, self.graph, (u, v, *key))
        edge_id = self._id_of[name]
        deleted: Deleted = self._made(name, lambda: self._session.delete(edge_id), self.graph.edges[name])
        return deleted

    def undo(self, calls: int = 1) -> None:
        """Takes the last calls of `insert_edge`, `grow_edge` and `delete_edge` back, those that the program refused
        too: graph, names and picture are as if they had never been made, and edges that were deleted have their
        attributes again.

        More than there are since the session began, or since `renumber`, is the Fault 70 NothingToUndo.
        """
        self._settle()
        self._is_settled = False
        self._session.undo(calls)
        self._take_back_to(len(self._entries) - calls)
        self._is_settled = True

    def _vertex(self, node: Node) -> int:
        if node not in self._vertex_of:
            from networkx import NodeNotFound

            raise NodeNotFound(f"{node!r} is no node of the graph")
        return self._vertex_of[node]

    def _kind(self, price: Price) -> int:
        if price not in self.prices:
            known = ", ".join(map(str, self.prices))
            raise ValueError(
                f"the price {price!r} is none of the session's, which are {known}: give it when the session begins"
            )
        return self.prices.index(price)

    def _name(self, u: Node, v: Node, *key: Any) -> GraphEdge:
        """The edge as the graph's `edges` gives it: an undirected one from the node that comes first."""
        is_turned = not self.graph.is_directed() and self._place_of[u] > self._place_of[v]
        return (v, u, *key) if is_turned else (u, v, *key)

    def _made(self, name: GraphEdge, call: Callable[[], Reply], attributes: Mapping[str, Any] = {}) -> Any:
        """The reply to a call for this edge, which is noted; NotPlanarized where it is a refusal."""
        self._asked, self._is_settled = (name, dict(attributes)), False
        reply = call()
        self._enter(reply)
        self._is_settled = True
        if isinstance(reply, Refused):
            raise NotPlanarized(name, reply)
        return reply

    def _settle(self) -> None:
        """Finds out what became of a call that was interrupted: it is the last of the report or it is not there, and of
        an `undo` the report is shorter or it is not."""
        if self._is_settled:
            return
        history = self._session.report().history
        self._take_back_to(len(history))
        if len(history) > len(self._entries):
            self._enter(history[-1].reply)
        self._is_settled = True

    def _enter(self, reply: Reply) -> None:
        """Changes the graph and the names as the reply to the call says, and notes it. Twice is as once, since it may
        be interrupted."""
        name = self._asked[0]
        if isinstance(reply, Grown):
            self._node_of[reply.vertex :] = [name[1]]
            self._vertex_of[name[1]] = reply.vertex
            self._place_of.setdefault(name[1], len(self._place_of))
        if isinstance(reply, Deleted):
            self._remove(name, reply.edge)
        elif not isinstance(reply, Refused):
            self._add(name, reply.edge)
        self._entries.append((self._asked, reply))

    def _take_back_to(self, count: int) -> None:
        """Does the contrary for all calls but so many; twice is as once here too."""
        while len(self._entries) > count:
            (name, attributes), reply = self._entries[-1]
            if isinstance(reply, Deleted):
                self._add(name, reply.edge, attributes)
            elif not isinstance(reply, Refused):
                self._remove(name, reply.edge)
            if isinstance(reply, Grown):
                del self._node_of[reply.vertex :]
                self.graph.remove_nodes_from([name[1]])
                self._vertex_of.pop(name[1], None)
                self._place_of.pop(name[1], None)
            self._entries.pop()

    def _add(self, name: GraphEdge, edge_id: int, attributes: Mapping[str, Any] = {}) -> None:
        self.graph.add_edge(*name, **attributes)
        self.edge_of[edge_id] = name
        self._id_of[name] = edge_id

    def _remove(self, name: GraphEdge, edge_id: int) -> None:
        self.graph.remove_edges_from([name])
        self.edge_of.pop(edge_id, None)
        self._id_of.pop(name, None)

    # ---- What there is now

    def counts(self) -> Counts:
        """How large the picture is, as the program counts it."""
        return self._session.counts()

    def result(self) -> Result:
        """The planarization of the graph of now. The session goes on, and the result stays as it is."""
        self._settle()
        report = self._session.report()
        return self._result(report.picture, (*self._reports, report))

    def _result(self, picture: Picture, reports: Sequence[Report]) -> Result:
        """The planarization of the graph of now, whose picture is this one."""
        kinds = max(len(self._source.prices), *(row.kind + 1 for row in picture.edges))
        now = {
            "graph": self.graph.copy(),
            "picture": picture,
            "node_of": tuple(self._node_of),
            "edge_of": dict(self.edge_of),
        }
        return replace(self._source, **now, prices=self.prices[:kinds], reports=reports)

    def to_html(self) -> str:
        """A page of HTML that steps through the calls of this session, with the names of the nodes; see
        `fezdrok.to_html`. After `renumber`, those since then."""
        self._settle()
        return self._session.to_html(self._node_of)

    def renumber(self) -> Renumbered:
        """Closes up the ids of edges and crossings, as `Session.renumber`, and gives the old ones. The names stay. In
        the result the next report begins from the picture with the new ids. Where this is interrupted or out of memory,
        the session is over."""
        self._settle()
        reports = (*self._reports, self._session.report())
        try:
            old = self._session.renumber()
            self.edge_of = {edge_id: self.edge_of[old_id] for edge_id, old_id in enumerate(old.edges)}
            self._id_of = {name: edge_id for edge_id, name in self.edge_of.items()}
            self._reports, self._entries = reports, []
        except (KeyboardInterrupt, MemoryFault):
            self.close()
            raise
        return old

    # ---- Its end

    @property
    def is_closed(self) -> bool:
        """Whether the session is over."""
        return self._session.is_closed

    def __enter__(self) -> GraphSession[Result]:
        return self

    def __exit__(
        self, kind: type[BaseException] | None, raised: BaseException | None, trace: TracebackType | None
    ) -> None:
        self.close()

    def close(self) -> None:
        """Ends the session, as `Session.close`."""
        self._session.close()


def _session_prices(known: Sequence[Price], more: Sequence[Price]) -> tuple[Price, ...]:
    """The prices that are known, each at its place, those that come to them, and 1 if there is room; ValueError if they
    are too many."""
    table = (*known, *(price for price in dict.fromkeys(more) if price not in known))
    judge_kinds(len(table))
    return table if 1 in table or len(table) == KINDS else (*table, 1)
