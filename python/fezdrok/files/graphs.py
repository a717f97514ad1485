"""A networkx graph read for planarization: its edges in order, and a kind for each by what it costs to cross.

networkx is imported where it is used: whoever runs single commands does not wait for it.
"""

from __future__ import annotations

import math
from collections.abc import Callable, Iterable, Mapping, Sequence
from dataclasses import dataclass
from numbers import Real
from operator import index
from typing import Any, Literal

from ..engine.graph_copies import GraphCopy, GraphPart
from ..engine.graph_edges import GREATEST_PRICE, KINDS, GraphEdge, Node, Price, judge_kinds

#: How prices are given: the name of an edge attribute, a mapping from edges, or a function of both nodes and the data.
Pricing = None | str | Mapping[GraphEdge, Price] | Callable[[Any, Any, dict[str, Any]], Price]

#: What is to be as small as can be: the number of crossings, or the sum of their costs.
Objective = Literal["crossings", "cost"]

#: How often the factor by which prices are rounded is halved, till it is known.
_HALVINGS = 40


@dataclass(frozen=True, eq=False)
class PricedGraph:
    """A graph whose edges have kinds: `kinds[i]` belongs to `edges[i]`, and `prices[k]` is what crossing an edge of
    kind k costs. `objective` says what is less in a better picture."""

    copy: GraphCopy
    nodes: tuple[Node, ...]
    edges: tuple[GraphEdge, ...]
    kinds: tuple[int, ...]
    prices: tuple[Price, ...]
    objective: Objective = "crossings"

    def score(self, crossings: int, cost: int) -> tuple[int, int]:
        """What is less in a better picture: first what the objective says, then the other."""
        return (cost, crossings) if self.objective == "cost" else (crossings, cost)

    def part(self, nodes: Sequence[Node]) -> GraphCopy | GraphPart:
        """The copy, or the part of it that these nodes have."""
        return self.copy if len(nodes) == len(self.nodes) else GraphPart(self.copy, nodes)

    def price(self, place: int) -> Price:
        """The price of the edge at this place of `edges`."""
        return self.prices[self.kinds[place]]


def read_graph(
    graph: Any,
    price: Pricing = None,
    forbidden: Iterable[GraphEdge] | None = None,
    round_prices: bool = False,
    objective: Objective | None = None,
) -> PricedGraph:
    """A copy of the graph with its kinds, or a ValueError that says why it cannot be planarized. It need not be
    connected, nor have an edge. Where there are more prices than kinds, `round_prices` has those that are near each
    other share one. Without an objective it is the cost where a price is not 1, and else the crossings."""
    if not isinstance(round_prices, bool):
        raise ValueError(f"round_prices is {round_prices!r}: it must be True or False")
    graph = _graph_of(graph)
    copy = GraphCopy(graph)
    nodes, edges = tuple([row[0] for row in copy.node_rows]), tuple([row[:-1] for row in copy.edge_rows])
    _judge_form(nodes, edges)
    if price is None and forbidden is None:
        table: tuple[Price, ...] = (1,) if edges else ()
        return PricedGraph(copy, nodes, edges, (0,) * len(edges), table, objective or "crossings")
    rows = [row[-1] for row in copy.edge_rows]
    if isinstance(price, str):
        _judge_attribute(price, rows)
    price_of = _price_function(price, graph.is_directed())
    prices = [_judge_price(edge, price_of(edge, data)) for edge, data in zip(edges, rows)]
    for place in _forbidden_places(edges, () if forbidden is None else forbidden, graph.is_directed()):
        prices[place] = None
    if round_prices:
        near = _rounded(prices)
        prices = [near[price] for price in prices]
    table = _price_table(edges, prices)
    kind_of = {price: kind for kind, price in enumerate(table)}
    kinds = tuple(kind_of[price] for price in prices)
    return PricedGraph(copy, nodes, edges, kinds, table, objective or objective_for(table))


def objective_for(prices: Iterable[Price]) -> Objective:
    """What is to be as small as can be where it is not said: the cost where some price is not 1."""
    return "cost" if any(price not in (1, None) for price in prices) else "crossings"


def _graph_of(graph: Any) -> Any:
    """A networkx graph itself, or the graph of pairs of nodes; ValueError where it is neither."""
    import networkx

    if isinstance(graph, networkx.Graph):
        return graph
    try:
        pairs = [tuple(pair) for pair in graph]
        if not isinstance(graph, (str, bytes)) and all(len(pair) == 2 for pair in pairs):
            return networkx.Graph(pairs)
    except (TypeError, ValueError, networkx.NetworkXException):
        pass
    raise ValueError(f"{graph!r:.80} is no graph of networkx, and no list of pairs of nodes")


def _judge_form(nodes: Sequence[Node], edges: Sequence[GraphEdge]) -> None:
    """ValueError unless the graph has a node, each is equal to itself, and there is no loop."""
    if not nodes:
        raise ValueError("the graph has no edge and no node: the smallest picture is one node")
    for node in nodes:
        if node != node:
            raise ValueError(f"the node {node!r} is not equal to itself, so its edges cannot be found")
    loop = next((edge for edge in edges if edge[0] == edge[1]), None)
    if loop is not None:
        raise ValueError(f"the graph has a loop at {loop[0]!r}: a picture has none")


def _judge_attribute(name: str, data: Sequence[dict[str, Any]]) -> None:
    """ValueError where no edge has the attribute that prices are to be taken from."""
    if not any(name in row for row in data):
        known = sorted({repr(key) for row in data for key in row})
        there_are = f"there are {', '.join(known)}" if known else "edges have none at all"
        raise ValueError(f"no edge has the attribute {name!r} for its price: {there_are}")


def _price_function(price: Pricing, directed: bool) -> Callable[[GraphEdge, dict[str, Any]], Price]:
    """How much an edge with its data costs; an edge that is not named costs 1."""
    if price is None:
        return lambda edge, data: 1
    if isinstance(price, str):
        attribute = price
        return lambda edge, data: data.get(attribute, 1)
    if isinstance(price, Mapping):
        table = price
        return lambda edge, data: next((table[name] for name in _names(edge, directed) if name in table), 1)
    if not callable(price):
        raise ValueError(
            f"price is {price!r}: it must be the name of an edge attribute, a mapping from edges, or a function of "
            "both nodes and the data"
        )
    function = price
    return lambda edge, data: function(edge[0], edge[1], data)


def _names(edge: GraphEdge, directed: bool) -> list[GraphEdge]:
    """What an edge may be called: with or without its key, and in an undirected graph either way round."""
    u, v, key = edge[0], edge[1], edge[2:]
    names = [(u, v, *key)] if directed else [(u, v, *key), (v, u, *key)]
    return names + [name[:2] for name in names] if key else names


def _judge_price(edge: GraphEdge, price: Any) -> Price:
    """The price if it is None or a whole number from 1 to 1000, also as a float or a number of numpy; else a
    ValueError."""
    if price is None:
        return None
    number = _whole(price)
    if number is None or not 1 <= number <= GREATEST_PRICE:
        raise ValueError(
            f"the price of {edge!r} is {price!r}: it must be a whole number from 1 to {GREATEST_PRICE}, or None"
        )
    return number


def _whole(value: Any) -> int | None:
    """A number as an integer if it is one, also where it is written as a float; else None."""
    try:
        return index(value)
    except TypeError:
        return int(value) if isinstance(value, Real) and float(value).is_integer() else None


def _forbidden_places(edges: Sequence[GraphEdge], forbidden: Any, directed: bool) -> set[int]:
    """The places of the edges that are forbidden. Without a key all edges between both nodes are meant. ValueError
    where one is named that is not there."""
    by_name: dict[GraphEdge, list[int]] = {}
    for place, edge in enumerate(edges):
        for name in _names(edge, directed):
            by_name.setdefault(name, []).append(place)
    try:
        rows = list(forbidden)
    except TypeError:
        raise ValueError(f"forbidden is {forbidden!r}: it must be a list of edges") from None
    places: set[int] = set()
    for edge in rows:
        try:
            places.update(by_name[tuple(edge)])
        except (KeyError, TypeError):
            raise ValueError(f"forbidden names {edge!r}, which is no edge of the graph") from None
    return places


def _price_table(edges: Sequence[GraphEdge], prices: Sequence[Price]) -> tuple[Price, ...]:
    """The different prices, the dearest first, or a ValueError if there are more than kinds."""
    different = list(dict.fromkeys(prices))
    for price in different[KINDS:]:
        edge = edges[prices.index(price)]
        judge_kinds(len(different), f"; that of {edge!r} is one too many, and round_prices=True has near ones share one")
    return tuple(sorted(different, key=lambda price: GREATEST_PRICE + 1 if price is None else price, reverse=True))


def _rounded(prices: Iterable[Price]) -> dict[Price, Price]:
    """For each price the one that is taken for it, so that there are no more than kinds.

    Neighbours share one where that is needed, such that the greatest factor by which a price is changed is as small as
    can be, but for the rounding to whole numbers. A price of None stays.
    """
    near: dict[Price, Price] = {price: price for price in prices}
    numbers = sorted(price for price in near if price is not None)
    most = KINDS - (None in near)
    factor, too_little = float(GREATEST_PRICE), 1.0
    if len(numbers) <= most:
        return near
    for _ in range(_HALVINGS):
        middle = (factor + too_little) / 2
        if len(_runs(numbers, middle)) <= most:
            factor = middle
        else:
            too_little = middle
    for run in _runs(numbers, factor):
        near.update(dict.fromkeys(run, round(math.sqrt(run[0] * run[-1]))))
    return near


def _runs(numbers: Sequence[int], factor: float) -> list[list[int]]:
    """Rising numbers cut into as few runs as can be, in each of which the last is at most the first times the
    factor."""
    runs: list[list[int]] = []
    for number in numbers:
        if runs and number <= factor * runs[-1][0]:
            runs[-1].append(number)
        else:
            runs.append([number])
    return runs
