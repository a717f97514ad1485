"""The kinds of edges and their prices: a picture at other prices."""

from __future__ import annotations

from collections.abc import Sequence
from dataclasses import replace

from ..engine.graph_edges import GREATEST_PRICE, KINDS, Price
from ..engine.results import Planarization

#: What is said of a price that is none.
BOUNDS = f"a price is a whole number from 1 to {GREATEST_PRICE}"


def repriced(result: Planarization, prices: Sequence[Price | float]) -> Planarization:
    """The planarization with these prices of the kinds 0, 1, .., its picture and all ids as they are.

    ValueError with words for the user where they are the prices already or too many, where one is no whole number,
    where a kind that an edge has would be without a price, and where an edge that is crossed would be one that nothing
    may cross. Whether the program takes the prices is not asked here.
    """
    if len(prices) > KINDS:
        raise ValueError(f"there are at most {KINDS} kinds")
    for kind, price in enumerate(prices):
        if isinstance(price, float):
            raise ValueError(f"kind {kind}: {BOUNDS}")
    if tuple(prices) == result.prices:
        raise ValueError("these are the prices already")
    for row in result.picture.edges:
        words = " – ".join(map(str, result.edge_of[row.id][:2]))
        if row.kind >= len(prices):
            raise ValueError(f"{words} is of kind {row.kind}, which must have a price")
        if prices[row.kind] is None and row.crossings:
            raise ValueError(f"{words} is of kind {row.kind} and has a crossing: nothing could cross it")
    return replace(result, prices=tuple(prices), reports=())


def price_words(prices: Sequence[Price | float]) -> str:
    """Prices in words, in the order of the kinds."""
    return ", ".join("nothing may cross" if price is None else str(price) for price in prices)
