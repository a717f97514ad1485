"""Flows of least cost in networks, along one shortest way after another."""

from __future__ import annotations

from bisect import insort
from collections.abc import Sequence
from heapq import heappop, heappush
from typing import NamedTuple

#: Farther than any way: a whole number, as those are compared with each other sooner.
FAR = 1 << 200


class Arc(NamedTuple):
    """An arc of a network: it leads from a node to another, and each unit that it carries, up to its capacity, costs so
    much, which is at least 0."""

    start: int
    end: int
    capacity: int
    cost: int


def least_cost_flow(demand: Sequence[int], arcs: Sequence[Arc]) -> tuple[list[int], list[int]]:
    """What each arc carries in a flow of least cost by which each node takes as much more than it gives as its demand
    says; and a potential of each node: by no arc that could carry more does it grow more than the arc costs, and by
    one that carries anything it does not grow less. ValueError where there is no such flow.

    While a node has something left, the nearest node that wants something is found (Dijkstra), with costs reduced by
    the potentials so that none is negative, and as much is sent there as can be (Edmonds and Karp, Theoretical
    Improvements in Algorithmic Efficiency for Network Flow Problems, 1972). Each search ends where it finds one, so it
    looks at few nodes where what is wanted is near.
    """
    network = _Residual(demand, arcs)
    for source, number in enumerate(demand):
        while number < 0 and network.left[source] > 0:
            network.send(source)
    return network.room[1::2], network.potential


class _Residual:
    """What is left of a network: arc 2i is the arc i, and 2i + 1 leads back. `open` has for each node the arcs that can
    carry more from there, in order, each with its end and its cost. Between searches no node is `reached`."""

    def __init__(self, demand: Sequence[int], arcs: Sequence[Arc]):
        self.left = [-number for number in demand]
        self.potential = [0] * len(demand)
        self.room: list[int] = []
        self.halves: list[tuple[int, int, int]] = []
        self.open: list[list[tuple[int, int, int]]] = [[] for _ in demand]
        self.reached = [FAR] * len(demand)
        self.last = [0] * len(demand)
        for place, (start, end, capacity, cost) in enumerate(arcs):
            self.room += (capacity, 0)
            self.halves += ((2 * place, end, cost), (2 * place + 1, start, -cost))
            if capacity:
                self.open[start].append(self.halves[-2])

    def send(self, source: int) -> None:
        """Send as much as can be from a node to the nearest that wants something, and change the potentials of all
        nodes that are nearer."""
        potential, left, reached, last, count = self.potential, self.left, self.reached, self.last, len(self.left)
        reached[source] = 0
        seen, far = [source], []
        waiting = [source]  # a number for a way to a node, the shortest first
        end = None
        while end is None:
            if not waiting:
                raise ValueError("the network takes no such flow")
            way, node = divmod(heappop(waiting), count)
            if way > reached[node]:
                continue
            if left[node] < 0:
                end = node
                break
            far.append((node, way))
            base = way + potential[node]
            for arc, other, cost in self.open[node]:
                there = base + cost - potential[other]
                if there < reached[other]:
                    reached[other], last[other] = there, arc
                    seen.append(other)
                    if there == way and left[other] < 0:
                        end = other
                        break
                    heappush(waiting, there * count + other)
        for node, there in far:
            potential[node] += there - way
        for node in seen:
            reached[node] = FAR
        self._carry(source, end)

    def _carry(self, source: int, end: int) -> None:
        """Send as much as can be along the way that was found."""
        path, node = [], end
        while node != source:
            path.append(self.last[node])
            node = self.halves[path[-1] ^ 1][1]
        amount = min(self.left[source], -self.left[end], *(self.room[arc] for arc in path))
        self.left[source] -= amount
        self.left[end] += amount
        for arc in path:
            back = self.halves[arc ^ 1]
            if not self.room[arc ^ 1]:
                insort(self.open[self.halves[arc][1]], back)
            self.room[arc] -= amount
            self.room[arc ^ 1] += amount
            if not self.room[arc]:
                self.open[back[1]].remove(self.halves[arc])
