"""Triangles drawn from few to many: nodes are contracted into others until only a convex ring is left, and then taken
out again, each into the middle of where it sees all of its neighbours.

A node that was contracted into a neighbour leaves that one in sight of all that it had round it. So there always is a
place for it near there, and at each step no triangle turns over: the drawing is plane at the end, as the ring was
(progressive meshes: Hoppe 1996; each such step has a place, as in Wagner's proof that a planar graph has a straight
drawing, 1936). In between the nodes are moved about, when they are still few.
"""

from __future__ import annotations

from collections.abc import Sequence
from typing import NamedTuple

Position = tuple[float, float]

#: The greatest number of neighbours that a node has which is contracted, while there are others.
FEW = 7


class Contraction(NamedTuple):
    """A node that went into another: `others` are its neighbours, counterclockwise, behind that one."""

    node: int
    into: int
    others: tuple[int, ...]


class Triangulation:
    """The neighbours of each node, counterclockwise, of those that are there, and for how many nodes each stands."""

    def __init__(self, around: list[list[int]], ring: Sequence[int]):
        self.around = around
        self.beside: list[set[int]] = [set(others) for others in around]
        self.weight = [1] * len(around)
        self.fixed = set(ring)

    def contracted(self) -> list[list[Contraction]] | None:
        """Contract all nodes but those of the ring, in rounds in which no neighbour of a node that went goes itself;
        the rounds. None where it comes to no end."""
        left = [node for node in range(len(self.around)) if node not in self.fixed]
        rounds: list[list[Contraction]] = []
        most = FEW
        while left:
            done: list[Contraction] = []
            still: set[int] = set()
            for node in sorted(left, key=lambda it: len(self.around[it])):
                if len(self.around[node]) > most:
                    break
                into = None if node in still else self._target(node)
                if into is not None:
                    still.update(self.around[node])
                    done.append(self._contract(node, into))
            if not done:
                most *= 2
                if most > 4 * len(self.around):
                    return None
                continue
            gone = {step.node for step in done}
            left = [node for node in left if node not in gone]
            rounds.append(done)
            most = FEW
        return rounds

    def _target(self, node: int) -> int | None:
        """The neighbour that a node can go into: they have two others in common alone, so no two links fall together.
        Of several, the one with the fewest neighbours, and one of the ring only where there is no other."""
        found = [other for other in self.around[node] if len(self.beside[node] & self.beside[other]) == 2]
        return min(found, key=lambda it: (it in self.fixed, len(self.around[it]))) if found else None

    def _contract(self, node: int, into: int) -> Contraction:
        around, beside = self.around, self.beside
        place = around[node].index(into)
        others = around[node][place + 1 :] + around[node][:place]
        spot = around[into].index(node)
        around[into][spot : spot + 1] = others[1:-1]
        beside[into].discard(node)
        beside[into].update(others[1:-1])
        for other in others[1:-1]:
            around[other][around[other].index(node)] = into
            beside[other].discard(node)
            beside[other].add(into)
        for wing in (others[0], others[-1]):
            around[wing].remove(node)
            beside[wing].discard(node)
        self.weight[into] += self.weight[node]
        return Contraction(node, into, tuple(others))

    def expand(self, step: Contraction) -> None:
        """Take a node out again, as it was before it was contracted; what came later has been undone."""
        node, into, others = step
        around = self.around
        order = around[into]
        spot, more = order.index(others[0]) + 1, len(others) - 2
        if spot + more > len(order):
            order = around[into] = order[spot:] + order[:spot]
            spot = 0 if more else len(order)
        order[spot : spot + more] = [node]
        for other in others[1:-1]:
            around[other][around[other].index(into)] = node
        around[others[0]].insert(around[others[0]].index(into), node)
        around[others[-1]].insert(around[others[-1]].index(into) + 1, node)
        self.weight[into] -= self.weight[node]


def middle_of_sight(corners: Sequence[Position]) -> Position | None:
    """The mean of the corners of the region from which all of a polygon can be seen, which is given by its corners,
    counterclockwise; None where there is as good as no such region."""
    region = list(corners)
    for (x, y), (u, v) in zip(corners, [*corners[1:], corners[0]]):
        sides = [(u - x) * (s - y) - (v - y) * (r - x) for r, s in region]
        cut: list[Position] = []
        for place, (point, here) in enumerate(zip(region, sides)):
            before, there = region[place - 1], sides[place - 1]
            if here * there < 0:
                part = there / (there - here)
                cut.append((before[0] + part * (point[0] - before[0]), before[1] + part * (point[1] - before[1])))
            if here >= 0:
                cut.append(point)
        region = cut
    if not region:
        return None
    return sum(x for x, _ in region) / len(region), sum(y for _, y in region) / len(region)
