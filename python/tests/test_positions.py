"""Layouts, the pictures that positions show, and searches that go on from them."""

import random
import unittest
from decimal import Decimal
from fractions import Fraction

import networkx as nx

from fezdrok import DegeneratePositionsError, PlanarError, drawing_of, from_positions, layout, planarize

from .drawing_support import side
from .support import needs_program


def crossings_by_pairs(graph, pos) -> int:
    """How many pairs of edges cross, by a look at all pairs; without what is degenerate."""
    edges = [(pos[u], pos[v]) for u, v in graph.edges()]
    return sum(
        side(p, q, r) * side(p, q, s) < 0 and side(r, s, p) * side(r, s, q) < 0
        for place, (p, q) in enumerate(edges)
        for r, s in edges[:place]
    )


def scattered(graph, seed: int, extent: int = 10**6) -> dict:
    """Positions at random, in whole numbers."""
    chance = random.Random(seed)
    return {node: (chance.randrange(extent), chance.randrange(extent)) for node in graph}


class Positions(unittest.TestCase):
    @needs_program
    def test_crossings_of_random_drawings(self):
        """As many as by all pairs; the program takes each picture, and a drawing at these points is true."""
        for seed in range(40):
            graph = nx.gnm_random_graph(2 + seed % 13, seed, seed=seed, directed=seed % 3 == 0)
            if any(graph.has_edge(v, u) for u, v in graph.edges) and graph.is_directed():
                graph = graph.to_undirected()
            pos = scattered(graph, seed)
            result = from_positions(graph, pos)
            self.assertEqual(result.crossings, crossings_by_pairs(graph, pos))
            result.verify(graph)
            if seed % 4 == 0:
                drawing_of(result, pos=pos, style="straight", labels=False)

    def test_kinds_of_numbers(self):
        square = {0: (0, 0), 1: (1, 0), 2: (1, 1), 3: (0, 1)}
        due = from_positions(nx.complete_graph(4), square)
        self.assertEqual(due.crossing_pairs, [((0, 2), (1, 3))])
        for kind in (float, Fraction, Decimal, lambda it: Fraction(it, 7), (10**40).__mul__, (1e-300).__mul__):
            pos = {node: (kind(x), kind(y)) for node, (x, y) in square.items()}
            self.assertEqual(from_positions(nx.complete_graph(4), pos), due)

    def test_what_is_nearly_degenerate(self):
        """A node a hair beside an edge, and three edges that all but meet."""
        hair = Fraction(1, 10**30)
        pos = {0: (0, 0), 1: (2, 0), 2: (1, hair), 3: (1, 1), 4: (1, -1)}
        graph = nx.Graph([(0, 1), (2, 3), (2, 4)])
        self.assertEqual(from_positions(graph, pos).crossings, 1)
        pos[2] = (1, -hair)
        self.assertEqual(from_positions(graph, pos).crossing_pairs, [((0, 1), (2, 3))])
        star = nx.Graph([(0, 1), (2, 3), (4, 5)])
        around = {0: (-1, 0), 1: (1, 0), 2: (-1, -1), 3: (1, 1), 4: (-1, 1), 5: (1 + hair, -1)}
        result = from_positions(star, around)
        self.assertEqual((result.crossings, len(result.parts)), (3, 0))

    def test_what_is_degenerate(self):
        for edges, pos, words in (
            ([(0, 1)], {0: (1, 2), 1: (1.0, 2)}, "the nodes 0 and 1 lie in one point"),
            ([(0, 1), (2, 3)], {0: (0, 0), 1: (2, 2), 2: (1, 1), 3: (5, 0)}, r"the node 2 lies on the edge \(0, 1\)"),
            ([(0, 1), (0, 2)], {0: (0, 0), 1: (2, 0), 2: (1, 0)}, r"the node 2 lies on the edge \(0, 1\)"),
            (
                [(0, 1), (2, 3), (4, 5)],
                {0: (-1, 0), 1: (1, 0), 2: (-1, -1), 3: (1, 1), 4: (-1, 1), 5: (1, -1)},
                r"the edges \(0, 1\), \(2, 3\) and \(4, 5\) meet in one point",
            ),
            ([(0, 1)], {0: (0, float("nan")), 1: (1, 1)}, r"the position of 0 is \(0, nan\), and no two numbers"),
            ([(0, 1)], {0: (0, 0, 0), 1: (1, 1)}, "no two numbers"),
            ([(0, 1)], {0: (0, float("inf")), 1: (1, 1)}, "no two numbers"),
            ([(0, 1)], {0: "xy", 1: (1, 1)}, "no two numbers"),
        ):
            with self.assertRaisesRegex(DegeneratePositionsError, words) as caught:
                from_positions(edges, pos)
            self.assertIsInstance(caught.exception, ValueError)
            self.assertIsInstance(caught.exception, PlanarError)
        twice = nx.MultiGraph([(0, 1), (0, 1)])
        with self.assertRaisesRegex(DegeneratePositionsError, "lie on each other"):
            from_positions(twice, {0: (0, 0), 1: (1, 0)})
        with self.assertRaisesRegex(ValueError, "the node 1 has no position"):
            from_positions([(0, 1)], {0: (0, 0)})
        crossed = {0: (0, 0), 1: (1, 1), 2: (0, 1), 3: (1, 0)}
        with self.assertRaisesRegex(ValueError, r"the edge \(2, 3\) must not be crossed"):
            from_positions([(0, 1), (2, 3)], crossed, price={(2, 3): None})
        self.assertEqual(from_positions([(0, 1), (2, 3)], crossed, price={(2, 3): 5}).cost, 5)

    def test_parts(self):
        """What hangs together in the drawing, also by a crossing alone, is a part."""
        graph = nx.Graph([(0, 1), (2, 3), (4, 5)])
        graph.add_node(6)
        result = from_positions(graph, {0: (0, 0), 1: (2, 2), 2: (0, 2), 3: (2, 0), 4: (9, 9), 5: (8, 9), 6: (5, 5)})
        self.assertEqual([part.node_of for part in result.parts], [(0, 1, 2, 3), (4, 5), (6,)])
        self.assertEqual([part.crossings for part in result.parts], [1, 0, 0])
        self.assertEqual(from_positions(nx.empty_graph(1), {0: (3, 4)}).crossings, 0)


@needs_program
class Starts(unittest.TestCase):
    def test_a_search_goes_on_from_positions(self):
        graph = nx.complete_graph(8)
        start = from_positions(graph, {node: (x, x * x) for node, x in enumerate((0, 1, 3, 7, 12, 20, 30, 44))})
        self.assertGreater(start.crossings, 40)
        self.assertLess(planarize(graph, start=start, effort="quick").crossings, start.crossings)
        result = planarize(graph, start=start)
        self.assertEqual(result.crossings, 18)
        result.verify(graph)

    def test_from_a_planarization_with_other_prices(self):
        graph = nx.relabel_nodes(nx.complete_graph(7), str)
        start = planarize(graph, effort="quick")
        result = planarize(graph, {("0", "1"): 50}, start=start)
        self.assertEqual(result.prices, (50, 1))
        result.verify()
        self.assertLessEqual(result.cost, planarize(graph, {("0", "1"): 50}, start=start, effort="quick").cost)

    def test_parts_that_cross(self):
        """Edges of one part that cross those of another are parted from them."""
        graph = nx.disjoint_union(nx.cycle_graph(5), nx.complete_graph(5))
        start = from_positions(graph, scattered(graph, 3))
        self.assertFalse(start.parts)
        result = planarize(graph, start=start)
        self.assertEqual([part.crossings for part in result.parts], [0, 1])
        result.verify(graph)
        graph.add_node("alone")
        self.assertEqual(len(planarize(graph, start=planarize(graph, effort="quick")).parts), 3)

    def test_starts_that_cannot_be_used(self):
        graph, pos = nx.complete_graph(4), {0: (0, 0), 1: (3, 0), 2: (3, 3), 3: (0, 3)}
        start = from_positions(graph, pos)
        for words, message in (
            ({"start": 5}, "start is 5: it must be a Planarization"),
            ({"start": from_positions(nx.cycle_graph(4), pos)}, "start is <Planarization: 4 nodes, 4 .* another graph"),
            ({"start": from_positions(nx.star_graph(3), {**pos, 0: (1, 1)})}, "of another graph"),
            ({"start": start, "forbidden": [(1, 3)]}, r"start has crossings on the edge \(1, 3\)"),
        ):
            with self.assertRaisesRegex(ValueError, message):
                planarize(graph, **words)
        graph.remove_edge(0, 1)
        graph.add_edge(0, 9)
        with self.assertRaisesRegex(ValueError, "of another graph"):
            planarize(graph, start=start)
        other = nx.relabel_nodes(nx.path_graph(4), {0: 0, 1: 2, 2: 1, 3: 3})
        with self.assertRaisesRegex(ValueError, r"of another graph: it has no edge \(0, 2\)"):
            planarize(other, start=from_positions(nx.path_graph(4), pos))


@needs_program
class Layouts(unittest.TestCase):
    def test_planar_graphs(self):
        for graph in (nx.grid_2d_graph(4, 5), nx.balanced_tree(2, 4), nx.icosahedral_graph(), nx.path_graph(2)):
            pos = layout(graph)
            self.assertEqual(set(pos), set(graph))
            self.assertEqual(from_positions(graph, pos).crossings, 0)
            self.assertLessEqual(max(abs(it) for place in pos.values() for it in place), 1 + 1e-9)

    def test_scale_and_center(self):
        graph = nx.disjoint_union(nx.complete_graph(5), nx.path_graph(3))
        pos = layout(graph, scale=10, center=(100, 200), effort="quick")
        xs, ys = zip(*pos.values())
        for found, due in ((min(xs), 90), (max(xs), 110)):
            self.assertAlmostEqual(found, due)
        self.assertTrue(190 < min(ys) < max(ys) < 210)
        self.assertEqual(layout(nx.empty_graph(1), center=(3, 4)), {0: (3.0, 4.0)})


if __name__ == "__main__":
    unittest.main()
