"""Drawings near others: what both have stays where it is, and they are true."""

import random
import unittest
import warnings
from statistics import median

import networkx as nx

from fezdrok import (
    NotPlanarized, PlanarWarning, Planarization, draw, drawing_of, from_positions, planarize, reinsert, to_svg,
)
from fezdrok.drawing.near_lines import restricted, turned

from .support import needs_matplotlib, needs_program


def changed(result: Planarization, chance: random.Random) -> Planarization:
    """The planarization after one to three edges came or went, in a session."""
    with result.session() as session:
        for _ in range(chance.randrange(1, 4)):
            which, nodes = chance.random(), list(session.graph)
            if which < 0.6:
                u, v = chance.sample(nodes, 2)
                if not session.graph.has_edge(u, v):
                    session.insert_edge(u, v)
            elif which < 0.8:
                session.grow_edge(chance.choice(nodes), len(nodes) + 100)
            else:
                try:
                    session.delete_edge(*chance.choice(list(session.graph.edges)))
                except NotPlanarized:  # the graph would fall apart
                    pass
        return session.result()


def places(drawing) -> dict:
    """Where the nodes of a drawing lie."""
    return {shape.node: shape.middle for shape in drawing.scene.nodes}


@needs_program
class Near(unittest.TestCase):
    def test_edges_that_come_and_go(self):
        for seed in range(8):
            chance = random.Random(seed)
            graph = nx.connected_watts_strogatz_graph(16, 4, 0.3, seed=seed)
            style = "straight" if seed % 3 == 0 else "curved"
            drawing = drawing_of(planarize(graph, effort="quick"), style=style)
            for step in range(4):
                with self.subTest(seed=seed, step=step):
                    result = changed(drawing.result, chance)
                    after = drawing_of(result, style=style, near=drawing)
                    self.assertEqual(after.verify(), [])
                    before, now = places(drawing), places(after)
                    self.assertEqual(set(now), set(result.graph))
                    self.assertEqual({node: now[node] for node in before}, before)
                    drawing = after

    def test_an_edge_more_moves_the_others_little(self):
        graph = nx.random_regular_graph(3, 30, seed=2)
        before = drawing_of(planarize(graph))
        u, v = next(pair for pair in nx.non_edges(graph))
        with before.result.session() as session:
            session.insert_edge(u, v)
            after = drawing_of(session.result(), near=before)
        length = median(abs(complex(*places(before)[u]) - complex(*places(before)[v])) for u, v in graph.edges)
        moved = [abs(complex(*places(before)[node]) - complex(*places(after)[node])) for node in graph]
        self.assertLessEqual(median(moved), length / 10)

    def test_a_search_that_went_on(self):
        """Of edges that were taken out and put in elsewhere, the others keep the nodes where they are, or it is told that
        the drawing begins anew."""
        kept = 0
        for seed in range(12):
            graph = nx.connected_watts_strogatz_graph(16, 4, 0.3, seed=seed)
            with planarize(graph, effort="quick").session() as session:
                for u, v in random.Random(seed).sample(list(nx.non_edges(graph)), 4):
                    session.insert_edge(u, v)
                first = session.result()
            better, drawing = reinsert(first), drawing_of(first)
            with self.subTest(seed), warnings.catch_warnings(record=True) as told:
                warnings.simplefilter("always")
                after = drawing_of(better, near=drawing)
                self.assertEqual(after.verify(), [])
                if not told:
                    self.assertEqual(places(after), places(drawing))
                    kept += better.crossings < first.crossings
        self.assertGreater(kept, 0)

    def test_a_node_that_comes_first_in_its_edge(self):
        """The new node is where its edge begins; an edge of a directed graph that ends at it is walked from there."""
        graph = nx.DiGraph([(0, 1), (1, 2), (2, 0)])
        before = drawing_of(planarize(graph))
        graph.add_edges_from([("new", 0), ("new", 1)])
        pos = {**places(before), "new": (9.0, 9.5)}
        after = drawing_of(from_positions(graph, pos), near=before)
        self.assertEqual(after.verify(), [])
        self.assertEqual({node: places(after)[node] for node in (0, 1, 2)}, places(before))

    def test_what_begins_anew(self):
        before = drawing_of(planarize(nx.cycle_graph(5)))
        for graph in (nx.relabel_nodes(nx.cycle_graph(5), str), nx.disjoint_union(nx.cycle_graph(3), nx.path_graph(2))):
            with self.assertWarnsRegex(PlanarWarning, "this one begins anew"):
                self.assertEqual(drawing_of(planarize(graph), near=before).verify(), [])

    def test_what_is_refused(self):
        result = planarize(nx.cycle_graph(5))
        near, along = drawing_of(result), drawing_of(result, style="orthogonal")
        for words, message in (
            ({"near": 5}, "near is 5: it must be a Drawing"),
            ({"near": along}, "an orthogonal drawing has points of its own: leave near out"),
            ({"near": near, "style": "orthogonal"}, "leave near out"),
            ({"near": near, "pos": {node: (node, node * node) for node in result.graph}}, "pos and near both say"),
        ):
            with self.assertRaisesRegex(ValueError, message):
                drawing_of(result, **words)
        self.assertEqual(to_svg(result, near=near), near.to_svg())

    @needs_matplotlib
    def test_by_matplotlib(self):
        result = planarize(nx.cycle_graph(5))
        self.assertIsNotNone(draw(result, near=drawing_of(result)))

    def test_parts_of_pictures(self):
        result = planarize(nx.complete_graph(6))
        kept = {row.id for row in result.picture.edges[:12]}
        part = restricted(result.picture, kept)
        self.assertEqual(part.counts.euler, 2)
        for row in part.edges:
            other = turned(part, row.id)
            self.assertEqual(other.counts, part.counts)
            self.assertEqual(other.path(row.id), part.path(row.id)[::-1])
            self.assertEqual(turned(other, row.id), part)


if __name__ == "__main__":
    unittest.main()
