"""Graphs that are not connected, planarizations planarized again, and failures that say what was wrong."""

import unittest

import networkx as nx

from fezdrok import (
    Dummy, NoReport, Picture, PlanarError, Planarizer, ProgramFailed, ProgramNotStarted, Report,
    from_networkx_embedding, from_positions, orthogonal_drawing, planarize, reinsert, to_networkx_embedding, to_svg,
)
from fezdrok.drawing.drawings import positions

from .support import crossings_of, fake, graph_pairs, needs_program, on_a_curve, pairs_of, traced


@needs_program
class Components(unittest.TestCase):
    def graph(self):
        return nx.disjoint_union_all(
            [nx.petersen_graph(), nx.complete_graph(6), nx.path_graph(2), nx.empty_graph(2), nx.cycle_graph(4)]
        )

    def test_one_result(self):
        graph = self.graph()
        result = planarize(graph, tries=2, seed=1)
        self.assertEqual([part.crossings for part in result.parts], [2, 3, 0, 0, 0, 0])
        self.assertEqual((result.crossings, result.cost, sum(result.tries) >= 5), (5, 5, True))
        self.assertEqual(set(result.vertex_of), set(graph))
        self.assertEqual(set(result.id_of), set(graph.edges))
        for u, v in graph.edges:
            chain = result.segments(u, v)
            self.assertEqual((chain[0].start, chain[-1].end), (u, v))
        for first, second in result.crossing_pairs:
            self.assertTrue(graph.has_edge(*first) and graph.has_edge(*second))
        self.assertEqual(len(result.to_json()["nodes"]), len(graph))

    def test_each_part_is_lawful_and_as_by_itself(self):
        result = planarize(self.graph(), effort="quick")
        self.assertEqual(result.parts[1].picture, planarize(nx.complete_graph(6), effort="quick").picture)
        for part in result.parts:
            if part.picture.edges:
                self.assertEqual(Planarizer().check(part.picture), part.picture.counts)

    def test_the_embedding(self):
        graph = self.graph()
        result = planarize(graph)
        embedding = to_networkx_embedding(result)
        embedding.check_structure()
        self.assertEqual(crossings_of(embedding), result.crossings)
        self.assertEqual(pairs_of(traced(embedding)), graph_pairs(graph))
        self.assertEqual(set(positions(result)), set(embedding))

    def test_words_for_the_whole(self):
        graph = nx.disjoint_union(nx.complete_graph(5), nx.complete_graph(5))
        result = planarize(graph, price=lambda u, v, data: 1 + u, forbidden=[(0, 1), (5, 6)])
        self.assertEqual((result.prices[0], sorted(result.prices[1:], reverse=True)), (None, list(result.prices[1:])))
        for edge in ((0, 1), (5, 6)):
            self.assertEqual(len(result.segments(*edge)), 1)
        with self.assertRaisesRegex(ValueError, "no edge of the graph"):
            planarize(graph, forbidden=[(0, 9)])

    def test_reinsert(self):
        graph = nx.disjoint_union(nx.petersen_graph(), nx.empty_graph(1))
        result = from_positions(graph, on_a_curve(graph))
        better = reinsert(result)
        self.assertLess(better.crossings, result.crossings)
        self.assertEqual(set(better.id_of), set(graph.edges))
        self.assertEqual(better.crossings, sum(part.crossings for part in better.parts))
        with self.assertRaisesRegex(ValueError, "seconds is -2"):
            reinsert(result, seconds=-2)

    def test_drawings(self):
        graph = self.graph()
        result = planarize(graph)
        drawing = orthogonal_drawing(result)
        self.assertEqual(
            (set(drawing.boxes), set(drawing.lines), len(drawing.crossings)),
            (set(graph), set(result.edge_of), result.crossings),
        )
        self.assertEqual(len(set(drawing.boxes.values())), len(graph))
        for style in ("straight", "orthogonal"):
            self.assertEqual(to_svg(result, style=style).count("<use"), len(graph))


@needs_program
class PlanarizedTwice(unittest.TestCase):
    def test_dummies_do_not_clash(self):
        first = to_networkx_embedding(planarize(nx.complete_graph(6)))
        extended = nx.Graph(first.edges)
        extended.add_edges_from([(Dummy("crossing", 0), 3), (Dummy("crossing", 1), 4), (Dummy("crossing", 2), 1), (0, Dummy("crossing", 2)), (1, Dummy("crossing", 0))])
        result = planarize(extended)
        embedding = to_networkx_embedding(result)
        embedding.check_structure()
        self.assertGreater(result.crossings, 0)
        self.assertEqual(len(embedding), len(extended) + result.crossings)
        self.assertEqual({node.layer for node in embedding if isinstance(node, Dummy)}, {0, 1})
        self.assertEqual(repr(Dummy("crossing", 2, 1)), "x2'")
        self.assertEqual(len(from_networkx_embedding(embedding).rotations), len(embedding))


class Failures(unittest.TestCase):
    def test_a_text_that_is_no_report(self):
        for text, words in (
            ("", "no JSON"),
            ("{", "no JSON"),
            ("[]", "no report"),
            ("{}", "no report: KeyError 'history'"),
            ('{"history":3}', "no report"),
        ):
            with self.assertRaisesRegex(NoReport, words):
                Report.from_text(text)
        for text, words in (
            ("x", "no picture: it is no JSON"),
            ("{}", "no picture: KeyError"),
            ("[" * 100000, "no picture: RecursionError"),
        ):
            with self.assertRaisesRegex(NoReport, words):
                Picture.from_text(text)
        self.assertTrue(issubclass(NoReport, ValueError) and issubclass(NoReport, PlanarError))

    def test_a_program_that_prints_no_report(self):
        for body in ("true", "echo hello", "printf '\\377'", "echo '{}'"):
            with self.assertRaisesRegex(ProgramFailed, "printed no report"):
                Planarizer(program=fake(self, f"cat > /dev/null; {body}")).run()

    def test_a_program_that_cannot_be_started(self):
        path = fake(self, "true")
        with open(path, "wb") as file:
            file.write(b"\x7fELF no program")
        with self.assertRaisesRegex(ProgramNotStarted, "planar cannot be run: Exec format error"):
            Planarizer(program=path).run()


if __name__ == "__main__":
    unittest.main()
