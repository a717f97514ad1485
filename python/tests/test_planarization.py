"""Graphs planarized: crossings counted again, the graph read back from its planarization, known crossing numbers."""

import math
import random
import unittest
from collections import Counter
from fractions import Fraction

import networkx as nx

from fezdrok import (
    Counts, Fault, NotPlanarized, Planarizer, planarize, planarize_many, prepare, reinsert, to_networkx_embedding,
)
from fezdrok.files.graphs import read_graph

from .support import crossings_of, euler, graph_pairs, needs_program, pairs_of, traced


def named_graphs():
    """Graphs with their crossing numbers."""
    return {
        "K4": (nx.complete_graph(4), 0),
        "K5": (nx.complete_graph(5), 1),
        "K6": (nx.complete_graph(6), 3),
        "K7": (nx.complete_graph(7), 9),
        "K8": (nx.complete_graph(8), 18),
        "K33": (nx.complete_bipartite_graph(3, 3), 1),
        "K45": (nx.complete_bipartite_graph(4, 5), 8),
        "Petersen": (nx.petersen_graph(), 2),
        "Heawood": (nx.heawood_graph(), 3),
        "Moebius-Kantor": (nx.moebius_kantor_graph(), 4),
        "Pappus": (nx.pappus_graph(), 5),
        "Desargues": (nx.desargues_graph(), 6),
        "Q4": (nx.hypercube_graph(4), 8),
        "grid": (nx.grid_2d_graph(5, 6), 0),
        "torus": (nx.grid_2d_graph(4, 5, periodic=True), 10),
        "tree": (nx.balanced_tree(2, 4), 0),
        "edge": (nx.path_graph(2), 0),
    }


class PlanarizationTest(unittest.TestCase):
    """What holds of every result, told from the embedding that networkx has and from the graph."""

    def judge(self, result):
        graph, picture = result.graph, result.picture
        embedding = to_networkx_embedding(result)
        embedding.check_structure()
        self.assertEqual(euler(embedding), 2)
        self.assertEqual(crossings_of(embedding), result.crossings)
        walks = traced(embedding)
        self.assertEqual(pairs_of(walks), graph_pairs(graph))
        self.assertEqual({walk[0] for walk in walks}, set(graph))
        through = Counter(node for walk in walks for node in walk[1:-1])
        self.assertEqual({node for node in embedding if embedding.nodes[node]["dummy"]}, set(through))
        self.assertEqual(set(through.values()) - {2, 4}, set())
        self.judge_maps(result)
        self.assertEqual(picture.counts.euler, 2)

    def judge_maps(self, result):
        graph, picture = result.graph, result.picture
        edges = set(graph.edges(keys=True)) if graph.is_multigraph() else set(graph.edges())
        self.assertEqual(set(result.id_of), edges)
        self.assertEqual(set(result.vertex_of), set(graph))
        self.assertEqual(set(result.edge_of), {row.id for row in picture.edges})
        for edge_id, edge in result.edge_of.items():
            row = picture.edge(edge_id)
            self.assertEqual({result.node_of[row.a], result.node_of[row.b]}, set(edge[:2]))
            self.assertEqual(result.edge_id(*edge), edge_id)


class WholeNumber:
    """A whole number as numpy's are: it is none of Python's integers, and gives one."""

    def __index__(self) -> int:
        return 3


class Refusals(unittest.TestCase):
    """Graphs and words that are refused before the program is called."""

    def test_graphs(self):
        loop = nx.Graph([(0, 1), (1, 1)])
        for graph, words in ((nx.Graph(), "no edge"), ([], "no edge"), (loop, "loop at 1")):
            with self.subTest(words), self.assertRaisesRegex(ValueError, words):
                planarize(graph)
        with self.assertRaisesRegex(ValueError, "the node nan is not equal to itself"):
            planarize(nx.Graph([(float("nan"), 1)]))
        with self.assertRaisesRegex(ValueError, "no edge"):
            prepare(nx.Graph())
        for other in (5, None, "ab", [(0, 1, 2)], [0, 1], [([], 1)]):
            with self.subTest(other), self.assertRaisesRegex(ValueError, r"is no graph of networkx, and no list of pairs"):
                planarize(other)

    def test_prices(self):
        graph = nx.path_graph(3)
        for price in (0, 1001, 1.5, "dear", float("nan"), float("inf")):
            with self.subTest(price), self.assertRaisesRegex(ValueError, "from 1 to 1000"):
                planarize(graph, price=lambda u, v, data, price=price: price)

    def test_prices_that_are_whole(self):
        for price in (3, 3.0, Fraction(3), WholeNumber()):
            self.assertEqual(read_graph(nx.path_graph(3), lambda u, v, data, price=price: price).prices, (3,))

    def test_an_attribute_that_no_edge_has(self):
        graph = nx.path_graph(3)
        with self.assertRaisesRegex(
            ValueError, "no edge has the attribute 'weight' for its price: edges have none at all"
        ):
            planarize(graph, price="weight")
        graph.edges[0, 1]["weight"] = 2
        with self.assertRaisesRegex(ValueError, "no edge has the attribute 'wieght' for its price: there are 'weight'"):
            planarize(graph, price="wieght")
        self.assertEqual(read_graph(graph, "weight").prices, (2, 1))

    def test_64_prices_and_one_more(self):
        graph = nx.path_graph(66)
        self.assertEqual(len(read_graph(graph, lambda u, v, data: 1 + u % 64).prices), 64)
        with self.assertRaisesRegex(ValueError, r"65 different prices.* \(64, 65\) is one too many, and round_prices=True"):
            planarize(graph, price=lambda u, v, data: 1 + u)
        with self.assertRaisesRegex(ValueError, "65 different prices"):
            planarize(graph, price=lambda u, v, data: 1 + u % 64, forbidden=[(0, 1)])

    def test_more_prices_than_kinds_may_be_rounded(self):
        graph = nx.path_graph(1001)
        source = read_graph(graph, lambda u, v, data: 1 + u, round_prices=True)
        self.assertEqual(len(source.prices), 64)
        taken = [source.price(place) for place in range(1000)]
        self.assertEqual(taken, sorted(taken))
        self.assertEqual(taken[:11], list(range(1, 12)))
        self.assertLess(max(max(price / true, true / price) for true, price in enumerate(taken, 1)), 1.08)
        source = read_graph(graph, lambda u, v, data: 1 + u, forbidden=[(0, 1), (999, 1000)], round_prices=True)
        self.assertEqual((len(source.prices), source.price(0), source.price(999)), (64, None, None))

    def test_prices_are_rounded_only_where_there_are_too_many(self):
        graph = nx.path_graph(66)
        for prices in (lambda u, v, data: 1 + u % 64, lambda u, v, data: None if u == 0 else 900 + u % 63):
            kept, rounded = (read_graph(graph, prices, round_prices=way) for way in (False, True))
            self.assertEqual((kept.prices, kept.kinds), (rounded.prices, rounded.kinds))
        source = read_graph(graph, lambda u, v, data: 1 + u, round_prices=True)
        self.assertEqual([place + 1 for place in range(65) if source.price(place) != place + 1], [65])

    def test_edges_that_are_not_there(self):
        with self.assertRaisesRegex(ValueError, "no edge of the graph"):
            planarize(nx.path_graph(3), forbidden=[(0, 2)])
        with self.assertRaisesRegex(ValueError, "no edge of the graph"):
            prepare(nx.path_graph(3), forbidden=[(0, 2)])

    def test_options(self):
        wrong = {
            "tries": (0, "tries is 0: it must be 1 or more"),
            "seconds": (-0.5, "seconds is -0.5"),
        }
        wrong["progress"] = (3, "a function")
        for name, (value, words) in wrong.items():
            with self.subTest(name), self.assertRaisesRegex(ValueError, words):
                planarize(nx.path_graph(3), **{name: value})
        for name, value in (("tries", 1.5), ("seed", "two"), ("seconds", "long"), ("seconds", float("nan"))):
            with self.subTest(name), self.assertRaisesRegex(ValueError, f"{name} is .*: it must be a"):
                planarize(nx.path_graph(3), **{name: value})
        for options in ({"effort": "best"}, {"objective": "best"}):
            with self.assertRaisesRegex(ValueError, "not known"):
                planarize(nx.path_graph(3), **options)
        for call in (planarize, prepare, reinsert):
            with self.assertRaisesRegex(TypeError, "unexpected keyword argument 'turns'"):
                call(nx.path_graph(3), turns=3)

    @needs_program
    def test_options_of_before(self):
        """Each is taken, with a warning at the line of the caller that says what stands in its place."""
        graph = nx.complete_graph(6)
        due = planarize(graph)
        for name, value, words in (
            ("begin", "tree", "planar part"), ("order", "random", "`seed`"), ("rounds", 3, "`effort`"),
            ("shakes", 7, "`effort`"), ("limits", None, "greatest limits"),
        ):
            for call in (
                planarize, lambda graph, **old: prepare(graph, **old).run(),
                lambda graph, **old: reinsert(due, **old), lambda graph, **old: planarize_many([graph], **old)[0],
            ):
                with self.assertWarnsRegex(DeprecationWarning, f"{name} counts for nothing any more: .*{words}") as told:
                    self.assertEqual(call(graph, **{name: value}), due)
                self.assertEqual(told.filename, __file__)

    @needs_program
    def test_forbidden_edges_that_cross(self):
        graph = nx.complete_graph(5)
        with self.assertRaisesRegex(ValueError, "without crossings"):
            planarize(graph, forbidden=graph.edges)
        with self.assertRaises(NotPlanarized) as caught:
            planarize(nx.complete_graph(6), forbidden=[(5, 4), *graph.edges])
        self.assertEqual((caught.exception.edge, caught.exception.reply), ((3, 4), None))


class PriceKinds(unittest.TestCase):
    """Prices become kinds, without the program."""

    def test_equal_prices_share_a_kind_and_the_dearest_come_first(self):
        graph = nx.path_graph(4)
        source = read_graph(graph, {(0, 1): 5, (2, 1): 5, (2, 3): None})
        self.assertEqual((source.prices, source.kinds), ((None, 5), (1, 1, 0)))

    def test_attributes_and_what_has_none(self):
        graph = nx.Graph()
        graph.add_edge("a", "b", weight=7)
        graph.add_edge("b", "c")
        self.assertEqual([read_graph(graph, "weight").price(place) for place in (0, 1)], [7, 1])

    def test_parallel_edges_by_key_and_without(self):
        graph = nx.MultiGraph([(0, 1), (0, 1), (1, 2)])
        self.assertEqual(read_graph(graph, forbidden=[(1, 0, 1)]).kinds, (1, 0, 1))
        self.assertEqual(read_graph(graph, forbidden=[(1, 0)]).kinds, (0, 0, 1))

@needs_program
class Planarizations(PlanarizationTest):
    def test_known_crossing_numbers_are_lower_bounds(self):
        for name, (graph, number) in named_graphs().items():
            with self.subTest(name):
                result = planarize(graph, effort="quick")
                self.judge(result)
                self.assertGreaterEqual(result.crossings, number)

    def test_some_are_met(self):
        for name in ("K4", "K5", "K33", "tree", "edge"):
            graph, number = named_graphs()[name]
            self.assertEqual(planarize(graph, effort="quick", tries=5).crossings, number, name)

    def test_random_graphs(self):
        for seed in range(6):
            with self.subTest(seed):
                graph = nx.random_regular_graph(3 + seed % 3, 14, seed=seed)
                if nx.is_connected(graph):
                    self.judge(planarize(graph, effort="quick", seed=seed))

    def test_planar_graphs_and_no_fewer_crossings_than_there_must_be(self):
        for name, (graph, number) in named_graphs().items():
            with self.subTest(name):
                for effort in ("quick", "default"):
                    result = planarize(graph, effort=effort)
                    self.judge(result)
                    if number == 0:
                        self.assertEqual(result.crossings, 0)
                    self.assertGreaterEqual(result.crossings, number)
        graph = nx.MultiGraph(list(nx.complete_graph(5).edges) * 2)
        self.judge(planarize(graph, effort="quick", forbidden=[(0, 1)], price=lambda u, v, data: 1 + u))

    def test_multigraphs_directed_graphs_and_names_of_any_kind(self):
        multi = nx.MultiGraph([("a", "b"), ("a", "b"), ("b", "c"), ("c", "a"), ("b", "a")])
        directed = nx.DiGraph([(0, 1), (1, 0), (1, (2, 3)), ((2, 3), 0)])
        for graph in (multi, directed):
            result = planarize(graph)
            self.judge(result)
            self.assertEqual(result.crossings, 0)

    def test_two_edges_side_by_side_between_crossings(self):
        """An edge is crossed twice by another and then nothing lies between: the embedding needs a bend."""
        graph = nx.complete_graph(5)
        for seed in range(4):
            doubled = nx.MultiGraph(list(graph.edges) * 2)
            self.judge(planarize(doubled, effort="quick", seed=seed))

    def test_prices_decide_what_is_crossed(self):
        graph = nx.complete_graph(5)
        dear = {edge: 1000 for edge in graph.edges if edge != (0, 1)}
        result = planarize(graph, effort="quick", price=dear)
        self.judge(result)
        self.assertEqual(
            result.cost,
            sum(
                math.prod(result.prices[result.picture.edge(result.id_of[edge]).kind] for edge in pair)
                for pair in result.crossing_pairs
            ),
        )

    def test_forbidden_edges_have_no_crossing(self):
        for seed in range(5):
            graph = nx.complete_graph(7)
            forbidden = random.Random(seed).sample(sorted(nx.maximal_matching(graph)) + [(0, 2), (2, 4)], 4)
            with self.subTest(seed):
                result = planarize(graph, effort="quick", forbidden=forbidden, seed=seed)
                self.judge(result)
                for u, v in forbidden:
                    self.assertEqual(result.picture.edge(result.edge_id(u, v)).crossings, ())

    def test_forbidden_parallel_edges(self):
        graph = nx.MultiGraph(list(nx.complete_graph(6).edges) + [(0, 1), (0, 1)])
        result = planarize(graph, forbidden=[(0, 1)])
        self.judge(result)
        for key in range(3):
            self.assertEqual(result.picture.edge(result.edge_id(0, 1, key)).crossings, ())

    def test_forbidden_edges_that_part_the_ends_of_another(self):
        graph = nx.complete_graph(5)
        forbidden = [edge for edge in graph.edges if edge != (3, 4)]
        with self.assertRaises(NotPlanarized) as caught:
            planarize(graph, forbidden=forbidden)
        self.assertEqual((caught.exception.edge, caught.exception.reply.name), ((3, 4), "NoRoute"))

    def test_a_graph_that_is_larger_than_a_picture_may_be(self):
        for graph in (nx.path_graph(65_537), nx.MultiGraph([(0, 1)] * 65_537)):
            with self.assertRaisesRegex(Fault, "82 TooLarge"):
                planarize(graph)

    def test_the_program_counts_the_same(self):
        result = planarize(nx.complete_graph(6))
        self.assertEqual(Planarizer().check(result.picture), result.picture.counts)
        self.assertEqual(
            result.picture.counts, Counts(6, result.crossings, 15, 15 + 2 * result.crossings, 11 + result.crossings)
        )


@needs_program
class Routes(unittest.TestCase):
    """No route is cheaper than the one that was taken: the dual graph is made here, and networkx looks in it."""

    def test_prices_of_routes(self):
        for graph, price in (
            (nx.complete_graph(6), None), (nx.complete_graph(5), lambda u, v, data: 1 + (3 * u + v) % 5)
        ):
            result = planarize(graph, price)
            with result.session() as session:
                for u, v in graph.edges:
                    session.delete_edge(u, v)
                    session.insert_edge(u, v, result.prices[result.picture.edge(result.edge_id(u, v)).kind])
                report = session.result().reports[-1]
            planarizer = Planarizer(start=report.start, prices=report.prices)
            before = report.start
            for entry in report.history:
                with self.subTest(entry.call):
                    if hasattr(entry.reply, "crossed"):
                        self.assertEqual(
                            entry.reply.price, self.least(before, entry.call.u, entry.call.v, report.prices)
                        )
                planarizer.commands.append(entry.call)
                before = planarizer.run().picture
            self.assertEqual(before, report.picture)

    def least(self, picture, u, v, prices):
        face_of = {dart: number for number, face in enumerate(picture.faces) for dart in face}
        dual = nx.MultiDiGraph()
        dual.add_nodes_from(face_of.values())
        for dart in picture.darts:
            kind = picture.edge(dart.edge).kind
            dual.add_edge(face_of[dart], face_of[dart.twin], weight=prices[kind] if kind < len(prices) else 1)
        faces_at = [
            {face_of[picture.corner(vertex, place)] for place in range(len(picture.rotations[vertex]))}
            for vertex in (u, v)
        ]
        lengths = nx.multi_source_dijkstra_path_length(dual, faces_at[0])
        return min(lengths[face] for face in faces_at[1])


if __name__ == "__main__":
    unittest.main()
