"""The search for good pictures: all kinds of graphs, few crossings where the crossing number is known, the same result
each time and whoever asks for it: in process, from C, over the program, and where the program runs elsewhere."""

import os
import random
import shutil
import subprocess
import tempfile
import unittest

import networkx as nx

from fezdrok import NotPlanarized, Program, find_program, from_positions, planarize, prepare, reinsert

from .support import ROOT, needs_library, needs_program, on_a_curve
from .test_planarization import PlanarizationTest


@needs_program
class Defaults(PlanarizationTest):
    def test_known_crossing_numbers(self):
        graphs = {
            "K6": (nx.complete_graph(6), 3),
            "K8": (nx.complete_graph(8), 18),
            "Petersen": (nx.petersen_graph(), 2),
            "Q3": (nx.hypercube_graph(3), 0),
            "Q4": (nx.hypercube_graph(4), 8),
            "torus": (nx.grid_2d_graph(5, 5, periodic=True), 15),
            "grid": (nx.grid_2d_graph(15, 15), 0),
        }
        for name, (graph, number) in graphs.items():
            with self.subTest(name):
                result = planarize(graph)
                self.judge(result)
                self.assertEqual(result.crossings, number)

    def test_all_kinds_of_graphs(self):
        parallel = nx.MultiGraph(list(nx.complete_graph(6).edges) * 2)
        priced = {"price": lambda u, v, data: 1 + (u + 2 * v) % 4, "forbidden": [(0, 1), (1, 2)]}
        for graph, options in (
            (parallel, {}),
            (parallel, {"forbidden": [(0, 1)]}),
            (nx.complete_graph(8), priced),
            (nx.DiGraph(nx.complete_graph(5)), {}),
            (nx.barbell_graph(5, 3), {}),
        ):
            result = planarize(graph, tries=2, **options)
            self.judge(result)
            for u, v in options.get("forbidden", ()):
                self.assertEqual(len(result.segments(u, v, *([0] if graph.is_multigraph() else []))), 1)

    def test_leaves_and_paths(self):
        """A path of edges is searched as one edge, and a leaf as none: with them there are as many crossings."""
        plain = nx.random_regular_graph(4, 30, seed=3)
        long = nx.Graph()
        long.add_nodes_from(plain)
        for u, v in plain.edges:
            nx.add_path(long, [u, (u, v, 1), (u, v, 2), v])
        long.add_edges_from((node, ("leaf", node)) for node in plain)
        for seed in range(3):
            result = planarize(long, seed=seed)
            self.judge(result)
            self.assertEqual(result.crossings, planarize(plain, seed=seed).crossings)

    def test_the_same_each_time_and_true(self):
        graph = nx.random_regular_graph(4, 24, seed=1)
        result, again = planarize(graph, seed=5), planarize(graph, seed=5 + 2**32)
        self.judge(result)
        self.assertEqual((result.picture, result.tries, result.edge_of), (again.picture, again.tries, again.edge_of))
        self.assertLessEqual(result.crossings, min(result.tries))
        result.verify()
        self.assertEqual(result.reports, ())

    def test_parts(self):
        graph = nx.disjoint_union_all([nx.complete_graph(6), nx.empty_graph(1), nx.petersen_graph()])
        result = planarize(graph)
        self.assertEqual((result.crossings, [part.crossings for part in result.parts]), (5, [3, 0, 2]))
        result.verify()

    def test_reinsert_goes_on(self):
        graph = nx.complete_graph(9)
        before = from_positions(graph, on_a_curve(graph))
        rounds = reinsert(before)
        after = reinsert(rounds, effort="default", seed=2)
        for result in (rounds, after):
            self.judge(result)
            result.verify()
        self.assertLess(rounds.crossings, before.crossings)
        self.assertEqual(after.crossings, 36)
        self.assertIs(reinsert(after), after)

    def test_several_seeds(self):
        """The best counts, of equal ones the first, and `tries` has what all came to."""
        graph = nx.random_regular_graph(4, 50, seed=2)
        alone = [planarize(graph, effort="quick", seed=seed) for seed in (7, 8, 9, 10)]
        result = planarize(graph, effort="quick", tries=4, seed=7)
        self.assertEqual(result, min(alone, key=lambda it: it.crossings))
        self.assertGreater(len({it.crossings for it in alone}), 1)


def random_graph(choose):
    """A graph, connected or not, maybe directed or with parallel edges, and options with prices or without."""
    kind = choose.choice([nx.Graph, nx.DiGraph, nx.MultiGraph, nx.MultiDiGraph])
    graph, count = kind(), choose.randint(2, 24)
    graph.add_nodes_from(f"node {number}" for number in range(count))
    nodes = list(graph)
    graph.add_edges_from(choose.sample(nodes, 2) for _ in range(choose.randint(1, 3 * count)))
    options = {"seed": choose.randrange(9), "effort": choose.choice(["quick", "default"])}
    if choose.random() < 0.6:
        prices = choose.choice([(1, 2, 7), (3,), (4, 1, None)])
        price_of = {edge[:2]: choose.choice(prices) for edge in graph.edges}
        options["price"] = lambda u, v, data: price_of[u, v] if (u, v) in price_of else price_of[v, u]
    return graph, options


@needs_library
class Askers(unittest.TestCase):
    """Whoever asks gets the same pictures of the same graph."""

    def setUp(self):
        folder = tempfile.TemporaryDirectory()
        self.addCleanup(folder.cleanup)
        self.folder = folder.name

    def in_c(self):
        """What asks `examples/c/search.c` for the answer to a text; None where it cannot be built."""
        if not shutil.which("cc"):
            return None
        program, library = os.path.join(self.folder, "search"), Program().library.path
        os.symlink(library, os.path.join(self.folder, "libfezdrok.so.0"))
        command = ["cc", "-O2", ROOT / "examples" / "c" / "search.c", library, "-I", ROOT / "c", "-o", program]
        subprocess.run(command, check=True)
        return lambda text: printed([program], text, {"LD_LIBRARY_PATH": self.folder})

    def test_random_graphs(self):
        choose = random.Random(11)
        askers = {
            "planar planarize": lambda text: printed([find_program(), "planarize"], text),
            "planar serve": lambda text: printed([find_program(), "serve"], f'{{"planarize":{text}}}\n'),
            "search.c": self.in_c(),
        }
        shown, refused = 0, 0
        for number in range(50):
            graph, options = random_graph(choose)
            prepared = prepare(graph, **options)
            answers = {name: ask(prepared.graph_text()) for name, ask in askers.items() if ask is not None}
            try:
                result = prepared.run()
            except NotPlanarized:
                refused += 1
                self.assertEqual({"fault" in answer or not answer for answer in answers.values()}, {True})
                continue
            shown += 1
            result.verify(graph)
            for name, answer in answers.items():
                with self.subTest(number, asker=name):
                    self.assertEqual(prepared.result(answer), result)
        self.assertGreater(shown, 40)
        self.assertGreater(refused, 0)
        if askers["search.c"] is None:
            self.skipTest("left out: there is no C compiler, so search.c was not asked")

    def test_over_a_process(self):
        """Where there is no library beside the program, the program is called."""
        program = os.path.join(self.folder, "planar")
        shutil.copy(find_program(), program)
        self.assertIsNone(Program(program).library)
        for graph in (nx.complete_graph(8), nx.disjoint_union(nx.complete_graph(6), nx.path_graph(3)), nx.path_graph(1)):
            told = []
            result = planarize(graph, tries=2, program=program, progress=told.append)
            self.assertEqual(result, planarize(graph, tries=2))
            self.assertEqual((told[0].step, told[-1].step, told[-1].best), ("begins", "done", result.crossings))
            self.assertEqual(planarize(graph, start=result, program=program).crossings, result.crossings)
        forbidden = list(nx.complete_graph(5).edges)
        for path in (program, None):
            with self.assertRaises(NotPlanarized) as caught:
                planarize(nx.complete_graph(6), forbidden=forbidden, program=path)
            self.assertEqual((caught.exception.edge, caught.exception.reply), ((3, 4), None))


def printed(command, text, environment=None):
    """What a command prints that is given this text."""
    ran = subprocess.run(command, input=text, stdout=subprocess.PIPE, stderr=subprocess.DEVNULL, text=True, env=environment)
    return ran.stdout


if __name__ == "__main__":
    unittest.main()
