"""Batches graphs at once: every graph has an outcome, in its place."""

import io
import os
import signal
import unittest
import warnings
from concurrent.futures import ProcessPoolExecutor, ThreadPoolExecutor
from concurrent.futures.process import BrokenProcessPool
from contextlib import nullcontext
from unittest import mock

import networkx as nx

from fezdrok import Bar, MemoryFault, Planarization, ProgramNotFound, iter_planarize, planarize, planarize_many

from .support import fake, needs_program

PARENT = os.getpid()


class KillingGraph(nx.Graph):
    """A graph without nodes: whoever reads it in a worker is killed."""

    @property
    def nodes(self):
        if os.getpid() != PARENT:
            os.kill(os.getpid(), signal.SIGKILL)
        return super().nodes


class UnpicklableGraph:
    """No graph: pickle refuses it."""

    def __reduce__(self):
        raise TypeError("sealed")


@needs_program
class Batches(unittest.TestCase):
    def test_as_one_by_one(self):
        graphs = [nx.complete_graph(size) for size in range(2, 8)] + [nx.petersen_graph()]
        results = planarize_many(graphs, processes=2, effort="quick", tries=2, seed=5)
        self.assertEqual(
            [result.picture for result in results],
            [planarize(graph, effort="quick", tries=2, seed=5).picture for graph in graphs],
        )

    def test_a_failure_stands_in_its_place(self):
        graphs = [
            nx.complete_graph(3), nx.Graph(), nx.Graph([(0, 0)]), None, nx.complete_graph(5), UnpicklableGraph()
        ]
        outcomes = planarize_many(iter(graphs), processes=2)
        self.assertEqual(
            [type(outcome) for outcome in outcomes],
            [Planarization, ValueError, ValueError, ValueError, Planarization, TypeError],
        )
        self.assertEqual(outcomes[4].crossings, 1)

    def test_a_worker_that_is_killed_takes_no_other_graph_with_it(self):
        graphs = [nx.cycle_graph(3 + place % 5) for place in range(40)]
        graphs[7] = graphs[21] = KillingGraph()
        outcomes = planarize_many(graphs, processes=2)
        self.assertEqual(len(outcomes), 40)
        self.assertEqual(
            [place for place, outcome in enumerate(outcomes) if isinstance(outcome, BrokenProcessPool)], [7, 21]
        )
        self.assertEqual(
            [outcome.picture.counts.edges for outcome in outcomes if isinstance(outcome, Planarization)],
            [3 + place % 5 for place in range(40) if place not in (7, 21)],
        )

    def test_progress_is_told(self):
        told = []
        planarize_many([nx.path_graph(3)] * 5, processes=2, progress=lambda done, total: told.append((done, total)))
        self.assertEqual(told, [(done, 5) for done in range(6)])
        with mock.patch("sys.stderr", io.StringIO()) as stream:
            planarize_many([nx.path_graph(3)] * 5, processes=2)
            self.assertEqual(stream.getvalue(), "")
            planarize_many([nx.path_graph(3)] * 5, processes=2, progress=True)
            self.assertIn("5/5", stream.getvalue())

    def test_the_bar_ends_its_line(self):
        """However the work ends: also of graphs without a length, at Ctrl-C, and where the iterable fails. What is
        written next, as a warning, begins a line."""

        def graphs(count, raised=None):
            yield from [nx.path_graph(3)] * count
            if raised is not None:
                raise raised

        def printed(graphs, raised=None):
            stream = io.StringIO()
            with mock.patch("sys.stderr", stream), warnings.catch_warnings(), self.assertRaises(raised) if raised else nullcontext():
                warnings.simplefilter("always")
                planarize_many(graphs, processes=1, progress=True, effort="quick")
            return stream.getvalue()

        self.assertRegex(printed(list(graphs(2))), r"2/2[^\n]*\n\Z")
        self.assertRegex(printed([]), r"\A\r0 graphs[^\n]*\n\Z")
        self.assertRegex(printed(graphs(2)), r"\r2 graphs[^\n]*\n\Z")
        self.assertRegex(
            printed(graphs(9, KeyboardInterrupt)), r"\r[1-9] graphs[^\n]*\n[^\r\n]*PlanarWarning: interrupted"
        )
        for raised in (KeyboardInterrupt, LookupError):
            self.assertRegex(printed(graphs(0, raised), raised), r"\A\r0 graphs[^\n]*\n\Z")

    def test_none(self):
        self.assertEqual((planarize_many([]), list(iter_planarize([], processes=1))), ([], []))

    def test_executors(self):
        """The outcomes are those of one process, whoever does the work."""
        graphs = [nx.complete_graph(3 + place % 5) for place in range(20)] + [nx.Graph(), UnpicklableGraph()]
        due = planarize_many(graphs, processes=1)
        with ThreadPoolExecutor(3) as threads, ProcessPoolExecutor(2) as processes:
            for executor in (threads, processes):
                outcomes = planarize_many(graphs, executor=executor)
                self.assertEqual(outcomes[:20], due[:20])
                self.assertEqual([type(outcome) for outcome in outcomes[20:]][0], ValueError)
            shown = dict(iter_planarize(iter(graphs), executor=threads, effort="quick"))
            self.assertEqual((sorted(shown), shown[19].crossings), (list(range(22)), 9))

    def test_outcomes_as_they_come(self):
        found = []
        for place, outcome in iter_planarize((nx.path_graph(3) for _ in iter(int, 1)), processes=2):
            found.append(place)
            if len(found) == 5:
                break
        self.assertEqual(len(set(found)), 5)
        with ThreadPoolExecutor(1) as threads:
            for place, outcome in iter_planarize([nx.path_graph(3)] * 500, executor=threads):
                break
        with self.assertRaisesRegex(ValueError, "executor is 5: it must have a method submit"):
            iter_planarize([], executor=5)
        with self.assertRaisesRegex(ValueError, "processes is 2: it counts for nothing beside an executor"):
            planarize_many([], executor=threads, processes=2)
        outcomes = planarize_many([nx.path_graph(3)] * 3, executor=threads)  # which is shut down
        self.assertEqual([type(outcome) for outcome in outcomes], [RuntimeError] * 3)
        with self.assertRaises(ProgramNotFound):
            iter_planarize([], program="/nowhere/planar")


class Programs(unittest.TestCase):
    """With programs that are shell scripts, or none."""

    def test_no_program(self):
        with self.assertRaises(ProgramNotFound):
            planarize_many([nx.path_graph(2)], program="/nowhere/planar")

    def test_wrong_arguments(self):
        for words, due in (
            ({"processes": 0}, "processes is 0"),
            ({"processes": -1}, "processes is -1"),
            ({"progress": "yes"}, "progress is 'yes'"),
            ({"progress": 1}, "progress is 1"),
        ):
            with self.assertRaisesRegex(ValueError, due):
                planarize_many([nx.path_graph(2)], program="/nowhere/planar", **words)

    def test_faults_pass_from_the_workers(self):
        body = 'if [ "$1" = check ]; then echo "lawful vertices=2 crossings=0 edges=1 segments=1 faces=1"; exit 0; fi; echo "planar: 8 Memory" >&2; exit 3'
        outcomes = planarize_many([nx.path_graph(2)] * 3, processes=1, program=fake(self, body))
        self.assertEqual([str(outcome) for outcome in outcomes], ["8 Memory"] * 3)
        self.assertEqual({type(outcome) for outcome in outcomes}, {MemoryFault})


class Bars(unittest.TestCase):
    def test_lines(self):
        times = iter([0.0, 0.0, 2.0, 4.0, 4.0])
        stream = io.StringIO()
        bar = Bar(stream, width=10, clock=lambda: next(times))
        self.assertEqual(bar.line(0, 4).rstrip(), "[..........] 0/4, 0.0 a second, -")
        self.assertEqual(bar.line(2, 4).rstrip(), "[#####.....] 2/4, 1.0 a second, 2 s left")
        self.assertEqual(bar.line(8, None).rstrip(), "8 graphs, 2.0 a second")
        bar(4, 4)
        self.assertEqual(stream.getvalue(), "\r[##########] 4/4, 1.0 a second, 0 s left   \n")

    def test_a_line_is_ended_once(self):
        stream = io.StringIO()
        bar = Bar(stream)
        bar.close()
        self.assertEqual(stream.getvalue(), "")
        for done, total in ((1, None), (2, None), (2, 2), (1, 2)):
            bar(done, total)
        bar.close()
        bar.close()
        self.assertEqual([line.count("\r") for line in stream.getvalue().split("\n")], [3, 1, 0])


if __name__ == "__main__":
    unittest.main()
