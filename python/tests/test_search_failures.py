"""Searches that fail, where what was found is given: where the program fails, when time is over, and at Ctrl-C; and out
of memory, which is told. Programs that fail are shell scripts, which hand on to the program itself until a process at
which they fail; no library is beside them."""

import os
import subprocess
import sys
import tempfile
import unittest
import warnings
from pathlib import Path
from unittest import mock

import networkx as nx

from fezdrok import (
    Fault, MemoryFault, PlanarWarning, ProgramFailed, find_program, from_positions, planarize, reinsert,
)
from fezdrok.engine import searches

from .support import ROOT, fake, needs_library, needs_program, on_a_curve

TOO_LONG = "echo 'planar: 51 TooLong' >&2; exit 1"
KILLED = "kill -9 $$"


@needs_program
class SearchFailures(unittest.TestCase):
    def setUp(self):
        self.graph = nx.complete_graph(8)

    def failing(self, calls: str, how: str) -> str:
        """A program that fails in this way in each process whose number is in this pattern of the shell."""
        folder = tempfile.TemporaryDirectory()
        self.addCleanup(folder.cleanup)
        count = Path(folder.name) / "count"
        count.write_text("0")
        program = os.path.abspath(find_program())
        counted = f"n=$(($(cat {count}) + 1)); echo $n > {count}"
        return fake(self, f"{counted}\ncase $n in {calls}) {how};; esac\nexec {program} \"$@\"")

    def warned(self, words: str):
        return self.assertWarnsRegex(PlanarWarning, f"best picture so far is given.*{words}")

    def test_nothing_is_told_where_all_was_tried(self):
        with warnings.catch_warnings():
            warnings.simplefilter("error")
            planarize(self.graph, effort="quick", tries=3)

    def test_a_search_that_fails(self):
        """It is passed over where another comes to a picture."""
        for calls, words, seeds in (
            ("[23]", "search 2 of 4: Fault 51 TooLong; search 3 of 4: Fault 51", (1, 4)), ("1", "search 1 of 4", (2, 3, 4))
        ):
            alone = [planarize(self.graph, effort="quick", seed=seed) for seed in seeds]
            with self.warned(words):
                result = planarize(self.graph, effort="quick", tries=4, program=self.failing(calls, TOO_LONG))
            self.assertEqual(result, min(alone, key=lambda it: it.crossings))

    def test_a_program_that_fails_ends_the_search(self):
        alone = [planarize(self.graph, effort="quick", seed=seed) for seed in (1, 2)]
        with self.warned("ProgramFailed"):
            result = planarize(self.graph, effort="quick", tries=4, program=self.failing("3", KILLED))
        self.assertEqual(result, min(alone, key=lambda it: it.crossings))

    def test_a_process_that_fails_in_the_middle(self):
        """A quick picture was made before, so that something is there."""
        quick = planarize(self.graph, effort="quick")
        with self.warned("ProgramFailed"):
            result = planarize(self.graph, program=self.failing("2", KILLED))
        self.assertEqual(result, quick)

    def test_the_first_failure_is_raised_where_nothing_was_found(self):
        for calls, how, kind in (("*", TOO_LONG, Fault), ("*", KILLED, ProgramFailed), ("1", KILLED, ProgramFailed)):
            with self.subTest(kind), self.assertRaises(kind):
                planarize(self.graph, tries=3, program=self.failing(calls, how))

    def test_starts(self):
        start = from_positions(self.graph, on_a_curve(self.graph))
        for how, words in ((KILLED, "ProgramFailed"), (TOO_LONG, "TooLong")):
            with self.warned(words):
                self.assertIs(reinsert(start, program=self.failing("1", how)), start)
            with self.warned(words):
                self.assertEqual(planarize(self.graph, start=start, program=self.failing("1", how)), start)

    def test_time(self):
        """With no time at all there is the first picture all the same, and nobody warns of what was asked for."""
        graph = nx.random_regular_graph(4, 60, seed=2)
        for program in (None, self.failing("none", KILLED)):
            with warnings.catch_warnings():
                warnings.simplefilter("error")
                result = planarize(graph, seconds=0, program=program)
                self.assertEqual(set(result.id_of), set(graph.edges))
                told = []
                result = planarize(graph, tries=10**6, seconds=0.5, progress=told.append, program=program)
            self.assertLess(told[-1].seconds, 20)
            self.assertEqual((told[-1].step, told[-1].best), ("done", result.crossings))

    def test_the_best_so_far_at_the_end_of_the_time(self):
        """In a search that would go on the picture is better than the first one."""
        graph = nx.complete_graph(20)
        with warnings.catch_warnings():
            warnings.simplefilter("error")
            told = []
            result = planarize(graph, effort="thorough", seconds=3, progress=told.append)
        result.verify(graph)
        self.assertLess(told[-1].seconds, 30)
        self.assertEqual(result.crossings, min(one.crossings for one in told if one.crossings))


@needs_library
class OutOfMemory(unittest.TestCase):
    def test_a_clear_error(self):
        """A search that is refused memory is told as such, and the process goes on."""
        code = """if True:
            import resource
            import networkx as nx
            from fezdrok import MemoryFault, planarize
            graph = nx.complete_graph(60)
            planarize(nx.complete_graph(5))
            with open("/proc/self/statm") as file:
                now = int(file.read().split()[0]) * resource.getpagesize()
            resource.setrlimit(resource.RLIMIT_AS, (now + (12 << 20),) * 2)
            try:
                planarize(graph)
            except MemoryFault as fault:
                print(fault, planarize(nx.complete_graph(6)).crossings)
        """
        environment = {**os.environ, "PYTHONPATH": os.fspath(ROOT / "python")}
        ran = subprocess.run([sys.executable, "-c", code], capture_output=True, text=True, env=environment)
        self.assertEqual((ran.stdout, ran.stderr), ("8 Memory 3\n", ""))

    def test_that_another_search_makes_up_for(self):
        graph, asked, count = nx.complete_graph(7), searches.LibrarySearch.step, 0

        def step(search):
            nonlocal count
            count += 1
            if count == 1:
                raise MemoryFault(8, "Memory")
            return asked(search)

        with mock.patch.object(searches.LibrarySearch, "step", step):
            with self.assertWarnsRegex(PlanarWarning, "search 1 of 2: MemoryFault 8 Memory"):
                self.assertEqual(planarize(graph, tries=2).crossings, 9)


class Interrupted(Exception):
    """What a function raises that is told of the progress."""


@needs_program
class ProgressCalls(unittest.TestCase):
    def test_progress(self):
        told = []
        result = planarize(nx.complete_graph(18), tries=2, progress=told.append)
        self.assertEqual((told[0].step, told[0].order, told[0].best), ("begins", 1, None))
        self.assertEqual((told[-1].step, told[-1].best, told[-1].tries), ("done", result.crossings, 2))
        self.assertEqual({one.step for one in told}, {"begins", "searches", "done"})
        self.assertEqual({one.order for one in told}, {1, 2})
        self.assertEqual([one.seconds for one in told], sorted(one.seconds for one in told))

    def test_what_it_raises_is_raised(self):
        def fail(told):
            if told.best is not None:
                raise Interrupted

        with self.assertRaises(Interrupted):
            planarize(nx.complete_graph(8), progress=fail)

    def test_ctrl_c(self):
        """Before the first picture it goes on; after that the best picture is given."""
        graph = nx.complete_graph(20)
        told = []

        def interrupt(one):
            told.append(one)
            if one.best is not None:
                raise KeyboardInterrupt

        with self.assertWarnsRegex(PlanarWarning, "best picture so far is given, .*KeyboardInterrupt"):
            result = planarize(graph, progress=lambda one: one.step == "done" or interrupt(one))
        self.assertLessEqual(result.crossings, told[-1].best)
        result.verify(graph)
        with self.assertRaises(KeyboardInterrupt):
            planarize(graph, progress=at_once)

    def test_ctrl_c_in_a_later_search(self):
        def interrupt(one):
            if one.order == 2:
                raise KeyboardInterrupt

        graph = nx.complete_graph(8)
        with self.assertWarnsRegex(PlanarWarning, "KeyboardInterrupt"):
            self.assertEqual(planarize(graph, tries=3, progress=interrupt_before_done(interrupt)), planarize(graph))

    def test_ctrl_c_in_a_later_part(self):
        """The parts behind it have a first picture."""
        graph = nx.disjoint_union(nx.complete_graph(5), nx.complete_graph(20))
        steps = []

        def interrupt(one):
            steps.append(one.step)
            if len(steps) == 2:
                raise KeyboardInterrupt

        with self.assertWarnsRegex(PlanarWarning, "KeyboardInterrupt"):
            result = planarize(graph, progress=interrupt)
        self.assertEqual(len(result.parts), 2)
        result.verify(graph)

    @needs_library
    def test_ctrl_c_wherever_it_comes(self):
        """Between two calls of the library nothing is lost, also after the pictures were taken."""
        graph, due = nx.complete_graph(8), planarize(nx.complete_graph(8))
        told = searches.LibrarySearch._told
        for place in range(2, 20):
            count = 0

            def interrupted(search):
                nonlocal count
                count += 1
                if count == place:
                    raise KeyboardInterrupt
                return told(search)

            with mock.patch.object(searches.LibrarySearch, "_told", interrupted), warnings.catch_warnings():
                warnings.simplefilter("ignore", PlanarWarning)
                try:
                    self.assertGreaterEqual(planarize(graph).crossings, due.crossings)
                except KeyboardInterrupt:
                    self.assertLess(place, 5)
            if count < place:
                return
        self.fail("the search was interrupted to no end")


def interrupt_before_done(interrupt):
    """What is told of the progress but its end."""
    return lambda one: one.step == "done" or interrupt(one)


def at_once(told):
    """Interrupts as soon as anything is told."""
    raise KeyboardInterrupt


if __name__ == "__main__":
    unittest.main()
