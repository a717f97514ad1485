"""What an answer means in another process: texts and results that are the same whatever the hashes of nodes are, and
answers of other graphs that are refused."""

import json
import os
import subprocess
import sys
import tempfile
import unittest

import networkx as nx

from fezdrok import NoReport, OtherReport, PlanarError, find_program, prepare

from .support import ROOT, needs_program


@needs_program
class OtherProcesses(unittest.TestCase):
    def printed(self, folder: str, seed: int) -> bytes:
        """What a process with this seed of hashes prints."""
        words = {"PYTHONHASHSEED": str(seed), "PYTHONPATH": os.fspath(ROOT / "python")}
        done = subprocess.run(
            [sys.executable, "-m", "tests.prepared_runs", folder],
            cwd=ROOT / "python",
            env={**os.environ, **words},
            stdout=subprocess.PIPE,
            check=True,
        )
        return done.stdout

    def test_texts_and_results_are_the_same_in_each(self):
        with tempfile.TemporaryDirectory() as folder:
            first = self.printed(folder, 1)
            self.assertGreater(len(os.listdir(folder)), 20)
            for seed in (2, 3, 4):
                self.assertEqual(self.printed(folder, seed), first)
        self.assertNotIn(b"ends: False", first)


@needs_program
class Answers(unittest.TestCase):
    """Answers that were made elsewhere, by `planar planarize`."""

    def setUp(self):
        self.prepared = prepare(nx.complete_graph(5), price={(0, 1): 4})
        self.answer = self.of(self.prepared.graph_text())

    def of(self, text: str) -> str:
        ran = subprocess.run([find_program(), "planarize"], input=text, stdout=subprocess.PIPE, text=True, check=True)
        return ran.stdout

    def refused(self, prepared, answer, kind, words):
        with self.assertRaisesRegex(kind, words) as caught:
            prepared.result(answer)
        self.assertIsInstance(caught.exception, PlanarError)

    def test_the_answer_to_the_text_is_taken(self):
        result = self.prepared.result(self.answer)
        self.assertEqual((result, result.prices), (self.prepared.run(), (4, 1)))
        self.assertEqual(self.prepared.result(self.answer.encode()), result)
        self.assertEqual(self.prepared.result(json.dumps(json.loads(self.answer), indent=1)), result)

    def test_seconds_are_rounded_up(self):
        for seconds, due in ((0, 0), (0.2, 1), (3.0, 3), (1e99, 2**32 - 1)):
            self.assertEqual(json.loads(prepare(nx.path_graph(2), seconds=seconds).graph_text())["seconds"], due)
        self.assertNotIn("seconds", json.loads(self.prepared.graph_text()))

    def test_what_is_no_answer(self):
        for text, words in (
            ("", "no answer of planar planarize: it is no JSON"), ("[]", "TypeError"), ("{}", "KeyError"), ("{", "no JSON"),
            (b"\xff", "no JSON"), (self.answer.replace("parts", "part"), "KeyError 'parts'"),
        ):
            self.refused(self.prepared, text, NoReport, words)

    def test_answers_of_other_graphs(self):
        self.refused(prepare(nx.cycle_graph(5)), self.answer, OtherReport, "of a larger graph")
        self.refused(prepare(nx.complete_graph(4)), self.answer, OtherReport, "of a larger graph")
        self.refused(prepare(nx.complete_graph(6)), self.answer, OtherReport, "the node 5 is there 0 times, and in the graph 1")
        self.refused(prepare(nx.complete_graph(5)), self.answer, OtherReport, "the edge .* has the kind 1, which has no price")
        other = prepare(nx.complete_graph(5), price={(2, 3): 4})
        self.refused(other, self.answer, OtherReport, r"the edge \(0, 1\) has another price in the answer")
        turned = nx.empty_graph(5)
        turned.add_edges_from(list(nx.complete_graph(5).edges)[::-1])
        self.refused(prepare(turned, price={(0, 1): 4}), self.answer, OtherReport, "the edge .* has other ends in the picture")

    def test_a_picture_that_is_none(self):
        answer = json.loads(self.answer)
        answer["parts"][0]["picture"]["rotations"][0].reverse()
        self.refused(self.prepared, json.dumps(answer), OtherReport, "the program refuses a picture: 2")


if __name__ == "__main__":
    unittest.main()
