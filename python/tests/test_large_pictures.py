"""LargePictures calls, and all kinds: what depends on a size or a kind would show here. The answers are counted by
hand."""

import json
import subprocess
import unittest

from fezdrok import find_program

from .support import needs_program

# So many edges side by side between vertices 0 and 1, with edge 0: as many faces lie round the two.
EDGES = 2100


def run(verb, value):
    """What the program prints of a value."""
    done = subprocess.run([find_program(), verb], input=json.dumps(value), capture_output=True, text=True)
    assert done.returncode == 0, done.stderr
    return done.stdout


def report_of(calls, **more):
    return json.loads(run("run", {"version": 1, "workers": [calls], **more}))


@needs_program
class LargePictures(unittest.TestCase):
    def test_routes_over_a_thousand_crossings(self):
        calls = [["insert", 0, 1, 0] for _ in range(EDGES - 1)]
        # vertex 2 in the face at the first corner of vertex 0, vertex 3 in one half way round
        calls += [["grow", 0, 0, 0], ["grow", 0, EDGES // 2, 0]]
        calls += [["insert", 2, 3, 0] for _ in range(20)]
        report = report_of(calls)
        routes = [entry["reply"] for entry in report["history"][-20:]]
        for route in routes:
            self.assertGreater(len(route["crossed"]), 1000)
            self.assertEqual(route["price"], len(route["crossed"]))
        crossings = sum(len(route["crossed"]) for route in routes)
        self.assertGreater(crossings, 20000)
        picture = report["picture"]
        self.assertEqual(len(picture["crossings"]), crossings)
        edges = EDGES + 2 + 20
        segments = edges + 2 * crossings
        faces = 2 - (4 + crossings) + segments
        line = f"lawful vertices=4 crossings={crossings} edges={edges} segments={segments} faces={faces}\n"
        self.assertEqual(run("check", picture), line)
        self.assertEqual(run("replay", report), f"replayed {len(calls)} calls\n")

    def test_the_last_of_many_replies(self):
        report = report_of([["grow", 0, 0, 0]] * 200)
        report["history"][199]["reply"] = {"deleted": 0}
        done = subprocess.run([find_program(), "replay"], input=json.dumps(report), capture_output=True, text=True)
        self.assertEqual((done.returncode, done.stderr), (1, "planar: 60 WrongReply 199\n"))

    def test_texts_that_are_too_long(self):
        # a script may have 1,048,576 bytes, a picture and a report 268,435,456
        for verb, most in (("run", 1_048_576), ("check", 268_435_456), ("replay", 268_435_456)):
            done = subprocess.run([find_program(), verb], input=b" " * (most + 1), capture_output=True)
            self.assertEqual((done.returncode, done.stderr), (1, b"planar: 51 TooLong\n"), verb)

    def test_every_kind(self):
        kinds = range(64)
        calls = [["grow", 0, 0, kind] for kind in kinds] + [["insert", 1, 0, kind] for kind in kinds]
        report = report_of([*calls, ["grow", 0, 0, 64], ["insert", 0, 1, 64]])
        replies = [entry["reply"] for entry in report["history"]]
        self.assertEqual([reply.get("vertex") for reply in replies[:64]], [2 + kind for kind in kinds])
        self.assertEqual([reply.get("edge") for reply in replies[:128]], [1 + i for i in range(128)])
        self.assertEqual(replies[128:], [{"refused": [5, "BadKind"]}] * 2)
        self.assertEqual([edge["kind"] for edge in report["picture"]["edges"]], [0, *kinds, *kinds])

    def test_up_to_each_limit(self):
        limits = {"vertices": 3, "edges": 4, "crossings": 1}
        report = report_of(
            [["grow", 0, 0, 0], ["grow", 0, 0, 0], ["insert", 0, 1, 0], ["insert", 0, 1, 0], ["insert", 0, 1, 0]],
            limits=limits,
        )
        replies = [entry["reply"] for entry in report["history"]]
        full = {"refused": [7, "Full"]}
        self.assertEqual([reply == full for reply in replies], [False, True, False, False, True])
