"""How many allocations the program makes for a large text: one with each key once is read from its tokens, without a tree
of values, whatever the order of its keys, its escapes, and the gaps between its tokens."""

import json
import re
import subprocess
import unittest
from typing import Any

from fezdrok import find_program

from .refused_allocation import RefusedAllocationTest

# So many vertices a picture has, and so many growths a script or a report.
COUNT = 4_000

# What any text may take beside what grows with it.
SOME = 1_000


def path_picture() -> dict[str, Any]:
    """A path of vertices."""
    edges = [{"a": i, "b": i + 1, "crossings": [], "id": i, "kind": 0} for i in range(COUNT - 1)]
    rotations = [[0], *([i - 1, i] for i in range(1, COUNT - 1)), [COUNT - 2]]
    return {"crossings": [], "edges": edges, "next_crossing": 0, "next_edge": COUNT - 1, "rotations": rotations}


def crossed_picture() -> dict[str, Any]:
    """An edge that so many others cross, each between two vertices of its own."""
    others = range(1, COUNT + 1)
    edges = [{"a": 0, "b": 1, "crossings": list(range(COUNT)), "id": 0, "kind": 0}]
    edges += [{"a": 2 * i, "b": 2 * i + 1, "crossings": [i - 1], "id": i, "kind": 0} for i in others]
    crossings = [{"crossed": 0, "id": i - 1, "newcomer": i, "sign": "ltr" if i % 2 else "rtl"} for i in others]
    rotations = [[i // 2] for i in range(2 * COUNT + 2)]
    return {
        "crossings": crossings, "edges": edges, "next_crossing": COUNT, "next_edge": COUNT + 1, "rotations": rotations
    }


def growths() -> dict[str, Any]:
    """A script that grows a star, and then has a command for each other kind of reply."""
    others = [
        ["insert", 1, 3, 0],
        ["planned", 2, 5, 1],
        ["delete", 1],
        ["delete", 0],
        ["delete", COUNT + 2],
        ["delete", COUNT + 9],
    ]
    return {"prices": [1, 2, None], "version": 2, "workers": [[["grow", 0, 0, 0]] * COUNT + others]}


def own_layout(form: dict[str, Any]) -> bytes:
    """The text with its keys in order, and nothing between its tokens."""
    return json.dumps(form, sort_keys=True, separators=(",", ":")).encode()


def spaced_layout(form: dict[str, Any]) -> bytes:
    """The text with its keys in order, and all that may stand between tokens between them."""
    return json.dumps(form, sort_keys=True, indent=" \t", separators=("\r,", " : ")).encode() + b"\n"


def backwards(form: Any) -> Any:
    """The same with the keys of each object in the opposite order."""
    if isinstance(form, dict):
        return {key: backwards(form[key]) for key in sorted(form, reverse=True)}
    return [backwards(part) for part in form] if isinstance(form, list) else form


def backward_layout(form: dict[str, Any]) -> bytes:
    """The text with its keys in the opposite order."""
    return json.dumps(backwards(form), separators=(",", ":")).encode()


def escaped_layout(form: dict[str, Any]) -> bytes:
    """The text with an escape in each key and each word."""
    return re.sub(rb'"([a-z])', lambda found: b'"\\u%04x' % ord(found[1]), own_layout(form))


def repeated_layout(form: dict[str, Any]) -> bytes:
    """The text with its last key twice."""
    key = max(form)
    return own_layout(form)[:-1] + b',"%s":%s}' % (key.encode(), own_layout(form[key]))


class Allocations(RefusedAllocationTest):
    def makes_more_than(self, verb: str, text: bytes, allocations: int) -> bool:
        """Whether a command makes more allocations than so many: whether the next one is there to be refused."""
        status, _, told, is_refused = self.run_refusing(verb, text, allocations + 1)
        self.assertTrue(is_refused or (status, told) == (0, b""), told[:200])
        return is_refused

    def check(self, verb: str, form: dict[str, Any], for_each: int) -> None:
        """A text takes at most so many allocations for each vertex or call, also with gaps between its tokens, with its
        keys in another order, and with escapes. With a key twice it takes more, so the bound tells the two ways to read
        apart."""
        most = for_each * COUNT + SOME
        self.assertFalse(self.makes_more_than(verb, own_layout(form), most))
        self.assertFalse(self.makes_more_than(verb, spaced_layout(form), most))
        self.assertFalse(self.makes_more_than(verb, backward_layout(form), most))
        self.assertFalse(self.makes_more_than(verb, escaped_layout(form), most))
        self.assertTrue(self.makes_more_than(verb, repeated_layout(form), most))

    def test_a_picture(self):
        self.check("check", path_picture(), 2)
        self.check("check", crossed_picture(), 4)

    def test_a_script(self):
        self.check("run", growths(), 2)
        self.check("run", {**growths(), "prices": [1, 2], "version": 1}, 2)

    def test_a_script_with_a_start(self):
        self.check("run", {**growths(), "start": "seed"}, 2)
        self.check("run", {**growths(), "start": path_picture()}, 6)

    def test_a_report(self):
        for start, for_each in (("seed", 3), (crossed_picture(), 24)):
            script = own_layout({**growths(), "start": start})
            done = subprocess.run([find_program(), "run"], input=script, capture_output=True, timeout=60, check=True)
            self.check("replay", json.loads(done.stdout), for_each)

    def test_a_graph(self):
        edges = [[0, 1, 0]] * COUNT
        self.check("planarize", {"edges": edges, "effort": "quick", "threads": 1, "version": 1, "vertices": 2}, 0)


if __name__ == "__main__":
    unittest.main()
