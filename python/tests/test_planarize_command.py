"""The command `planar planarize`: what it prints is judged by the rules of docs/MODEL.md alone, here and without a line
of the program."""

from __future__ import annotations

import json
import random
import subprocess
import unittest
from typing import Any

from fezdrok import Picture, find_program

from .reference_sessions import GREATEST, load
from .support import needs_program

Edges = list[list[int]]


def answered(text: str) -> subprocess.CompletedProcess:
    return subprocess.run([find_program(), "planarize"], input=text, capture_output=True, text=True, timeout=120)


def planarized(vertices: int, edges: Edges, **options: Any) -> dict[str, Any]:
    """What the program prints for a graph; a fault is an error."""
    ran = answered(json.dumps({"edges": edges, "version": 2, "vertices": vertices, **options}))
    if ran.returncode or ran.stderr:
        raise AssertionError(ran.stderr)
    return json.loads(ran.stdout)


def complete(n: int) -> Edges:
    return [[a, b, 0] for a in range(n) for b in range(a)]


def torus(n: int) -> Edges:
    cells = [(i, j) for i in range(n) for j in range(n)]
    return [[i * n + j, k, 0] for i, j in cells for k in ((i + 1) % n * n + j, i * n + (j + 1) % n)]


def grid(n: int) -> Edges:
    cells = [(i, j) for i in range(n) for j in range(n)]
    right = [[i * n + j, i * n + j + 1, 0] for i, j in cells if j + 1 < n]
    return right + [[i * n + j, i * n + j + n, 0] for i, j in cells if i + 1 < n]


def random_graph(choose: random.Random) -> tuple[int, Edges]:
    """A graph of one of many kinds: sparse, dense, with parallel edges, a tree, in parts, planar."""
    vertices = choose.randint(1, 24)
    kind = choose.randrange(5)
    if kind == 0:
        return vertices, [[v, choose.randrange(v), choose.randrange(4)] for v in range(1, vertices)]
    if kind == 1:
        side = choose.randint(2, 5)
        edges = [[a, b, choose.randrange(4)] for a, b, _ in grid(side)]
        return side * side, choose.sample(edges, choose.randint(1, len(edges)))
    if vertices < 2:
        return vertices, []
    count = choose.randint(0, vertices if kind == 2 else 3 * vertices)
    return vertices, [[*choose.sample(range(vertices), 2), choose.randrange(4)] for _ in range(count)]


class Shows(unittest.TestCase):
    """Pictures show a graph: each edge once, in a lawful picture, between its ends and of its kind."""

    def judge(self, vertices: int, edges: Edges, answer: dict[str, Any], prices: tuple[int | None, ...] = ()) -> None:
        price = {kind: prices[kind] if kind < len(prices) else 1 for kind in range(64)}
        seen, cost = [], 0
        for part in answer["parts"]:
            picture = Picture.from_json(part["picture"])
            load(picture, GREATEST)
            self.assertEqual(picture.next_edge, len(picture.edges))
            self.assertEqual(picture.next_crossing, len(picture.crossings))
            self.assertEqual(len(part["vertices"]), len(picture.rotations))
            self.assertEqual(len(part["edges"]), len(picture.edges))
            for row in picture.edges:
                drawn = [part["vertices"][row.a], part["vertices"][row.b], row.kind]
                self.assertEqual(drawn, edges[part["edges"][row.id]])
                self.assertFalse(row.crossings and price[row.kind] is None)
            for row in picture.crossings:
                cost += price[picture.edges[row.crossed].kind] * price[picture.edges[row.newcomer].kind]
            seen += part["vertices"]
        shown = [edge for part in answer["parts"] for edge in part["edges"]]
        self.assertEqual(sorted(shown), list(range(len(edges))))
        self.assertEqual(sorted(seen + answer["lonely"]), list(range(vertices)))
        self.assertEqual(answer["crossings"], sum(len(it["picture"]["crossings"]) for it in answer["parts"]))
        self.assertEqual(answer["cost"], cost)


@needs_program
class RandomGraphs(Shows):
    def test_of_all_kinds(self):
        choose = random.Random(7)
        for _ in range(2000):
            vertices, edges = random_graph(choose)
            prices = choose.choice([(), (1, 2, 3, 7), (4, None, 1)])
            options = {"effort": choose.choice(["quick", "default"]), "prices": prices, "seed": choose.randrange(9)}
            with self.subTest(vertices=vertices, edges=edges, **options):
                ran = answered(json.dumps({"edges": edges, "version": 2, "vertices": vertices, **options}))
                if ran.returncode and None in prices:
                    # An edge that must not be crossed has no way, as far as the search has seen.
                    self.assertRegex(ran.stderr, r"^planar: 83 NotPlanarized \d+\n$")
                else:
                    self.assertEqual(ran.stderr, "")
                    self.judge(vertices, edges, json.loads(ran.stdout), prices)


@needs_program
class KnownGraphs(Shows):
    def test_crossing_numbers(self):
        for name, vertices, edges, due in (
            ("K5", 5, complete(5), 1), ("K6", 6, complete(6), 3), ("K8", 8, complete(8), 18),
            ("a torus of 7 by 7", 49, torus(7), 35), ("a grid", 100, grid(10), 0),
            ("a path", 300, [[v, v + 1, 0] for v in range(299)], 0),
        ):
            with self.subTest(name):
                answer = planarized(vertices, edges)
                self.judge(vertices, edges, answer)
                self.assertEqual(answer["crossings"], due)

    def test_the_same_again(self):
        self.assertEqual(planarized(9, complete(9), seed=3), planarized(9, complete(9), seed=3))

    def test_no_more_with_more_effort(self):
        edges = complete(11)
        found = [planarized(11, edges, effort=effort)["crossings"] for effort in ("quick", "thorough")]
        self.assertEqual(found[1], 100)
        self.assertGreaterEqual(found[0], found[1])

    def test_no_time(self):
        answer = planarized(20, complete(20), seconds=0)
        self.judge(20, complete(20), answer)
        self.assertGreaterEqual(answer["crossings"], 1620)

    def test_nothing_to_show(self):
        empty = {"cost": 0, "crossings": 0, "lonely": [], "parts": [], "tries": []}
        self.assertEqual(planarized(0, []), empty)
        self.assertEqual(planarized(2, []), {**empty, "lonely": [0, 1]})

    def test_going_on(self):
        vertices, edges = 40, random.Random(3).sample([edge for edge in complete(40)], 160)
        first = planarized(vertices, edges, effort="quick")
        for options in ({}, {"effort": "quick"}, {"threads": 2}):
            with self.subTest(**options):
                answer = planarized(vertices, edges, start=first, **options)
                self.judge(vertices, edges, answer)
                self.assertLessEqual(answer["crossings"], first["crossings"])
        bare = {key: first[key] for key in ("lonely", "parts")}
        self.assertEqual(planarized(vertices, edges, start=bare), planarized(vertices, edges, start=first))

    def test_side_by_side(self):
        vertices, edges = 30, random.Random(4).sample([edge for edge in complete(30)], 110)
        alone = [planarized(vertices, edges, effort="quick", seed=seed) for seed in (5, 6, 7)]
        best = min(alone, key=lambda it: it["crossings"])
        self.assertEqual(planarized(vertices, edges, effort="quick", seed=5, threads=3), best)

    def test_parts_with_a_start(self):
        edges = [*complete(5), *([5 + a, 5 + b, kind] for a, b, kind in complete(6))]
        first = planarized(12, edges)
        self.judge(12, edges, planarized(12, edges, start=first))

    def test_an_edge_that_must_not_be_crossed(self):
        edges = [[a, b, int(b == 0)] for a, b, _ in complete(6)]
        answer = planarized(6, edges, prices=[1, None])
        self.judge(6, edges, answer, (1, None))


@needs_program
class Faults(unittest.TestCase):
    def test_each(self):
        for text, due in (
            ("", "50 NotJson"),
            ("[]", "52 BadShape $"),
            ('{"version":3}', "53 BadVersion"),
            ('{"edges":[],"version":1}', "52 BadShape $/vertices"),
            ('{"edges":[],"version":1,"vertices":-1}', "54 BadNumber $/vertices"),
            ('{"edges":[[0,1]],"version":1,"vertices":2}', "52 BadShape $/edges/0"),
            ('{"edges":[[0,1,64]],"version":1,"vertices":2}', "54 BadNumber $/edges/0/2"),
            ('{"edges":[],"effort":"much","version":1,"vertices":2}', "52 BadShape $/effort"),
            ('{"edges":[],"seconds":null,"version":1,"vertices":2}', "52 BadShape $/seconds"),
            ('{"edges":[],"prices":[null],"version":1,"vertices":2}', "52 BadShape $/prices/0"),
            ('{"edges":[],"progress":1,"version":1,"vertices":2}', "52 BadShape $/progress"),
            ('{"edges":[],"threads":0,"version":1,"vertices":2}', "54 BadNumber $/threads"),
            ('{"edges":[],"threads":17,"version":1,"vertices":2}', "54 BadNumber $/threads"),
            ('{"edges":[],"start":{"lonely":[]},"version":1,"vertices":2}', "52 BadShape $/start/parts"),
            ('{"edges":[],"start":{"lonely":[0],"parts":[]},"version":1,"vertices":2}', "84 OtherGraph"),
            ('{"edges":[],"prices":[0],"version":1,"vertices":2}', "10 BadPrice 0"),
            ('{"edges":[[0,1,0],[1,1,0]],"version":1,"vertices":2}', "80 Loop 1"),
            ('{"edges":[[0,1,0],[1,2,0]],"version":1,"vertices":2}', "81 NoEnd 1"),
        ):
            with self.subTest(text):
                ran = answered(text)
                self.assertEqual((ran.stdout, ran.stderr, ran.returncode), ("", f"planar: {due}\n", 1))

    def test_too_large(self):
        path = [[v, v + 1, 0] for v in range(65_536)]
        ran = answered(json.dumps({"edges": path, "version": 1, "vertices": 65_537}))
        self.assertEqual(ran.stderr, "planar: 82 TooLarge\n")

    def test_no_way(self):
        forbidden = [[a, b, 1] for a, b, _ in complete(5)]
        ran = answered(json.dumps({"edges": forbidden, "prices": [1, None], "version": 2, "vertices": 5}))
        self.assertRegex(ran.stderr, r"^planar: 83 NotPlanarized \d\n$")

    def test_another_graph_to_begin_with(self):
        first = planarized(5, complete(5))
        for edges in (complete(5)[::-1], complete(5)[:-1], [[b, a, kind] for a, b, kind in complete(5)], [[0, 1, 1], *complete(5)[1:]]):
            ran = answered(json.dumps({"edges": edges, "start": first, "version": 1, "vertices": 5}))
            self.assertEqual((ran.stdout, ran.stderr, ran.returncode), ("", "planar: 84 OtherGraph\n", 1))

    def test_deep_paths(self):
        first = planarized(5, complete(5))
        first["parts"][0]["picture"]["edges"][3]["crossings"] = [-1]
        ran = answered(json.dumps({"edges": complete(5), "start": first, "version": 1, "vertices": 5}))
        self.assertEqual(ran.stderr, "planar: 54 BadNumber $/start/parts/0/picture/edges/3/crossings/0\n")


@needs_program
class Progress(Shows):
    def test_lines_on_the_way(self):
        edges = complete(30)
        text = {"edges": edges, "progress": True, "seconds": 3, "version": 1, "vertices": 30}
        ran = answered(json.dumps(text))
        self.judge(30, edges, json.loads(ran.stdout))
        lines = ran.stderr.splitlines()
        self.assertGreater(len(lines), 1)
        for line in lines:
            self.assertRegex(line, r"^planar: component 1 of 1, orders \d+: (crossings \d+|no picture yet)$")

    def test_none_where_none_is_asked_for(self):
        ran = answered(json.dumps({"edges": complete(30), "seconds": 2, "version": 1, "vertices": 30}))
        self.assertEqual(ran.stderr, "")
