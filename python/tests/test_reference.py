"""The program against a second planarizer: the same scripts, the same reports, byte for byte."""

import json
import random
import unittest

from fezdrok import Delete, Grow, Insert, Limits, Picture, Planarizer
from fezdrok.engine.reports import call_from_json

from . import reference
from .support import EXAMPLES, example_scripts, needs_program


def random_calls(chance: random.Random, count: int):
    """Calls of which most can be carried out: vertices and edges are mostly among those that may be there."""
    calls, vertices, edges = [], 2, 1
    for _ in range(count):
        kind = chance.choice([0, 0, 1, 2, 3, 64])
        draw = chance.random()
        if draw < 0.25:
            calls.append(Grow(chance.randrange(vertices), chance.randrange(3), kind))
            vertices, edges = vertices + 1, edges + 1
        elif draw < 0.85:
            calls.append(Insert(chance.randrange(vertices), chance.randrange(vertices), kind))
            edges += 1
        else:
            calls.append(Delete(chance.randrange(edges + 1)))
    return calls


class Examples(unittest.TestCase):
    """The second planarizer alone, on the reports that the repository has."""

    def test_reports(self):
        for path in example_scripts():
            script = json.loads(path.read_text())
            start = script.get("start", "seed")
            start = Picture.seed() if start == "seed" else Picture.from_json(start)
            limits = Limits.from_json(script["limits"]) if "limits" in script else Limits()
            calls = [call_from_json(command) for command in script["workers"][0]]
            with self.subTest(path.name):
                report = reference.run(start, calls, script.get("prices", ()), limits)
                self.assertEqual(report.to_text() + "\n", path.with_suffix(".report.json").read_text())


@needs_program
class RandomScripts(unittest.TestCase):
    def compare(self, calls, prices, limits, start=None):
        planarizer = Planarizer(start=start, prices=prices, limits=limits)
        planarizer.commands.extend(calls)
        report = planarizer.run()
        self.assertEqual(report.to_text(), reference.run(start or Picture.seed(), calls, prices, limits).to_text())
        return report

    def test_reports(self):
        kinds = set()
        for seed in range(40):
            chance = random.Random(seed)
            prices = [chance.choice([1, 2, 3, 1000, None, None]) for _ in range(chance.randrange(5))]
            limits = chance.choice([Limits(), Limits(), Limits(8, 20, 6)])
            with self.subTest(seed):
                report = self.compare(random_calls(chance, 60), prices, limits)
                kinds.update(getattr(reply, "name", type(reply).__name__) for reply in report.replies)
        self.assertLessEqual(
            {"Grown", "Inserted", "Deleted", "SameEnds", "NoPosition", "NoEdge", "BadKind", "Cut", "Full", "NoRoute"},
            kinds,
        )

    def test_starts(self):
        start = Picture.from_json(json.loads((EXAMPLES / "bipyramid.json").read_text()))
        for seed in range(10):
            with self.subTest(seed):
                self.compare(random_calls(random.Random(seed), 40), [2, 1], Limits(), start)


if __name__ == "__main__":
    unittest.main()
