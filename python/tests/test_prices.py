"""What prices mean: what a crossing costs, what is as small as can be, and edges that must not be crossed."""

import itertools
import random
import unittest
import warnings

import networkx as nx

from fezdrok import NotPlanarized, planarize, reinsert

from .support import needs_program


def cost_from_both_sides(result):
    """The cost, from the names of the edges that cross and from the prices of their kinds alone."""
    price = {result.edge_of[row.id]: result.prices[row.kind] for row in result.picture.edges}
    return sum(price[first] * price[second] for first, second in result.crossing_pairs)


@needs_program
class Costs(unittest.TestCase):
    def test_a_crossing_costs_the_product_of_both_prices(self):
        graph = nx.complete_graph(5)
        for first, second in itertools.combinations([(0, 1), (2, 3), (0, 4)], 2):
            price = {edge: 1000 for edge in graph.edges} | {first: 3, second: 5}
            for seed in (1, 2):
                result = planarize(graph, price, seed=seed, effort="thorough")
                self.assertEqual(result.cost, cost_from_both_sides(result))
                self.assertEqual(result.cost, 15 if not set(first) & set(second) else 3000)

    def test_the_objective(self):
        """Two cheap edges may cross often where one crossing of dear ones costs more."""
        graph = nx.complete_graph(8)
        prices = {edge: random.Random(str(edge)).choice((1, 30)) for edge in graph.edges}
        by_cost, by_number = planarize(graph, prices), planarize(graph, prices, objective="crossings")
        self.assertEqual(planarize(graph, prices, objective="cost"), by_cost)
        self.assertLess(by_cost.cost, by_number.cost)
        self.assertLess(by_number.crossings, by_cost.crossings)
        self.assertEqual(planarize(graph), planarize(graph, objective="crossings"))
        for result in (by_cost, by_number):
            result.verify()
            self.assertEqual(result.cost, cost_from_both_sides(result))

    def test_rounds_lower_the_objective(self):
        for seed in range(6):
            graph = nx.gnm_random_graph(12, 32, seed=seed)
            prices = {edge: 1 + random.Random(f"{seed}{edge}").randrange(20) for edge in graph.edges}
            before = planarize(graph, prices, effort="quick")
            for objective, name in (("cost", "cost"), ("crossings", "crossings"), (None, "cost")):
                after = reinsert(before, objective=objective)
                self.assertLessEqual(getattr(after, name), getattr(before, name))
                self.assertEqual(after.cost, cost_from_both_sides(after))

    def test_an_objective_that_is_none(self):
        for call, given in ((planarize, [(0, 1)]), (reinsert, planarize([(0, 1)]))):
            for objective in ("best", 1, ["cost"]):
                with self.assertRaisesRegex(ValueError, "the objective .* is not known: it is 'crossings' or 'cost'"):
                    call(given, objective=objective)


@needs_program
class Forbidden(unittest.TestCase):
    def test_no_crossing_from_either_side(self):
        for seed in range(8):
            chance = random.Random(seed)
            graph = nx.gnm_random_graph(10, 26, seed=seed)
            forbidden = chance.sample(list(graph.edges), 8)
            for options in ({}, {"effort": "quick"}, {"seed": 3}, {"seconds": 0}):
                try:
                    with warnings.catch_warnings():
                        warnings.simplefilter("ignore")  # of orders that come to no picture
                        result = planarize(graph, forbidden=forbidden, **options)
                except NotPlanarized as refused:
                    self.assertTrue(graph.has_edge(*refused.edge))
                    continue
                for u, v in forbidden:
                    self.assertEqual(len(result.segments(u, v)), 1)
                result.verify()

    def test_many_that_go_together_are_drawn_whatever_comes_with_them(self):
        """More than the planar part tries one by one, and where the time is over at once."""
        graph = nx.grid_2d_graph(30, 30)
        walls = list(graph.edges)
        for seconds in (0, 20):
            planarize(graph, forbidden=walls, seconds=seconds).verify()
        graph.add_edge((2, 1), (5, 28))
        for seconds in (0, 20):
            with self.assertRaisesRegex(NotPlanarized, "the edge ..2, 1., .5, 28.. was refused: 9 NoRoute"):
                planarize(graph, forbidden=walls, seconds=seconds, tries=1)

    def test_what_is_named(self):
        graph = nx.complete_graph(6)
        with self.assertRaisesRegex(NotPlanarized, "the edge .3, 4. must not be crossed, and cannot be drawn"):
            planarize(graph, forbidden=[edge for edge in graph.edges if 5 not in edge])
        with self.assertRaisesRegex(NotPlanarized, "the edge .* was refused: 9 NoRoute"):
            planarize(graph, price=lambda u, v, data: None if (u, v) in nx.octahedral_graph().edges else 1)
        self.assertTrue(issubclass(NotPlanarized, ValueError))


class Options(unittest.TestCase):
    """What cannot be used is a ValueError that names the option, before a program is looked for."""

    def test_options(self):
        for words, due in (
            ({"price": 5}, "price is 5"),
            ({"price": [1]}, r"price is \[1\]"),
            ({"forbidden": 5}, "forbidden is 5"),
            ({"forbidden": [1]}, "forbidden names 1, which is no edge of the graph"),
            ({"forbidden": [([], 1)]}, r"forbidden names \(\[\], 1\)"),
            ({"effort": "much"}, "the effort 'much' is not known: it is 'quick' or 'default' or 'thorough'"),
            ({"effort": None}, "the effort None"),
            ({"seed": "one"}, "seed is 'one'"),
            ({"seed": 1.5}, "seed is 1.5"),
            ({"seconds": "5"}, "seconds is '5'"),
            ({"program": 7}, "program is 7"),
            ({"progress": 7}, "progress is 7"),
            ({"round_prices": "yes"}, "round_prices is 'yes'"),
        ):
            with self.subTest(words), self.assertRaisesRegex(ValueError, due):
                planarize(nx.path_graph(3), **{"program": "/nowhere/planar", **words})
        with self.assertRaisesRegex(ValueError, "result is 5"):
            reinsert(5)


if __name__ == "__main__":
    unittest.main()
