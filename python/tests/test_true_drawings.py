"""Drawings that are true: as the file has them, lines meet where the picture has crossings, and nowhere else."""

import os
import random
import unittest
from collections import Counter
from math import dist

import networkx as nx

from fezdrok import Crossing, Edge, Picture, Planarization, Point, drawing_of, planarize
from fezdrok.drawing.drawings import STYLES
from fezdrok.drawing.pages import FINE, Page, flattened
from fezdrok.drawing.scenes import Look, NodeShape, Scene, Stroke
from fezdrok.drawing.verification import defects, is_clockwise

from .drawn_lines import nodes_on_edges, on_curve, shown_crossings
from .support import needs_program

#: How many random graphs are drawn; with 500, which take over half an hour, all named ones are too.
COUNT = int(os.environ.get("FEZDROK_RANDOM_DRAWINGS", "7"))


def random_graph(seed):
    """A random graph of 5 to 60 nodes, not all of which are connected."""
    source = random.Random(seed)
    count = source.randint(5, 60)
    most = min(count * (count - 1) // 2, 3 * count if count < 20 else 2 * count)
    return nx.gnm_random_graph(count, source.randint(count, most), seed=seed)


def named_graphs():
    """Graphs of networkx that have a name, and all complete ones from 5 to 12 nodes."""
    names = (
        "bull chvatal cubical desargues diamond dodecahedral frucht heawood hoffman_singleton house house_x "
        "icosahedral krackhardt_kite moebius_kantor octahedral pappus petersen sedgewick_maze tetrahedral "
        "truncated_cube truncated_tetrahedron tutte karate_club florentine_families davis_southern_women"
    )
    graphs = {name: getattr(nx, f"{name}_graph")() for name in names.split()}
    return {**graphs, **{f"k{count}": nx.complete_graph(count) for count in range(5, 13)}}


def scene_with(places, lines):
    """A scene of small nodes at these places, a pixel to a step, with an edge for each of `lines`: its points, straight
    or as curves, and what of the picture the ends of its pieces are."""
    strokes = tuple(
        Stroke(edge_id, points, len(points) > len(marks), Look("#000", 1.0), marks)
        for edge_id, (points, marks) in enumerate(lines)
    )
    nodes = tuple(NodeShape(node, "", place, 4.0, 4.0, False) for node, place in enumerate(places))
    return Scene(1.0, strokes, nodes, (), ())


def vertex(number):
    """The point of a vertex."""
    return Point(False, number)


class DrawnTest(unittest.TestCase):
    def check(self, result, style, by_another_way=True):
        """Nothing is false, and a reading of the file alone finds each crossing once."""
        drawing = drawing_of(result, style=style)
        self.assertEqual(drawing.verify(), [])
        if not by_another_way:
            return
        order = [stroke.edge_id for stroke in drawing.scene.strokes]
        ends = [tuple(str(node) for node in result.edge_of[edge_id][:2]) for edge_id in order]
        text = drawing.to_svg()
        rows = result.picture.crossings
        wanted = Counter(frozenset((order.index(row.crossed), order.index(row.newcomer))) for row in rows)
        self.assertEqual(shown_crossings(text, ends), wanted, style)
        self.assertEqual(nodes_on_edges(text, ends), [])


@needs_program
class TrueDrawings(DrawnTest):
    def test_random_graphs(self):
        for seed in range(COUNT):
            result = planarize(random_graph(seed), effort="quick")
            for style in STYLES:
                with self.subTest(seed=seed, style=style):
                    self.check(result, style, seed % 4 == 0 or COUNT > 100)

    def test_curves_that_cross_at_a_small_angle(self):
        self.check(planarize(random_graph(365), effort="quick"), "curved")

    def test_graphs_with_few_edges(self):
        for graph in (nx.empty_graph(1), nx.empty_graph(5), nx.path_graph(2), nx.star_graph(3)):
            result = planarize(graph)
            for style in STYLES:
                with self.subTest(nodes=len(graph), style=style):
                    self.check(result, style)

    def test_named_graphs(self):
        graphs = named_graphs()
        for name in graphs if COUNT > 100 else ("k5", "k8", "karate_club", "heawood"):
            result = planarize(graphs[name], effort="quick")
            for style in STYLES:
                with self.subTest(name=name, style=style):
                    self.check(result, style, name != "k12")


class BrokenCurves(unittest.TestCase):
    """Curves that are broken into straight lines: these are on them, in their order, and nowhere farther from them than
    they may be."""

    SHAPES = {
        "an arc": ((0, 0), (30, 40), (70, 40), (100, 0)),
        "an S": ((0, 0), (30, 60), (70, -60), (100, 0)),
        "a steep S": ((0, 0), (150, 90), (-50, -90), (100, 0)),
        "a loop": ((0, 0), (200, 100), (-100, 100), (100, 0)),
        "a loop to where it began": ((0, 0), (100, 20), (20, 100), (0, 0)),
        "an eight": ((0, 0), (100, 60), (-100, -60), (0, 0)),
        "a cusp": ((0, 0), (100, 100), (0, 100), (100, 0)),
        "nearly straight": ((0, 0), (33, 0.2), (66, -0.1), (100, 0)),
        "one arm": ((0, 0), (0, 0), (40, 60), (100, 0)),
        "on its chord": ((0, 0), (20, 0), (90, 0), (100, 0)),
        "on its chord and back": ((0, 0), (300, 0), (-200, 0), (100, 0)),
        "behind its chord": ((0, 0), (-60, 0), (50, 0), (100, 0)),
        "arms that are too long": ((0, 0), (4000, 9000), (-7000, 5000), (100, 0)),
    }

    def curves(self):
        """Each shape, turned, scaled and moved at random, and curves at random."""
        source = random.Random(1)
        for name, shape in self.SHAPES.items():
            for steps in (10, 1000):
                scale = steps * source.choice((0.02, 0.3, 1))
                turn = complex(source.uniform(-scale, scale), source.uniform(-scale, scale))
                corner = complex(source.uniform(0, 1000 * steps), source.uniform(0, 1000 * steps))
                places = [corner + turn * complex(*point) for point in shape]
                yield f"{name}, {steps} units", steps, tuple((round(it.real), round(it.imag)) for it in places)
        for number in range(20):
            points = ((source.randint(0, 10**5), source.randint(0, 10**5)) for _ in range(4))
            yield f"random, {number}", 1000, tuple(points)

    def test_that_no_point_is_far_from_the_lines(self):
        for name, steps, piece in self.curves():
            with self.subTest(name, piece=piece):
                chain = flattened(piece, steps // 10)
                ends = [(x * FINE, y * FINE) for x, y in piece]
                self.assertEqual((chain[0], chain[-1]), (ends[0], ends[-1]))
                along = (on_curve(ends, step / 1024) for step in range(1025))
                for point in chain:
                    self.assertTrue(any(dist(point, it) <= 2 for it in along), "not on the curve, or not in order")
                lines = list(zip(chain, chain[1:]))
                for step in range(201):
                    point = on_curve(ends, step / 200)
                    while lines and distance(point, *lines[0]) > steps // 10 * FINE + 2:
                        del lines[0]
                    self.assertTrue(lines, f"far from all lines at {step / 200}")

    def test_that_few_lines_are_enough(self):
        for piece, lines in (
            (((0, 0), (90, 30)), 1),
            (((0, 0), (0, 0), (90, 30), (90, 30)), 1),
            (((0, 0), (10, 0), (50, 0), (90, 0)), 1),
            (((0, 0), (3000, 100), (6000, -100), (9000, 0)), 1),
            (((0, 0), (3000, 250), (6000, -250), (9000, 0)), 2),
        ):
            self.assertEqual(len(flattened(piece, 100)), lines + 1, piece)


def distance(point, start, end):
    """How far a point is from a straight line between two others."""
    at, chord = complex(*point) - complex(*start), complex(*end) - complex(*start)
    part = (at * chord.conjugate()).real / abs(chord) ** 2 if chord else 0
    return abs(at - min(1, max(0, part)) * chord)


class Defects(unittest.TestCase):
    """Each way of being false is told, with its place."""

    def found(self, picture, places, lines):
        nodes = tuple(range(len(picture.rotations)))
        edges = {row.id: (row.a, row.b) for row in picture.edges}
        result = Planarization(None, picture, nodes, edges, (1,), ())
        return [str(it) for it in defects(result, Page(scene_with(places, lines)))]

    def two_edges(self, first, second, places=((0, 0), (100, 100), (0, 100), (100, 0))):
        """What is false where the edges from 0 to 1 and from 2 to 3 lead over these points."""
        picture = Picture(((0,), (0,), (1,), (1,)), (Edge(0, 0, 1), Edge(1, 2, 3)), (), 2, 0)
        ends = (None,) * 9
        lines = [
            ((places[0], *first, places[1]), (vertex(0), *ends[: len(first)], vertex(1))),
            ((places[2], *second, places[3]), (vertex(2), *ends[: len(second)], vertex(3))),
        ]
        return self.found(picture, places, lines)

    def test_lines(self):
        self.assertEqual(self.two_edges([(100, 0 - 50)], [(50, 99)], ((0, 0), (100, 100), (0, 120), (100, 120))), [])
        self.assertEqual(self.two_edges([], []), ["the edge (0, 1) meets the edge (2, 3) at 62.0, 62.0"])
        self.assertEqual(
            self.two_edges([(50, 20), (90, 20)], [(0, 20), (70, 20)]),
            [f"the edge (0, 1) meets the edge (2, 3) at {x}, 92.0" for x in (62.0, 82.0)],
        )
        self.assertIn("meets itself", self.two_edges([(50, 0), (50, 50), (20, -20)], [(90, 90)])[0])
        self.assertIn("the node 2 lies on the edge", self.two_edges([(1, 60), (1, 99), (50, 150)], [(60, 20)])[-1])

    def test_nodes(self):
        places = ((0, 0), (100, 0), (0, 100), (2, 101))
        self.assertEqual(
            self.two_edges([], [(50, 150)], places)[-1:], ["the node 2 lies on the node 3 at 14.0, 59.0"]
        )

    def crossing(self, places, middle=(50, 50), sign="ltr", curve=None):
        """What is false where both edges lead straight to a crossing and on from there, or the first is a curve."""
        picture = Picture(
            ((0,), (0,), (1,), (1,)), (Edge(0, 0, 1, 0, (0,)), Edge(1, 2, 3, 0, (0,))), (Crossing(0, 0, 1, sign),), 2, 1
        )
        marks = [(vertex(start), Point(True, 0), vertex(start + 1)) for start in (0, 2)]
        first = (places[0], middle, places[1]) if curve is None else curve
        return self.found(picture, places, [(first, marks[0]), ((places[2], middle, places[3]), marks[1])])

    def test_crossings(self):
        places = ((0, 0), (100, 100), (0, 100), (100, 0))
        self.assertEqual(self.crossing(places), [])
        wrong = ["the edges at the crossing are not in their order at 62.0, 62.0"]
        self.assertEqual(self.crossing(places, sign="rtl"), wrong)
        self.assertEqual(self.crossing(((0, 0), (0, 100), (100, 100), (100, 0))), wrong)
        self.assertIn("the node 0 lies on a crossing at 13.0, 111.0", self.crossing(places, middle=(1, 1)))
        loop = ((0, 0), (10, 40), (30, 50), (50, 50), (80, -20), (90, 0), (100, 100))
        self.assertIn("meets the edge (2, 3)", self.crossing(places, curve=loop)[0])
        elsewhere = ((0, 0), (0, 0), (50, 40), (50, 40), (50, 40), (100, 100), (100, 100))
        self.assertIn("the edge (2, 3) is not at its crossing at 62.0, 62.0", self.crossing(places, curve=elsewhere))

    def test_order_at_a_node(self):
        places = ((0, 0), (0, 50), (50, 0), (0, -50))
        marks = [(vertex(0), vertex(number)) for number in (1, 2, 3)]
        lines = [((places[0], places[number]), marks[number - 1]) for number in (1, 2, 3)]
        edges = tuple(Edge(number, 0, number + 1) for number in range(3))
        self.assertEqual(self.found(Picture(((0, 1, 2), (0,), (1,), (2,)), edges, (), 3, 0), places, lines), [])
        self.assertEqual(
            self.found(Picture(((0, 2, 1), (0,), (1,), (2,)), edges, (), 3, 0), places, lines),
            ["the edges at the node 0 are not in their order at 12.0, 62.0"],
        )

    def test_turns(self):
        ways = [(1, 0), (1, 1), (0, 1), (-1, 0), (-1, -1), (0, -1)]
        self.assertTrue(all(is_clockwise(ways[place:] + ways[:place]) for place in range(6)))
        self.assertTrue(is_clockwise([]) and is_clockwise([(0, -3)]) and is_clockwise([(1, 0), (-2, 0)]))
        self.assertFalse(is_clockwise([(1, 0), (0, 1), (-1, 0), (0, 1)]))
        self.assertFalse(is_clockwise(ways[::-1]) or is_clockwise([(1, 0), (2, 0)]) or is_clockwise(ways * 2))


if __name__ == "__main__":
    unittest.main()
