"""Orthogonal drawings with nodes of one size: boxes as large as their edges want, that bend where they must."""

import os
import random
import subprocess
import sys
import tempfile
import unittest
from pathlib import Path
from unittest import mock

import networkx as nx

from fezdrok import drawing_of, orthogonal_drawing, planarize, quality
from fezdrok.drawing.bends import MOST_TURNS, least_bends
from fezdrok.drawing.doglegs import shape_with_small_boxes
from fezdrok.drawing.orthogonal_layout import LINE, STEP
from fezdrok.engine.pictures import Dart

from .drawing_support import pictured, planar_result
from .support import ROOT, needs_program


def ends_on_sides(result, drawing, node):
    """How many edges end on the left, right, lower and upper side of a box."""
    box, sides = drawing.boxes[node], [0, 0, 0, 0]
    for edge_id, line in drawing.lines.items():
        row = result.picture.edge(edge_id)
        for vertex, (x, y) in ((row.a, line[0]), (row.b, line[-1])):
            if result.node_of[vertex] == node:
                for side, is_there in enumerate((x == box.left, x == box.right, y == box.bottom, y == box.top)):
                    sides[side] += is_there
    return sides


class BoxTest(unittest.TestCase):
    """What the tests of small boxes share."""

    def check(self, result, **words):
        """The drawing, which is true; each end of an edge is on a side of its box."""
        drawing = orthogonal_drawing(result, node_size="fixed", **words)
        for node, box in drawing.boxes.items():
            if not box.is_point:
                degree = len(result.picture.rotations[result.vertex_of[node]])
                self.assertEqual(sum(ends_on_sides(result, drawing, node)), degree)
        self.assertEqual(sum(len(line) - 2 for line in drawing.lines.values()), drawing.bends)
        return drawing


class SmallBoxes(BoxTest):
    def test_a_wheel(self):
        result = planar_result(nx.wheel_graph(12))
        drawing = self.check(result)
        left, right, lower, upper = ends_on_sides(result, drawing, 0)
        box = drawing.boxes[0]
        self.assertEqual(box.right - box.left, 1 + max(lower, upper))
        self.assertEqual(box.top - box.bottom, 1 + max(left, right))

    def test_a_star_turns_at_its_middle(self):
        """Of 40 edges four go straight; each other one turns at the box alone."""
        result = planar_result(nx.star_graph(40))
        drawing = self.check(result)
        box = drawing.boxes[0]
        self.assertLessEqual(max(box.right - box.left, box.top - box.bottom), 22)
        self.assertLessEqual(max(len(line) for line in drawing.lines.values()), 4)

    def test_a_star_of_very_many_stays_wide(self):
        result = planar_result(nx.star_graph(500))
        self.assertEqual(self.check(result).bends, 0)

    def test_points_are_apart(self):
        drawing = self.check(planar_result(nx.grid_2d_graph(4, 4)))
        self.assertEqual((drawing.size, drawing.bends), ((3 * STEP, 3 * STEP), 0))
        self.assertEqual(self.check(planar_result(nx.path_graph(100))).size, (9 * STEP, 9 * STEP))
        self.assertGreater(STEP, LINE)

    def test_longest_paths_alone(self):
        result = planar_result(nx.icosahedral_graph())
        drawings = [self.check(result, by_flow=by_flow) for by_flow in (False, True)]
        sides = [sum(box.right - box.left + box.top - box.bottom for box in it.boxes.values()) for it in drawings]
        self.assertGreaterEqual(*sides)

    def test_the_face_outside(self):
        result = planar_result(nx.wheel_graph(7))
        for face in range(len(result.picture.faces)):
            self.check(result, outer=face)
        with self.assertRaisesRegex(ValueError, "the node size 'none' is not known"):
            orthogonal_drawing(result, node_size="none")


@needs_program
class Crossed(BoxTest):
    def test_the_four_graphs(self):
        for result in pictured().values():
            drawing = self.check(result)
            wide = [box for box in drawing.boxes.values() if not box.is_point]
            self.assertLess(max((max(box.right - box.left, box.top - box.bottom) for box in wide), default=0), 24)

    def test_complete_graphs_turn_little(self):
        for count in (6, 7, 8):
            found = quality(drawing_of(planarize(nx.complete_graph(count)), style="orthogonal"))
            self.assertEqual((found.turning_edges, found.node_angle, found.crossing_angle), (0, None, 90))
            self.assertLess(found.node_share, 0.1)
            self.assertLessEqual(found.greatest_turn, 90 * MOST_TURNS + 1e-6)

    def test_hypercubes_turn_little(self):
        """Soon, though with the fewest bends alone there is an edge that turns by three right angles."""
        for seed in range(4):
            result = planarize(nx.hypercube_graph(4), seed=seed)
            with mock.patch("fezdrok.drawing.doglegs.least_bends", side_effect=least_bends) as call:
                shape = shape_with_small_boxes(result.picture)
            self.assertLessEqual(call.call_count, 4)
            for row in result.picture.edges:
                darts = [Dart(row.id, segment) for segment in range(row.segments)]
                self.assertLessEqual(sum(len(shape.turns(dart)) for dart in darts), MOST_TURNS)

    def test_both_sizes_are_true(self):
        source = random.Random(7)
        for seed in range(20):
            count = source.randint(5, 24)
            graph = nx.gnm_random_graph(count, min(count * (count - 1) // 2, 2 * count), seed=seed)
            graph = nx.relabel_nodes(graph, {node: f"{node} {'x' * source.randint(0, 12)}" for node in graph})
            result = planarize(nx.DiGraph(graph.edges) if seed % 3 == 0 else graph, effort="quick")
            shares = []
            for size in ("fixed", "grow"):
                drawing = drawing_of(result, style="orthogonal", node_size=size)
                self.assertEqual(drawing.verify(), [])
                shares.append(quality(drawing).node_share)
            self.assertLess(shares[0], max(0.2, shares[1]))

    def test_a_shape_for_each_face(self):
        result = planarize(nx.complete_graph(5))
        for face in range(len(result.picture.faces)):
            shape = shape_with_small_boxes(result.picture, face)
            for point in result.picture.points:
                self.assertEqual(sum(shape.angles[dart] for dart in result.picture.around(point)), 4)

    def test_the_gallery(self):
        """The page of two graphs in three styles."""
        with tempfile.TemporaryDirectory() as folder:
            page = Path(folder) / "page.html"
            words = [sys.executable, str(ROOT / "tools" / "gallery"), str(page)]
            done = subprocess.run([*words, "Petersen", "K6"], capture_output=True, text=True, env=dict(os.environ))
            self.assertEqual((done.returncode, done.stdout), (0, "2 graphs in 3 styles\n"), done.stderr)
            self.assertEqual(page.read_text().count("<svg "), 6)
            wrong = subprocess.run([*words, "no such graph"], capture_output=True, text=True)
            self.assertEqual((wrong.returncode, wrong.stderr), (2, "usage: tools/gallery OUT.html [NAME..]\n"))


if __name__ == "__main__":
    unittest.main()
