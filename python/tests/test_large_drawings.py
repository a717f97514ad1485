"""Large graphs: drawn in seconds in each style, true, and with faces of like size."""

import os
import random
import time
import unittest
from math import dist
from unittest import mock

import networkx as nx

from fezdrok import drawing_of, planarize, positions
from fezdrok.drawing.contraction import Triangulation, middle_of_sight
from fezdrok.drawing.drawings import STYLES
from fezdrok.drawing.flows import Arc, least_cost_flow
from fezdrok.drawing.segment_grid import SegmentGrid

from .drawing_support import planar_result
from .support import has_program

#: How large the graphs are, beside those that are to be drawn in five seconds each.
PART = float(os.environ.get("FEZDROK_LARGE_DRAWINGS", "0.12"))
SECONDS = 30.0


def grid_with_holes(count):
    """A grid with some four of ten edges taken out, that stays connected, and so has faces of many sizes."""
    side = int(count**0.5)
    graph = nx.convert_node_labels_to_integers(nx.grid_2d_graph(side, side))
    for place, edge in enumerate(list(graph.edges)):
        if place * 7 % 10 < 4:
            graph.remove_edge(*edge)
            if not nx.has_path(graph, *edge):
                graph.add_edge(*edge)
    return graph


def short_edges(count):
    """A graph of nodes at random places, most joined by short edges to a tree, and half as many edges more."""
    graph = nx.random_geometric_graph(count, 1.8 / count**0.5, seed=1)
    graph = graph.subgraph(max(nx.connected_components(graph), key=len))
    length = {edge: dist(*(graph.nodes[node]["pos"] for node in edge)) for edge in graph.edges}
    nx.set_edge_attributes(graph, length, "weight")
    tree = nx.minimum_spanning_tree(graph)
    left = [edge for edge in graph.edges if not tree.has_edge(*edge)]
    tree.add_edges_from(random.Random(1).sample(left, len(tree) // 2))
    return tree


class Large(unittest.TestCase):
    @classmethod
    def setUpClass(cls):
        levels = 10 if PART >= 1 else 7
        graphs = [
            grid_with_holes(int(2000 * PART)),
            nx.path_graph(int(2000 * PART)),
            nx.star_graph(int(3000 * PART)),
            nx.balanced_tree(2, levels),
        ]
        cls.results = [planar_result(graph) for graph in graphs]
        if has_program():
            cls.results.append(planarize(short_edges(max(500, int(2000 * PART))), effort="quick"))

    def test_drawn_in_time(self):
        for result in self.results:
            for style in STYLES:
                with self.subTest(nodes=len(result.node_of), style=style):
                    began = time.process_time()
                    drawing = drawing_of(result, style=style)
                    self.assertLess(time.process_time() - began, SECONDS * max(PART, 0.3))
                    self.assertEqual(drawing.verify(), [])

    def test_the_page_is_filled(self):
        """Few faces are very small, and the points lie as far apart across as they do up and down."""
        for result in self.results:
            place = positions(result)
            faces = [
                [place[result.name_of(result.picture.start(dart))] for dart in face]
                for number, face in enumerate(result.picture.faces)
                if number != result.outer_face
            ]
            areas = [
                abs(sum(x * v - u * y for (x, y), (u, v) in zip(face, face[1:] + face[:1]))) for face in faces
            ]
            small = sum(area * 1000 * len(areas) < sum(areas) for area in areas)
            self.assertLessEqual(small, len(result.node_of) / 10)
            width, height = (max(along) - min(along) for along in zip(*place.values()))
            self.assertLess(max(width, height), 1.5 * min(width, height))

    def test_orthogonal_drawings_fill_the_page(self):
        for result in self.results[1:]:
            drawing = drawing_of(result, style="orthogonal", labels=False)
            left, bottom, right, top = drawing.scene.bounds
            self.assertLess(max(right - left, top - bottom), 3 * min(right - left, top - bottom))

    def test_curves_that_are_false_are_told_of_once(self):
        """As in drawings of many nodes; they are true all the same."""
        with mock.patch("fezdrok.drawing.straight_scenes.MANY", 5):
            for result in self.results:
                self.assertEqual(drawing_of(result, style="curved").verify(), [])

    def test_where_points_come_too_near_the_drawing_is_on_a_grid(self):
        result = planar_result(nx.wheel_graph(9))
        with mock.patch("fezdrok.drawing.straight_layout.spread", return_value=None):
            with self.assertWarnsRegex(UserWarning, "its points lie on a grid"):
                drawing = drawing_of(result)
        self.assertEqual(drawing.verify(), [])
        together = {node: (1e-9 * place, 1e-9 * place**2) for place, node in enumerate(result.node_of)}
        with mock.patch("fezdrok.drawing.drawings.positions", return_value={**together, 0: (1.0, 1.0)}):
            with self.assertWarnsRegex(UserWarning, "it is drawn on a grid"):
                drawing = drawing_of(result, style="straight")
        self.assertEqual(drawing.verify(), [])


class Parts(unittest.TestCase):
    """What large drawings are made with."""

    def test_flows(self):
        arcs = [Arc(0, 1, 2, 1), Arc(0, 2, 2, 3), Arc(1, 2, 2, 1), Arc(1, 3, 1, 5), Arc(2, 3, 3, 1)]
        self.assertEqual(least_cost_flow([-3, 0, 0, 3], arcs)[0], [2, 1, 2, 0, 3])
        self.assertEqual(least_cost_flow([0, 0, 0, 0], arcs)[0], [0] * 5)
        with self.assertRaisesRegex(ValueError, "takes no such flow"):
            least_cost_flow([-5, 0, 0, 5], arcs)

    def test_flows_cost_what_those_of_networkx_cost(self):
        source = random.Random(3)
        for _ in range(20):
            pairs = [(one, other) for one in range(8) for other in range(8) if one != other]
            arcs = [Arc(*pair, source.randint(1, 6), source.randint(0, 9)) for pair in source.sample(pairs, 30)]
            network = nx.DiGraph()
            network.add_nodes_from((node, {"demand": demand}) for node, demand in enumerate([-4, -3, 0, 0, 0, 0, 2, 5]))
            network.add_edges_from((arc.start, arc.end, {"capacity": arc.capacity, "weight": arc.cost}) for arc in arcs)
            try:
                cost = nx.network_simplex(network)[0]
            except nx.NetworkXUnfeasible:
                continue
            flow, potential = least_cost_flow([-4, -3, 0, 0, 0, 0, 2, 5], arcs)
            self.assertEqual(sum(arc.cost * amount for arc, amount in zip(arcs, flow)), cost)
            for arc, amount in zip(arcs, flow):
                more = arc.cost + potential[arc.start] - potential[arc.end]
                self.assertTrue((more >= 0 or amount == arc.capacity) and (more <= 0 or amount == 0))

    def test_what_is_contracted_comes_out_as_it_was(self):
        ring, inner = [0, 1, 2, 3], [4, 5]
        around = [[1, 4, 5, 3], [2, 4, 0], [3, 5, 4, 1], [0, 5, 2], [0, 1, 2, 5], [0, 4, 2, 3]]
        mesh = Triangulation([list(others) for others in around], ring)
        rounds = mesh.contracted()
        self.assertEqual(sorted(step.node for steps in rounds for step in steps), inner)
        for steps in reversed(rounds):
            for step in reversed(steps):
                mesh.expand(step)
        for others, before in zip(mesh.around, around):
            self.assertIn(before, [others[place:] + others[:place] for place in range(len(others))])
        self.assertEqual(mesh.weight, [1] * 6)

    def test_the_middle_of_sight(self):
        self.assertEqual(middle_of_sight([(0, 0), (2, 0), (2, 2), (0, 2)]), (1, 1))
        x, y = middle_of_sight([(0, 0), (3, 0), (3, 3), (2, 3), (2, 1), (0, 1)])
        self.assertTrue(2 < x < 3 and 0 < y < 1)
        self.assertIsNone(middle_of_sight([(0, 0), (9, 0), (9, 1), (1, 1), (1, 2), (9, 2), (9, 3), (0, 3)]))

    def test_near_segments(self):
        segments = [(0, 0, 100, 100), (0, 100, 9, 91), (50, 0, 50, 10), (100, 0, 0, 100)]
        grid = SegmentGrid(segments)
        self.assertTrue({0, 3} <= grid.near(49, 49, 51, 51))
        self.assertNotIn(1, grid.near(90, 90, 99, 99))
        boxes = SegmentGrid.of_rectangles([(0, 0, 90, 90), (95, 95, 99, 99), (0, 95, 3, 99)])
        self.assertIn(0, boxes.near(80, 2, 81, 3))


if __name__ == "__main__":
    unittest.main()
