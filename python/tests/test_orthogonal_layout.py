"""Orthogonal drawings: right angles alone, nothing lies on another, and as many bends as the flow says."""

import itertools
import unittest
from unittest import mock

import networkx as nx

from fezdrok import Dart, Planarization, Picture, orthogonal_drawing, planarize
from fezdrok.drawing.bends import least_bends

from .drawing_support import pictured, planar_result, touch
from .support import needs_program


def steps(line):
    """The points of the grid on a line, in order."""
    points = [line[0]]
    for (x, y), (u, v) in zip(line, line[1:]):
        east, north = (u > x) - (u < x), (v > y) - (v < y)
        points.extend((x + east * step, y + north * step) for step in range(1, abs(u - x) + abs(v - y) + 1))
    return points


def covered(box):
    """The points of the grid in a box, its sides among them."""
    return set(itertools.product(range(box.left, box.right + 1), range(box.bottom, box.top + 1)))


class OrthogonalTest(unittest.TestCase):
    def check(self, result, **options):
        drawing = orthogonal_drawing(result, **options)
        self.check_lines(result, drawing)
        self.check_ends(result, drawing)
        self.check_grid(result, drawing)
        return drawing

    def check_lines(self, result, drawing):
        """Each piece runs along one axis, each bend is a right angle, and there are as many as the flow says."""
        self.assertEqual(set(drawing.lines), set(result.edge_of))
        for line in drawing.lines.values():
            upright = [x == u for (x, _), (u, _) in zip(line, line[1:])]
            self.assertTrue(all((x == u) != (y == v) for (x, y), (u, v) in zip(line, line[1:])))
            self.assertTrue(all(first != second for first, second in zip(upright, upright[1:])))
        self.assertEqual(sum(len(line) - 2 for line in drawing.lines.values()), drawing.bends)
        self.assertEqual(least_bends(result.picture, result.outer_face).bend_count, drawing.bends)

    def check_ends(self, result, drawing):
        """Each edge leads from its one box to its other one, over its crossings in their order, and leaves a box at
        right angles."""
        for edge_id, line in drawing.lines.items():
            row = result.picture.edge(edge_id)
            points = steps(line)
            crossed = {drawing.crossings[crossing]: crossing for crossing in row.crossings}
            self.assertEqual([crossed[point] for point in points if point in crossed], list(row.crossings))
            for vertex, (end, following) in ((row.a, points[:2]), (row.b, points[:-3:-1])):
                box = drawing.boxes[result.node_of[vertex]]
                self.assertIn(end, covered(box))
                self.assertNotIn(following, covered(box))
                if not box.is_point:
                    self.assertNotIn(end, {(x, y) for x in (box.left, box.right) for y in (box.bottom, box.top)})

    def check_grid(self, result, drawing):
        """On each point of the grid there is one box, or one edge, or two edges that cross there straight."""
        owner = {}
        for node, box in drawing.boxes.items():
            for point in covered(box):
                self.assertNotIn(point, owner)
                owner[point] = node
        self.assertEqual(len(set(drawing.crossings.values())), result.crossings)
        met = {}
        for edge_id, line in drawing.lines.items():
            points = steps(line)
            for before, point, after in zip(points, points[1:], points[2:]):
                self.assertNotIn(point, owner)
                met.setdefault(point, []).append((edge_id, before[0] == point[0], after[0] == point[0]))
        crossings = {
            point: {row.crossed, row.newcomer}
            for row in result.picture.crossings
            for point in [drawing.crossings[row.id]]
        }
        for point, passing in met.items():
            if point in crossings:
                self.assertEqual({edge_id for edge_id, _, _ in passing}, crossings[point])
                self.assertEqual({way[1:] for way in passing}, {(True, True), (False, False)})
            else:
                self.assertEqual(len(passing), 1)
        self.assertEqual(min(x for x, _ in [*met, *owner]), 0)
        self.assertEqual(min(y for _, y in [*met, *owner]), 0)

    def check_pairs(self, result):
        """No two pieces between bends, crossings and boxes have a point in common but an end of both."""
        drawing = orthogonal_drawing(result)
        pieces = []
        for line in drawing.lines.values():
            stops = [point for point in steps(line) if point in line or point in drawing.crossings.values()]
            pieces.extend(zip(stops, stops[1:]))
        for first, second in itertools.combinations(pieces, 2):
            common = set(first) & set(second)
            self.assertLessEqual(len(common), 1)
            if not common:
                self.assertFalse(touch(first, second), (first, second))
            else:
                (end,) = common
                others = [piece[0] if piece[1] == end else piece[1] for piece in (first, second)]
                ways = [((x > end[0]) - (x < end[0]), (y > end[1]) - (y < end[1])) for x, y in others]
                self.assertNotEqual(*ways)


class Planar(OrthogonalTest):
    def test_fewest_bends(self):
        """The numbers are the least that any orthogonal drawing without crossings has."""
        known = {
            nx.complete_graph(4): 4,
            nx.octahedral_graph(): 12,
            nx.hypercube_graph(3): 4,
            nx.cycle_graph(3): 1,
            nx.cycle_graph(4): 0,
        }
        for graph, bends in known.items():
            self.assertEqual(self.check(planar_result(graph)).bends, bends)
            self.check_pairs(planar_result(graph))

    def test_trees_and_grids_have_no_bend(self):
        graphs = [
            nx.path_graph(2),
            nx.path_graph(7),
            nx.star_graph(4),
            nx.star_graph(9),
            nx.balanced_tree(3, 3),
            nx.grid_2d_graph(6, 6),
        ]
        for graph in [*graphs, nx.barabasi_albert_graph(40, 1, seed=2)]:
            self.assertEqual(self.check(planar_result(graph)).bends, 0)
        self.assertEqual(orthogonal_drawing(planar_result(nx.path_graph(2))).size, (1, 0))
        self.assertEqual(orthogonal_drawing(planar_result(nx.grid_2d_graph(6, 6))).size, (5, 5))

    def test_boxes(self):
        for graph in (nx.wheel_graph(12), nx.icosahedral_graph(), nx.complete_bipartite_graph(2, 9)):
            drawing = self.check(planar_result(graph))
            for node, box in drawing.boxes.items():
                self.assertEqual(box.is_point, graph.degree(node) <= 4)

    def test_sizes(self):
        graph = nx.grid_2d_graph(3, 3)
        drawing = self.check(planar_result(graph), sizes={(1, 1): (5, 3), (0, 0): (2, 2)})
        box = drawing.boxes[1, 1]
        self.assertGreaterEqual((box.right - box.left, box.top - box.bottom), (5, 3))
        self.assertTrue(drawing.boxes[2, 2].is_point)

    def test_parallel_edges(self):
        graph = nx.MultiGraph([(0, 1), (0, 1), (0, 1)])
        picture = Picture.from_json({**nx_free_triple(), "crossings": [], "next_crossing": 0})
        result = Planarization(graph, picture, (0, 1), dict(enumerate(graph.edges(keys=True))), (1,), ())
        self.assertEqual(self.check(result).bends, 4)
        self.check_pairs(result)

    def test_longest_paths_alone(self):
        result = planar_result(nx.dodecahedral_graph())
        self.assertGreaterEqual(self.check(result, by_flow=False).length, self.check(result).length)

    def test_faces(self):
        picture = planar_result(nx.grid_2d_graph(3, 3)).picture
        self.assertEqual(len(picture.faces[picture.outer_face]), 8)
        for dart in picture.darts:
            self.assertIn(dart, picture.faces[picture.face_of(dart)])
        with self.assertRaises(KeyError):
            picture.face_of(Dart(99, 0))

    def test_each_face_outside(self):
        """The bends depend on the face; each drawing is right."""
        result = planar_result(nx.wheel_graph(5))
        bends = [orthogonal_drawing(result, outer=place).bends for place in range(len(result.picture.faces))]
        self.assertEqual(sorted(bends), [4, 6, 6, 6, 6])
        self.assertEqual(bends[result.outer_face], 4)
        with self.assertRaisesRegex(ValueError, "there is no face 5: the picture has 5"):
            orthogonal_drawing(result, outer=5)

    def test_without_networkx(self):
        """An orthogonal drawing wants no package at all."""
        result = planar_result(nx.cycle_graph(3))
        with mock.patch.dict("sys.modules", {"networkx": None}):
            self.assertEqual(orthogonal_drawing(result).bends, 1)

    def test_a_long_path_is_a_spiral(self):
        drawing = self.check(planar_result(nx.path_graph(100)))
        self.assertEqual((drawing.size, drawing.length), ((9, 9), 99))

    def test_the_edges_of_a_box_leave_all_sides(self):
        drawing = orthogonal_drawing(planar_result(nx.star_graph(100)))
        box = drawing.boxes[0]
        self.assertEqual((box.right - box.left, box.top - box.bottom), (26, 26))


def nx_free_triple():
    """Three edges between two vertices, as rows."""
    edges = [{"id": number, "a": 0, "b": 1, "kind": 0, "crossings": []} for number in range(3)]
    return {"rotations": [[0, 1, 2], [0, 2, 1]], "edges": edges, "next_edge": 3}


@needs_program
class Crossed(OrthogonalTest):
    def test_the_four_graphs(self):
        for result in pictured().values():
            self.check(result)
            self.check(result, by_flow=False)

    def test_all_pairs(self):
        for graph in (
            nx.petersen_graph(),
            nx.complete_graph(6),
            nx.complete_bipartite_graph(3, 4),
            nx.MultiGraph([(0, 1), (0, 1), (1, 2)]),
        ):
            self.check_pairs(planarize(graph))

    def test_small_random_graphs(self):
        for seed in range(12):
            self.check(planarize(nx.connected_watts_strogatz_graph(10, 4, 0.5, seed=seed)))


if __name__ == "__main__":
    unittest.main()
