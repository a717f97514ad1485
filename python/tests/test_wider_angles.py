"""Small angles that are made wider: by moves after which no line is crossed and no edge turns too far."""

import unittest
from math import hypot
from unittest import mock

import networkx as nx

from fezdrok import planarize, positions
from fezdrok.drawing import wider_angles
from fezdrok.drawing.relaxation import FAR, turn_along
from fezdrok.drawing.wider_angles import widened
from fezdrok.files.embeddings import to_networkx_embedding

from .drawing_support import planar_result, touch
from .support import needs_program

#: A fan in a triangle: three lines leave a node within six degrees.
FAN = {0: (-0.9, 0.0), 1: (0.9, 0.04), 2: (0.9, -0.04), 3: (0.0, 0.0)}


def clockwise(result):
    """The neighbours of each node, clockwise, and the nodes along each edge of a planar result."""
    embedding = to_networkx_embedding(result)
    return {node: list(embedding.neighbors_cw_order(node)) for node in embedding}, list(result.edge_of.values())


class Widened(unittest.TestCase):
    def test_a_fan(self):
        rotations = {0: [1, 3, 2], 1: [2, 3, 0], 2: [0, 3, 1], 3: [0, 1, 2]}
        found = widened(rotations, (), [], FAN)
        ways = [complex(*found[node]) - complex(*found[0]) for node in (1, 3, 2)]
        for one, two in zip(ways, ways[1:]):
            self.assertGreater(turn_along([0, two, two + one]), 0.15)
        self.assertLessEqual(max(hypot(*place) for place in found.values()), 1)
        self.assertTrue(abs(ways[2]) > 0.3 and abs(ways[0]) > 0.3)

    def test_what_is_wide_stays(self):
        square = {0: (0.5, 0.5), 1: (0.5, -0.5), 2: (-0.5, -0.5), 3: (-0.5, 0.5)}
        around = {node: [(node + 1) % 4, (node - 1) % 4] for node in square}
        self.assertEqual(widened(around, (), [], square), square)

    def test_a_tree_with_a_hub(self):
        """One face goes round all lines, and some of its points are there more than once."""
        graph = nx.star_graph(40)
        graph.add_edges_from((leaf, 100 + leaf) for leaf in range(1, 41))
        rotations, chains = clockwise(planar_result(graph))
        with mock.patch("fezdrok.drawing.straight_layout.widened", lambda *words: words[-1]):
            before = positions(planar_result(graph))
        self.check(widened(rotations, (), chains, before), chains)

    def test_work_is_bounded(self):
        """It ends also where each move makes the energy less."""
        rotations, chains = clockwise(planar_result(nx.wheel_graph(120)))
        with mock.patch.object(wider_angles._Points, "move", return_value=True) as move:
            widened(rotations, (), chains, {node: (node / 200, (node % 7) / 200) for node in rotations})
        self.assertLess(len(move.call_args_list), wider_angles.LOOKS)

    def check(self, places, chains):
        """No two lines have a point in common that is not an end of both."""
        lines = [pair for chain in chains for pair in zip(chain, chain[1:])]
        for number, one in enumerate(lines):
            for other in lines[:number]:
                if not set(one) & set(other):
                    self.assertFalse(touch(tuple(map(places.get, one)), tuple(map(places.get, other))))

    @needs_program
    def test_edges_that_cross(self):
        """Lines cross where they did alone, and no edge turns farther than it may."""
        for count in (7, 8):
            result = planarize(nx.complete_graph(count))
            with mock.patch("fezdrok.drawing.straight_layout.widened", side_effect=widened) as call:
                places = positions(result)
            _, _, chains, before = call.call_args.args
            self.check(places, chains)
            for chain in chains:
                turns = [turn_along([complex(*its[node]) for node in chain]) for its in (before, places)]
                self.assertLessEqual(turns[1], max(FAR, turns[0]))


if __name__ == "__main__":
    unittest.main()
