"""Crossings as bridges: where their gaps and arcs are in the file, and which edges they are on."""

import unittest
from itertools import product
from math import hypot
from xml.etree import ElementTree

import networkx as nx

from fezdrok import drawing_of, planarize, to_svg
from fezdrok.drawing.bridges import RADIUS, REACH
from fezdrok.drawing.drawings import STYLES

from .drawing_support import pictured
from .drawn_lines import SVG, distance, edges_in, meetings
from .support import needs_program


def points_of(element):
    """The points of a polyline."""
    return [tuple(map(float, pair.split(","))) for pair in element.get("points").split()]


def away(point, line):
    """How far a point is from a chain of lines."""
    return min(distance(point, segment) for segment in zip(line, line[1:]))


@needs_program
class Bridges(unittest.TestCase):
    def shown(self, result, style):
        """For each crossing the lines of both edges, the one that was there first before the newcomer, then the gap,
        what is drawn again of the newcomer, and where it is in the scene, in pixels."""
        drawing = drawing_of(result, style=style)
        root = ElementTree.fromstring(drawing.to_svg())
        lines = dict(zip((stroke.edge_id for stroke in drawing.scene.strokes), edges_in(root)))
        groups = [it for it in root.iter(f"{SVG}g") if it.find(f"{SVG}polyline") is not None]
        chains = [list(map(points_of, group)) for group in groups]
        rows = result.picture.crossings
        self.assertEqual([len(group) for group in chains], [len(rows)] * (3 if style == "orthogonal" else 2))
        for row, gap, above in zip(rows, chains[0], chains[-1]):
            yield lines[row.crossed], lines[row.newcomer], gap, above

    def test_gaps(self):
        """The newcomer is drawn again where it is, over a gap that is not longer than that."""
        for result, style in product(pictured().values(), ("straight", "curved")):
            for first, newcomer, gap, above in self.shown(result, style):
                self.assertEqual([above[0], above[2]], gap)
                self.assertLess(max(away(point, newcomer) for point in above), 0.15)
                self.assertLess(away(above[1], first), 1e-6)
                for point in gap:
                    self.assertLess(hypot(point[0] - above[1][0], point[1] - above[1][1]), REACH + 0.2)

    def test_arcs(self):
        """The newcomer leads over the edge that was there first in an arc, which begins and ends on its own line and
        meets no other edge."""
        for result in pictured().values():
            shown = list(self.shown(result, "orthogonal"))
            edges = [first for first, _, _, _ in shown] + [newcomer for _, newcomer, _, _ in shown]
            for first, newcomer, gap, above in shown:
                self.assertEqual([above[0], above[-1]], gap)
                self.assertLess(max(away(point, newcomer) for point in gap), 1e-6)
                middle = tuple(sum(parts) / 2 for parts in zip(*gap))
                self.assertLess(max(away(middle, first), away(middle, newcomer)), 1e-6)
                for x, y in above:
                    self.assertAlmostEqual(hypot(x - middle[0], y - middle[1]), RADIUS, delta=0.1)
                met = [edges[place] for place, last in meetings([*edges, above]) if last == len(edges)]
                self.assertTrue(all(line in (first, newcomer) for line in met))
                self.assertTrue(any(line == first for line in met))

    def test_they_are_drawn_in_their_order(self):
        """Gaps come after all edges, what is drawn again comes after all gaps, and then arrows and nodes."""
        graph = nx.DiGraph(nx.complete_graph(7).edges)
        result = planarize(graph, price=lambda u, v, data: 1 + (u + v) % 2, forbidden=[(0, 1)])
        for style in STYLES:
            root = ElementTree.fromstring(to_svg(result, style=style))
            kinds = [it.get("class") or it.tag[len(SVG) :] for it in root.iter() if it.tag[len(SVG) :] != "title"]
            order = [it for it in dict.fromkeys(kinds) if it in ("edge", "crossing", "polyline", "arrow", "node")]
            self.assertEqual(order, ["edge", "crossing", "polyline", "arrow", "node"])
            self.assertEqual(kinds.count("crossing"), result.crossings)
            groups = list(root.iter(f"{SVG}g"))
            looks = [(it.get("stroke"), it.get("stroke-width")) for it in groups]
            shown = {look for it, look in zip(groups, looks) if it.find("*[@class='edge']") is not None}
            for group, look in zip(groups, looks):
                if group.find(f"{SVG}polyline") is not None and group.find("*[@class='crossing']") is None:
                    self.assertIn(look, shown)

    def test_dots_in_their_place(self):
        """Where a colour for crossings is given, and where no background hides what is below, there are dots."""
        result = planarize(nx.complete_graph(6))
        for style, words in product(STYLES, ({"crossing_color": "#123456"}, {"background": None})):
            root = ElementTree.fromstring(to_svg(result, style=style, **words))
            self.assertIsNone(root.find(f".//{SVG}polyline"))
            dots = 0 if style == "orthogonal" else result.crossings
            self.assertEqual(len(root.findall(f".//{SVG}circle[@class='crossing']")), dots)

    def test_gaps_have_the_colour_of_the_background(self):
        root = ElementTree.fromstring(to_svg(planarize(nx.complete_graph(5)), background="#abcdef"))
        groups = [it for it in root.iter(f"{SVG}g") if it.find("*[@class='crossing']") is not None]
        self.assertEqual([it.get("stroke") for it in groups], ["#abcdef"])


if __name__ == "__main__":
    unittest.main()
