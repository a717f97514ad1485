"""Colours, widths and labels by mappings and attributes, and drawings as PDF and PNG."""

import unittest
from math import cos, radians, sin
from unittest import mock
from xml.etree import ElementTree

import networkx as nx

from fezdrok import ModuleMissing, draw, drawing_of, planarize, to_svg
from fezdrok.drawing.drawings import STYLES
from fezdrok.drawing.labels import LETTER_HEIGHT, text_width

from .drawing_support import planar_result
from .drawn_lines import SVG
from .support import needs_matplotlib, needs_program

try:
    import cairosvg
except ModuleNotFoundError:
    cairosvg = None


def square() -> nx.Graph:
    """A cycle of four nodes, with attributes."""
    graph = nx.cycle_graph(["a", "b", "c", "d"])
    for place, node in enumerate(graph):
        graph.nodes[node].update(group=place % 2, name=f"node {node}", paint=f"#00000{place}")
    for place, (u, v) in enumerate(graph.edges):
        graph.edges[u, v].update(weight=place + 0.5, word=f"w{place}", kind="xy"[place % 2])
    return graph


def root_of(graph, **words):
    return ElementTree.fromstring(to_svg(planar_result(graph), **words))


def uses(root):
    """The nodes of a file, by their names."""
    return {it.get("data-node"): it for it in root.iter(f"{SVG}use")}


class Nodes(unittest.TestCase):
    def test_labels(self):
        for labels, shown in (
            ("name", ["node a", "node b", "node c", "node d"]),
            ({"a": "first", "c": 3}, ["3", "first"]),
            (True, ["a", "b", "c", "d"]),
            (False, []),
        ):
            for style in STYLES:
                root = root_of(square(), labels=labels, style=style)
                self.assertEqual(sorted(it.text for it in root.iter(f"{SVG}text")), shown)
                self.assertEqual(set(uses(root)), set("abcd"))

    def test_a_node_without_the_attribute_has_its_name(self):
        graph = square()
        del graph.nodes["b"]["name"]
        shown = sorted(it.text for it in root_of(graph, labels="name").iter(f"{SVG}text"))
        self.assertEqual(shown, ["b", "node a", "node c", "node d"])

    def test_colours(self):
        by_paint = {node: it.get("fill") for node, it in uses(root_of(square(), node_color="paint")).items()}
        self.assertEqual(by_paint, {node: f"#00000{place}" for place, node in enumerate("abcd")})
        by_group = {node: it.get("fill") for node, it in uses(root_of(square(), node_color="group")).items()}
        self.assertEqual((by_group["a"], by_group["b"]), (by_group["c"], by_group["d"]))
        self.assertNotEqual(by_group["a"], by_group["b"])
        by_mapping = {node: it.get("fill") for node, it in uses(root_of(square(), node_color={"c": "gold"})).items()}
        self.assertEqual(by_mapping, {"a": None, "b": None, "c": "gold", "d": None})
        self.assertIn('fill="red"', to_svg(planar_result(square()), node_color="red"))

    def test_rims(self):
        rims = {node: it.get("stroke-width") for node, it in uses(root_of(square(), node_width={"d": 2.25})).items()}
        self.assertEqual(rims, {"a": None, "b": None, "c": None, "d": "2.25"})


class Edges(unittest.TestCase):
    def looks(self, **words):
        """The colour and width of each edge, by its words."""
        found = {}
        for group in root_of(square(), **words).iter(f"{SVG}g"):
            for path in group.findall(f"{SVG}path[@class='edge']"):
                found[path.get("data-edge")] = (group.get("stroke"), group.get("stroke-width"))
        return found

    def test_widths_and_colours(self):
        plain = self.looks()["a -- b"]
        widths = self.looks(edge_width="weight")
        self.assertEqual(sorted(width for _, width in widths.values()), [".5", "1.5", "2.5", "3.5"])
        self.assertEqual({width for _, width in self.looks(edge_width=4).values()}, {"4"})
        by_mapping = self.looks(edge_color={("b", "a"): "#ff0000"})
        self.assertEqual((by_mapping["a -- b"][0], by_mapping["b -- c"]), ("#ff0000", plain))
        self.assertEqual(len({color for color, _ in self.looks(edge_color="kind").values()}), 2)
        self.assertEqual({color for color, _ in self.looks(edge_color="teal").values()}, {"teal"})

    def test_labels(self):
        for labels, shown in (("word", ["w0", "w1", "w2", "w3"]), ({("a", "b"): 7}, ["7"])):
            for style in STYLES:
                root = root_of(square(), edge_labels=labels, style=style)
                self.assertEqual(sorted(it.text for it in root.findall(f".//*[@class='edge-label']")), shown)

    def test_labels_without_a_background(self):
        """Nothing can be cut out below the letters, so they stand close beside the line, whichever way it runs."""
        result = planar_result(nx.Graph([("a", "b", {"word": "a word"})]))
        right, down = text_width("a word") / 2, LETTER_HEIGHT / 2
        for turn in range(0, 360, 15):
            x, y = cos(radians(turn)), sin(radians(turn))
            drawing = drawing_of(result, style="straight", pos={"a": (0, 0), "b": (9 * x, 9 * y)}, edge_labels="word")
            roots = (ElementTree.fromstring(drawing.to_svg(background=it)) for it in ("#fff", None))
            on, beside = (root.find(".//*[@class='edge-label']") for root in roots)
            u, v = (float(beside.get(it)) - float(on.get(it)) for it in "xy")
            apart = [i * y + j * x for i in (u - right, u + right) for j in (v - down, v + down)]
            self.assertEqual(len({it > 0 for it in apart}), 1, turn)
            self.assertTrue(2 < min(map(abs, apart)) < 3, turn)

    def test_of_multigraphs(self):
        graph = nx.MultiDiGraph()
        graph.add_edge("a", "b", word="one")
        graph.add_edge("b", "c", word="two")
        result = planar_result(graph.to_undirected())
        self.assertEqual(len(drawing_of(result).scene.strokes), 2)


class Refusals(unittest.TestCase):
    def test_what_is_not_there(self):
        result = planar_result(square())
        for words, told in (
            ({"labels": "nix"}, "no node has the attribute 'nix'"),
            ({"edge_labels": "nix"}, "no edge has the attribute 'nix'"),
            ({"labels": {"z": 1}}, "labels has a value for 'z', which is no node"),
            ({"edge_color": {("a", "c"): "red"}}, "edge_color has a value for .'a', 'c'., which is no edge"),
            ({"edge_labels": {3: "red"}}, "edge_labels has a value for 3, which is no edge"),
            ({"edge_width": {("a", "b"): "broad"}}, "edge_width is 'broad': it must be a number"),
            ({"edge_width": -1}, "edge_width is -1: it must be at least 0"),
            ({"style": "orthogonal", "node_size": "huge"}, "the node size 'huge' is not known"),
        ):
            with self.subTest(told), self.assertRaisesRegex(ValueError, told):
                drawing_of(result, **words)
        with self.assertRaisesRegex(ValueError, "node_width is 'x'"):
            drawing_of(result).to_svg(node_width={"a": "x"})

    def test_without_cairosvg(self):
        drawing = drawing_of(planar_result(square()))
        with mock.patch.dict("sys.modules", {"cairosvg": None}):
            for call in (drawing.to_pdf, drawing.to_png):
                with self.assertRaisesRegex(ModuleMissing, "drawings as PDF and PNG want the package cairosvg"):
                    call()


class Files(unittest.TestCase):
    @unittest.skipIf(cairosvg is None, "there is no cairosvg")
    def test_pdf_and_png(self):
        for style in STYLES:
            drawing = drawing_of(planar_result(square()), style=style, edge_labels="word")
            self.assertTrue(drawing.to_pdf().startswith(b"%PDF"))
            small, large = drawing.to_png(scale=1), drawing.to_png(node_color="group")
            self.assertTrue(small.startswith(b"\x89PNG"))
            self.assertEqual(2 * int.from_bytes(small[16:20], "big"), int.from_bytes(large[16:20], "big"))

    @needs_program
    @needs_matplotlib
    def test_by_matplotlib(self):
        axes = draw(planarize(square()), node_color="group", edge_color="kind", edge_labels="word", edge_width="weight")
        self.assertEqual(len({patch.get_facecolor() for patch in axes.patches}), 2)
        self.assertEqual(len({line.get_color() for line in axes.lines}), 2)
        self.assertEqual({it.get_text() for it in axes.texts}, {"a", "b", "c", "d", "w0", "w1", "w2", "w3"})


if __name__ == "__main__":
    unittest.main()
