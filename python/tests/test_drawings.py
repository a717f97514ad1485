"""Drawings: lines that meet only at points of the planarization, and what is shown of nodes, edges and crossings."""

import itertools
import tempfile
import unittest
from math import hypot
from pathlib import Path
from unittest import mock
from xml.etree import ElementTree

import networkx as nx

from fezdrok import (
    FalseDrawing, ModuleMissing, PlanarWarning, chain, draw, planarize, positions, to_networkx_embedding, to_svg,
)
from fezdrok.drawing.drawings import scene_of
from fezdrok.drawing.relaxation import spread
from fezdrok.drawing.scenes import flat

from .drawing_support import pictured, planar_result, touch
from .support import needs_matplotlib, needs_program

SVG = "{http://www.w3.org/2000/svg}"


def area(points) -> float:
    """Twice the area within a chain of points that closes, counterclockwise."""
    return sum(x * v - u * y for (x, y), (u, v) in zip(points, points[1:] + points[:1]))


class DrawingTest(unittest.TestCase):
    """What the tests of points share."""

    def check_apart(self, place, embedding):
        pairs = {frozenset(pair) for pair in embedding.edges}
        for first, second in itertools.combinations(pairs, 2):
            if not first & second:
                self.assertFalse(touch([place[node] for node in first], [place[node] for node in second]))
        nearest = min(
            (hypot(a[0] - b[0], a[1] - b[1]) for a, b in itertools.combinations(place.values(), 2)), default=1
        )
        self.assertGreater(nearest, 0.005)


class Plane(DrawingTest):
    def test_spread_without_crossings(self):
        graphs = [
            nx.path_graph(2),
            nx.path_graph(9),
            nx.star_graph(9),
            nx.balanced_tree(2, 4),
            nx.cycle_graph(3),
            nx.cycle_graph(12),
        ]
        graphs += [
            nx.grid_2d_graph(7, 7), nx.lollipop_graph(4, 9), nx.wheel_graph(15), nx.barabasi_albert_graph(40, 1, seed=3)
        ]
        for graph in graphs:
            result = planar_result(graph)
            embedding = to_networkx_embedding(result)
            rotations = {node: list(embedding.neighbors_cw_order(node)) for node in embedding}
            first = next(iter(rotations))
            self.check_apart(spread(rotations, frozenset(), (first, rotations[first][0])), embedding)
            self.check_apart(positions(result), embedding)

    def test_where_matplotlib_is_missing(self):
        result = planar_result(nx.path_graph(3))
        with mock.patch.dict("sys.modules", {"matplotlib": None, "matplotlib.patches": None}), self.assertRaisesRegex(
            ModuleMissing, "drawings by draw want the package matplotlib"
        ):
            draw(result)


@needs_program
class Positions(DrawingTest):
    def test_lines_meet_at_their_common_ends_alone(self):
        for graph in (
            nx.complete_graph(6),
            nx.petersen_graph(),
            nx.complete_bipartite_graph(3, 4),
            nx.MultiGraph([(0, 1), (0, 1), (1, 2)]),
        ):
            result = planarize(graph)
            embedding = to_networkx_embedding(result)
            place = positions(result, embedding)
            self.assertEqual(len(set(place.values())), len(embedding))
            self.check_apart(place, embedding)

    def test_the_four_graphs(self):
        """No lines cross, and no face is squeezed together."""
        for result in pictured().values():
            embedding = to_networkx_embedding(result)
            place = positions(result, embedding)
            self.check_apart(place, embedding)
            faces = [
                [place[result.name_of(result.picture.start(dart))] for dart in face] for face in result.picture.faces
            ]
            areas = [area(face) for number, face in enumerate(faces) if number != result.outer_face]
            self.assertGreater(min(areas), sum(areas) / len(areas) / 25)

    def test_each_edge_is_a_chain_of_neighbours_through_its_crossings(self):
        result = planarize(nx.complete_graph(6))
        embedding = to_networkx_embedding(result)
        for edge_id, edge in result.edge_of.items():
            nodes = chain(result, embedding, edge_id)
            self.assertEqual({nodes[0], nodes[-1]}, set(edge))
            self.assertTrue(all(embedding.has_edge(*pair) for pair in zip(nodes, nodes[1:])))
            self.assertEqual(len(nodes), 2 + len(result.picture.edge(edge_id).crossings))

    def test_a_chain_passes_its_own_bend(self):
        result = planarize(nx.MultiGraph([(0, 1), (0, 1), (0, 1), (1, 2)]))
        embedding = to_networkx_embedding(result)
        chains = [tuple(chain(result, embedding, result.id_of[0, 1, key])) for key in range(3)]
        self.assertEqual(sorted(len(nodes) for nodes in chains), [2, 3, 3])
        self.assertEqual(len({nodes[1] for nodes in chains}), 3)


@needs_program
class Scenes(unittest.TestCase):
    def test_edges_pass_crossings_without_a_corner_and_apart(self):
        for result in pictured().values():
            scene = scene_of(result)
            ways = {}
            for stroke in scene.strokes:
                for place in range(3, len(stroke.points) - 1, 3):
                    (x, y), (u, v), (r, s) = stroke.points[place - 1 : place + 2]
                    before, after = complex(u - x, v - y), complex(r - u, s - v)
                    self.assertGreater((before * after.conjugate()).real, 0.999 * abs(before) * abs(after))
                    ways.setdefault((u, v), []).append(before / abs(before))
            for place in scene.dots:
                if len(ways.get(place, ())) == 2:
                    first, second = ways[place]
                    self.assertGreater(abs((first * second.conjugate()).imag), 0.3)

    def test_straight_lines_from_crossing_to_crossing(self):
        for result in pictured().values():
            place = positions(result)
            for stroke in scene_of(result, "straight").strokes:
                path = [place[result.name_of(point)] for point in result.picture.path(stroke.edge_id)]
                self.assertEqual((stroke.curved, list(stroke.points)), (False, path))

    def test_no_node_lies_on_another(self):
        for result, style in itertools.product(pictured().values(), ("straight", "curved", "orthogonal")):
            for first, second in itertools.combinations(scene_of(result, style).nodes, 2):
                across, up = abs(first.middle[0] - second.middle[0]), abs(first.middle[1] - second.middle[1])
                self.assertTrue(
                    across > (first.width + second.width) / 2 or up > (first.height + second.height) / 2,
                    (first, second),
                )

    def test_labels_fit(self):
        names = ["A", "Amsterdam", "Rio de Janeiro", "B", "100"]
        result = planarize(nx.relabel_nodes(nx.complete_graph(5), dict(enumerate(names))))
        for style in ("straight", "curved", "orthogonal"):
            scene = scene_of(result, style)
            for node in scene.nodes:
                self.assertGreater(node.width * scene.unit, 5 * len(node.label), (style, node.label))

    def test_looks_and_legend(self):
        graph = nx.complete_graph(6)
        self.assertEqual(scene_of(planarize(graph)).legend, ())
        scene = scene_of(planarize(graph, price=lambda u, v, data: 1 + u, forbidden=[(0, 1)]))
        self.assertEqual(
            [words for words, _ in scene.legend],
            ["not to be crossed", "price 5", "price 4", "price 3", "price 2", "price 1"],
        )
        self.assertEqual(len({look for _, look in scene.legend}), 6)
        many = scene_of(planarize(graph, price=lambda u, v, data: 1 + 6 * u + v))
        self.assertEqual([many.legend[0][0], many.legend[-1][0], len(many.legend)], ["price 30", "price 2", 5])
        self.assertEqual(len({stroke.look for stroke in many.strokes}), 15)

    def test_arrows_lead_to_the_second_node(self):
        graph = nx.DiGraph([(0, 1), (2, 1), (2, 0), (1, 3), (3, 0), (2, 3)])
        for style in ("straight", "curved", "orthogonal"):
            result = planarize(graph)
            scene = scene_of(result, style)
            middle = {node.node: node.middle for node in scene.nodes}
            for stroke in scene.strokes:
                source, target = (middle[node] for node in result.edge_of[stroke.edge_id])
                (x, y), *_ = stroke.head
                self.assertLess(hypot(x - target[0], y - target[1]), hypot(x - source[0], y - source[1]))
                self.assertLess(hypot(x - target[0], y - target[1]) * scene.unit, 12)
        self.assertTrue(all(not stroke.head for stroke in scene_of(planarize(nx.complete_graph(4))).strokes))

    def test_places_of_nodes_alone(self):
        result = planarize(nx.complete_graph(5))
        place = {0: (0, 0), 1: (4, 0), 2: (5, 4), 3: (2, 6), 4: (-1, 4)}
        words = r"false with these points: .* at \d+\.\d, \d+\.\d, and \d+ defects more"
        with self.assertRaisesRegex(FalseDrawing, words):
            scene_of(result, pos=place)
        with self.assertWarnsRegex(PlanarWarning, "false with these points"):
            scene = scene_of(result, pos=place, keep_pos=True)
        self.assertEqual({node.node: node.middle for node in scene.nodes}, place)
        self.assertEqual(len(scene.dots), 1)
        with self.assertRaises(KeyError):
            scene_of(result, pos={0: (0, 0)})
        with self.assertRaisesRegex(ValueError, "leave pos out"):
            scene_of(result, "orthogonal", pos=place)
        with self.assertRaisesRegex(ValueError, "the style 'round' is not known"):
            scene_of(result, "round")

    def test_places_of_parallel_edges(self):
        result = planarize(nx.MultiGraph([(0, 1)] * 4 + [(1, 2)]))
        strokes = scene_of(result, pos={0: (0, 0), 1: (3, 0), 2: (5, 1)}).strokes
        middles = {tuple(round(part, 6) for part in flat(stroke)[len(flat(stroke)) // 2]) for stroke in strokes}
        self.assertEqual(len(middles), 5)


@needs_program
class Documents(unittest.TestCase):
    def test_svg(self):
        for result, style in itertools.product(pictured().values(), ("straight", "curved", "orthogonal")):
            text = to_svg(result, style=style)
            self.assertLess(len(text), 40000)
            root = ElementTree.fromstring(text)
            width, height = float(root.get("width")), float(root.get("height"))
            self.assertEqual(len(root.findall(f".//{SVG}path")), len(result.edge_of))
            self.assertEqual(len(root.findall(f".//{SVG}use")), len(result.node_of))
            self.assertEqual(sorted(it.text for it in root.iter(f"{SVG}text")), sorted(map(str, result.node_of)))
            for it in root.iter(f"{SVG}use"):
                self.assertTrue(0 < float(it.get("x")) < width and 0 < float(it.get("y")) < height)

    def test_names_that_xml_must_not_see(self):
        text = to_svg(planar_result(nx.Graph([("<a>", "b&c"), ("b&c", "d")])))
        self.assertEqual([it.text for it in ElementTree.fromstring(text).iter(f"{SVG}text")], ["<a>", "b&c", "d"])

    def test_characters_that_xml_has_not(self):
        """They stand as U+FFFD, in names as in colours; all others are as they were."""
        bad = [chr(code) for code in (*range(9), 11, 12, *range(14, 32), 0xD800, 0xDFFF, 0xFFFE, 0xFFFF)]
        good = ["\x7f", "\x85", "\ud7ff", "\ue000", "\ufffd", "\U00010000", "\U0010ffff", "]]>", "'\"", "&amp;"]
        names = [f"a{it}b" for it in bad + good]
        text = to_svg(planar_result(nx.path_graph(names)), node_color="\0")
        shown = [it.text for it in ElementTree.fromstring(text.encode()).iter(f"{SVG}text")]
        self.assertEqual(sorted(shown), sorted(["a\ufffdb"] * len(bad) + names[len(bad) :]))

    def test_two_drawings_on_one_page(self):
        """Their ids differ, also where they differ in names alone; what is drawn again has the same ids."""
        graphs = [nx.path_graph(3), nx.path_graph(4), nx.path_graph(["0", "1", "3"])]
        texts = [to_svg(planar_result(graph)) for graph in graphs]
        roots = [ElementTree.fromstring(text) for text in texts]
        ids = [{it.get("id") for it in root.iter()} - {None} for root in roots]
        self.assertEqual(len(set().union(*ids)), sum(map(len, ids)))
        for root, own in zip(roots, ids):
            self.assertEqual({it.get("href")[1:] for it in root.iter(f"{SVG}use")}, own)
        self.assertEqual(texts, [to_svg(planar_result(graph)) for graph in graphs])

    def test_a_prefix_of_ones_own(self):
        result = planar_result(nx.path_graph(3))
        for prefix, one in (("left-", "left-n0"), ("", "n0")):
            text = to_svg(result, prefix=prefix)
            self.assertEqual((text.count(f'id="{one}"'), text.count(f'href="#{one}"')), (1, 3))
        for prefix in ("a b", "1", "\n", "a#"):
            with self.assertRaisesRegex(ValueError, "the prefix"):
                to_svg(result, prefix=prefix)

    def test_titles_and_names(self):
        """Each node and each edge says what it is: to the reader by a title, to programs by a class and its names."""
        graph = nx.relabel_nodes(nx.complete_graph(5), dict(enumerate(["a", "b<", "c d", 3, "\0"])))
        shown = ["a", "b<", "c d", "3", "\ufffd"]
        for style in ("straight", "curved", "orthogonal"):
            root = ElementTree.fromstring(to_svg(planarize(graph), style=style, labels=False))
            self.assertEqual(root.get("role"), "img")
            words = [(it.tag, it.text) for it in root[:2]]
            told = ["A graph drawn with 1 crossing", "5 nodes, 10 edges, 1 crossing"]
            self.assertEqual(words, [(f"{SVG}title", told[0]), (f"{SVG}desc", told[1])])
            of_class = {name: root.findall(f".//*[@class='{name}']") for name in ("node", "edge", "crossing")}
            self.assertEqual(len(of_class["crossing"]), 1)
            nodes = {it.get("data-node"): it.find(f"{SVG}title").text for it in of_class["node"]}
            self.assertEqual(nodes, dict(zip(shown, shown)))
            ends = [(it.get("data-from"), it.get("data-to")) for it in of_class["edge"]]
            self.assertEqual(set(map(frozenset, ends)), set(map(frozenset, itertools.combinations(shown, 2))))
            for it, (source, target) in zip(of_class["edge"], ends):
                self.assertEqual([it.get("data-edge"), it.find(f"{SVG}title").text], [f"{source} -- {target}"] * 2)

    def test_titles_of_directed_and_of_parallel_edges(self):
        graph = nx.MultiDiGraph([(1, 0), (1, 0), (2, 1)])
        root = ElementTree.fromstring(to_svg(planarize(graph)))
        words = ["1 -> 0 (0)", "1 -> 0 (1)", "2 -> 1 (0)"]
        self.assertEqual(sorted(it.get("data-edge") for it in root.iter() if it.get("class") == "edge"), words)
        self.assertEqual(sum(it.get("class") == "arrow" for it in root.iter()), 3)
        self.assertEqual(root.find(f"{SVG}title").text, "A directed graph drawn with 0 crossings")

    def test_background(self):
        """Without one, lines have the colour of the text around, but where a price or the caller gives them one."""
        result = planarize(nx.complete_graph(5))
        root = ElementTree.fromstring(to_svg(result))
        self.assertEqual([it.get("fill") for it in root.findall(f"{SVG}rect")], ["#fff"])
        self.assertNotIn("currentColor", to_svg(result))
        root = ElementTree.fromstring(to_svg(result, background="#123"))
        self.assertEqual([it.get("fill") for it in root.findall(f"{SVG}rect")], ["#123"])
        for color, shown in (("#36618e", "currentColor"), ("red", "red")):
            root = ElementTree.fromstring(to_svg(result, background=None, edge_color=color))
            self.assertEqual(root.findall(f"{SVG}rect"), [])
            strokes = [it.get("stroke") for it in root.iter(f"{SVG}g") if it.get("stroke")]
            self.assertEqual(strokes, [shown, "currentColor"])
        priced = planarize(nx.complete_graph(5), price=lambda u, v, data: 1 + v % 2, forbidden=[(0, 1)])
        root = ElementTree.fromstring(to_svg(priced, background=None))
        lines = [it for it in root.findall(f"{SVG}path") if it.get("stroke")]
        self.assertEqual([it.get("stroke") for it in lines], ["currentColor", "#b03a2e", "#0072b2"])
        words = [it.get("fill") for it in root.findall(f"{SVG}text")]
        self.assertEqual(words, ["currentColor"] * 3)

    def test_without_labels(self):
        self.assertNotIn("<text", to_svg(planarize(nx.complete_graph(4)), labels=False))


@needs_matplotlib
@needs_program
class Drawings(unittest.TestCase):
    def setUp(self):
        import matplotlib

        matplotlib.use("Agg")

    def test_lines_and_points(self):
        from matplotlib.figure import Figure

        result = planarize(nx.complete_graph(6))
        for style in ("straight", "curved", "orthogonal"):
            axes = draw(result, Figure().subplots(), style=style)
            self.assertEqual({line.get_gid() for line in axes.lines}, {f"edge {edge_id}" for edge_id in result.edge_of})
            marks = [len(points.get_offsets()) for points in axes.collections]
            self.assertEqual(marks, [] if style == "orthogonal" else [result.crossings])
            self.assertEqual(len(axes.patches), 6)
            self.assertEqual(sorted(text.get_text() for text in axes.texts), list("012345"))

    def test_a_file_is_written(self):
        import matplotlib.pyplot as plt

        graph = nx.DiGraph(nx.petersen_graph().edges)
        axes = draw(planarize(graph, price=lambda u, v, data: 1 + u % 2), labels=False)
        self.addCleanup(plt.close, axes.figure)
        self.assertEqual([text.get_text() for text in axes.get_legend().get_texts()], ["price 2", "price 1"])
        with tempfile.TemporaryDirectory() as folder:
            path = Path(folder) / "petersen.svg"
            axes.figure.savefig(path)
            self.assertGreater(path.stat().st_size, 1000)

    def test_places_of_ones_own(self):
        from matplotlib.figure import Figure

        result = planarize(nx.complete_graph(4))
        place = {node: (7 * node, node * node) for node in range(4)}
        with self.assertWarnsRegex(PlanarWarning, "false with these points"):
            axes = draw(result, Figure().subplots(), pos=place, keep_pos=True)
        self.assertEqual([tuple(text.xy) for text in axes.texts], [place[node] for node in result.node_of])


if __name__ == "__main__":
    unittest.main()
