"""Names as nodes show them: in how many lines, and how wide."""

import unittest
from itertools import product
from xml.etree import ElementTree

import networkx as nx

from fezdrok import drawing_of, planarize, to_svg
from fezdrok.drawing.drawings import STYLES
from fezdrok.drawing.labels import LETTER, MOST, label_in_one_line, label_of, label_size, text_width

from .drawn_lines import SVG
from .support import needs_program

LONG = {
    "Friedrichshain-Kreuzberg am Wasser": "Friedrichshain-\nKreuzberg am\nWasser",
    "org.apache.commons.lang.StringUtils": "org.apache.\ncommons.lang.\nStringUtils",
    "The quick brown fox jumps over the lazy dog": "The quick brown\nfox jumps over\nthe lazy dog",
    "\u6771\u4eac" * 5: "\u6771\u4eac\u6771\u4eac\u6771\n\u4eac\u6771\u4eac\u6771\u4eac",
    "x" * 17: "x" * 9 + "\n" + "x" * 8,
    "e\u0301" * 18: "\n".join(["e\u0301" * 9] * 2),
}


class Labels(unittest.TestCase):
    def test_short_names_stand_in_one_line(self):
        for name in ("A", "Amsterdam", "Rio de Janeiro", "", "x" * 16, "e\u0301" * 16, 17, ("a", 3)):
            self.assertEqual(label_of(name), str(name))

    def test_long_names_are_broken_between_words(self):
        for name, label in LONG.items():
            self.assertEqual(label_of(name), label)

    def test_lines_of_a_name_stay(self):
        self.assertEqual(label_of("a\nb\r\nc\rd\n\ne"), "a\nb\nc\nd\n\ne")
        self.assertEqual(label_in_one_line("a\nb\r\nc"), "a b c")

    def test_very_long_names_have_wider_lines(self):
        for count in (50, 500, 5000):
            width, height = label_size(label_of("word " * count))
            self.assertTrue(height < width < 4 * height, (count, width, height))

    def test_no_letter_is_lost_and_no_line_too_wide(self):
        for name in ("a" * 100, "W" * 99, "\u3042" * 31, "x y " * 12, "-" * 50, "e\u0301\u0302" * 60, " " * 60):
            lines = label_of(name).split("\n")
            self.assertEqual("".join("".join(lines).split()), "".join(name.split()))
            most = max(MOST, 2 * (text_width(name) / LETTER) ** 0.5)
            self.assertLessEqual(max(map(text_width, lines)), (most + 2) * LETTER)
            self.assertFalse(any(line.startswith(("\u0301", "\u0302")) for line in lines))

    def test_widths(self):
        """Broad letters take more than narrow ones, wide East Asian ones two, marks nothing."""
        self.assertLess(text_width("illi"), text_width("0000"))
        self.assertLess(text_width("0000"), text_width("WWWW"))
        self.assertEqual(text_width("\u6771\u4eac"), text_width("0000"))
        self.assertEqual(text_width("\uff21"), text_width("00"))
        self.assertEqual(text_width("e\u0301"), text_width("e"))
        self.assertEqual(text_width("\u00c9"), text_width("E"))

    def test_several_lines_are_higher(self):
        (width, height), (wide, high) = label_size("abc"), label_size("abc\nabc")
        self.assertEqual((wide, high - height), (width if width > high else high + 1, 11.0))


@needs_program
class DrawnLabels(unittest.TestCase):
    def test_drawings_of_long_names_are_true(self):
        graph = nx.relabel_nodes(nx.complete_graph(len(LONG)), dict(enumerate(LONG)))
        for directed, style in product((False, True), STYLES):
            result = planarize(nx.DiGraph(graph.edges) if directed else graph)
            drawing = drawing_of(result, style=style)
            self.assertEqual(drawing.verify(), [])
            for node in drawing.scene.nodes:
                width, height = (extent * drawing.scene.unit for extent in (node.width, node.height))
                lines = node.label.split("\n")
                self.assertGreater(width, node.scale * max(map(text_width, lines)))
                self.assertGreater(height, node.scale * 10 * len(lines))

    def test_lines_in_the_file(self):
        """They stand one below another in the middle of the node, within it."""
        graph = nx.relabel_nodes(nx.cycle_graph(len(LONG)), dict(enumerate(LONG)))
        for style in STYLES:
            root = ElementTree.fromstring(to_svg(planarize(graph), style=style))
            shapes = {it.get("id"): it for it in root.find(f".//{SVG}defs")}
            shown = zip(root.iter(f"{SVG}use"), root.iter(f"{SVG}text"))
            for use, text in shown:
                lines = list(text)
                self.assertEqual("\n".join(it.text for it in lines), LONG[use.get("data-node")])
                self.assertEqual({it.get("x") for it in lines}, {f"{float(use.get('x')):.1f}".replace(".0", "")})
                high = float(shapes[use.get("href")[1:]].get("height"))
                ys = [float(it.get("y")) - float(use.get("y")) for it in lines]
                self.assertEqual(ys, sorted(ys))
                self.assertTrue(-high / 2 < ys[0] - 6 and ys[-1] < high / 2, (ys, high))


if __name__ == "__main__":
    unittest.main()
