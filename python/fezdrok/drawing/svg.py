"""Scenes as SVG, by the standard library alone.

A document has a title and a description. Each node and each edge has a title too, which browsers show at the pointer,
and for programs a class and its names. Text is cleaned of what XML has not, and ids begin with a prefix that is the
drawing's own, so that several drawings may stand on one page of HTML.
"""

from __future__ import annotations

import re
from collections.abc import Hashable, Iterable, Sequence
from typing import NamedTuple
from xml.etree.ElementTree import Element, SubElement, tostring
from zlib import crc32

from ..engine.results import Planarization
from .bridges import bridges
from .labels import LETTER_HEIGHT, LINE, clean, label_in_one_line, text_width
from .pages import MARGIN, Page, PageLine, PageNode, PagePoint
from .scenes import FORBIDDEN, PLAIN, Look, NodeShape, Position, Scene, longest_piece, middle_of, toward

LEGEND_ROW = 16.0
#: The colours of the rims of nodes and of the letters of the legend.
RIM = "#333"
#: The colour of nodes, and the width of their rims in pixels.
NODE_COLOR = "#d9e8f6"
RIM_WIDTH = 0.8
LETTERS = "#000"
#: The colour of the marks of crossings where they are no bridges and no other is given.
DOTS = "#777777"
#: What ids may begin with.
PREFIX = re.compile(r"(?:[A-Za-z_][\w.-]*)?", re.ASCII)


class Paint(NamedTuple):
    """The colours of a document. Where there is no background, what has no colour of the caller's or of a price is in
    the colour of the text around the document. Where there is none for crossings, these are bridges."""

    node: str = NODE_COLOR
    crossing: str | None = None
    background: str | None = "#fff"

    def ink(self, color: str) -> str:
        """The colour of lines, or of letters beside them, that are of this colour on a background."""
        return "currentColor" if self.background is None and color in (PLAIN, FORBIDDEN, RIM, LETTERS) else color


def svg_of(result: Planarization, scene: Scene, paint: Paint = Paint(), prefix: str | None = None) -> str:
    """The scene of a planarization as an SVG document. Numbers have as few decimals as the scene says, so that small
    graphs are small files. Ids begin with the `prefix`, or else with one made from a checksum of the document.

    ValueError for a prefix with which no id can begin.
    """
    if prefix is not None and not PREFIX.fullmatch(prefix):
        raise ValueError(f"the prefix {prefix!r} is not of letters, digits, '_', '.' and '-', a letter or '_' first")
    page = Page(scene)
    width, height = (extent / page.steps for extent in page.size)
    rows = LEGEND_ROW * len(scene.legend)
    root = _document(max(width, 150.0 if scene.legend else 0.0), height + rows)
    _described(root, result)
    if paint.background is not None:
        _put(root, "rect", width="100%", height="100%", fill=paint.background)
    write = _Writer(result, page, paint)
    for look in dict.fromkeys(stroke.look for stroke in scene.strokes):
        write.edges(root, look)
    if paint.crossing is None and paint.background is not None:
        write.bridges(root, paint.background)
    else:
        write.dots(root)
    write.arrows(root)
    write.edge_labels(root)
    write.nodes(root)
    write.labels(root)
    write.legend(root, height)
    return _text(root, prefix)


def number(value: float, decimals: int = 1) -> str:
    """A number with so many decimals, without zeros at its ends."""
    text = f"{value:.{decimals}f}".rstrip("0").rstrip(".")
    if text.lstrip("-").startswith("0."):
        text = text.replace("0.", ".", 1)
    return "0" if text in ("-0", "-", "") else text


# ---- Elements


def _put(parent: Element, tag: str, text: str = "", **words: str) -> Element:
    """A new element at the end of another. In the names of attributes an underscore stands for a hyphen, and at the end
    for nothing."""
    child = SubElement(parent, tag, {name.rstrip("_").replace("_", "-"): clean(it) for name, it in words.items()})
    child.text = clean(text) or None
    return child


def _document(width: float, height: float) -> Element:
    """A document of this size, in pixels, with nothing in it."""
    across, down = number(width), number(height)
    root = Element("svg", xmlns="http://www.w3.org/2000/svg", width=across, height=down)
    root.set("viewBox", f"0 0 {across} {down}")
    root.set("role", "img")
    return root


def _described(root: Element, result: Planarization) -> None:
    """What the document shows, in words: as its title, and how large the graph is."""
    kind = "A directed graph" if result.graph.is_directed() else "A graph"
    counts = ((len(result.node_of), "node"), (len(result.edge_of), "edge"), (result.crossings, "crossing"))
    nodes, edges, crossings = (f"{count} {word}{'' if count == 1 else 's'}" for count, word in counts)
    _put(root, "title", f"{kind} drawn with {crossings}")
    _put(root, "desc", f"{nodes}, {edges}, {crossings}")


def edge_words(result: Planarization, edge_id: int) -> str:
    """An edge in words: the names of the nodes at its ends, and in a multigraph its key."""
    source, target, *key = result.edge_of[edge_id]
    between = "->" if result.graph.is_directed() else "--"
    return f"{source} {between} {target}" + "".join(f" ({it})" for it in key)


def _text(root: Element, prefix: str | None) -> str:
    """The text of a document, with the prefix before its ids and where they are used: from a checksum where it is
    None."""
    for group in root.iter():
        if group.tag in ("svg", "g", "defs"):
            group.text = "\n"
            for child in group:
                child.tail = "\n"
    if prefix is None:
        prefix = f"d{crc32(tostring(root)):08x}-"
    for element in root.iter():
        if "id" in element.attrib:
            element.set("id", prefix + element.attrib["id"])
        if "href" in element.attrib:
            element.set("href", f"#{prefix}{element.attrib['href'][1:]}")
    return tostring(root, encoding="unicode") + "\n"


class _Writer:
    """The elements of a page."""

    def __init__(self, result: Planarization, page: Page, paint: Paint):
        self.result, self.page, self.scene, self.paint = result, page, page.scene, paint

    def number(self, units: int) -> str:
        """A number of units of the page, in pixels."""
        return number(units / self.page.steps, self.scene.decimals)

    def at(self, place: Position) -> list[str]:
        """The x and y of a place of the scene."""
        return [self.number(it) for it in self.page.at(place)]

    # ---- Edges and crossings

    def edges(self, root: Element, look: Look) -> None:
        """The edges that look like this."""
        width, color = number(look.width), self.paint.ink(look.color)
        group = _put(root, "g", fill="none", stroke=color, stroke_width=width, stroke_linejoin="round")
        drawn = [(stroke, line) for stroke, line in zip(self.scene.strokes, self.page.lines) if stroke.look == look]
        for stroke, line in drawn:
            words = edge_words(self.result, stroke.edge_id)
            source, target = map(str, self.result.edge_of[stroke.edge_id][:2])
            names = {"data_edge": words, "data_from": source, "data_to": target}
            _put(_put(group, "path", class_="edge", **names, d=self.line(line)), "title", words)

    def line(self, line: PageLine) -> str:
        """The path of an edge, whose numbers are relative and so short: to the last end of a line or a curve."""
        (x, y), path, before = line.pieces[0][0], "", ""
        first = f"M{self.number(x)} {self.number(y)}"
        for piece in line.pieces:
            letter = "l" if len(piece) == 2 else "c"
            words = self._relative(piece)
            path += (letter if letter != before else "" if words[0].startswith("-") else " ") + words[0]
            path += "".join(word if word.startswith("-") else " " + word for word in words[1:])
            before = letter
        return first + path

    def _relative(self, piece: Sequence[PagePoint]) -> list[str]:
        """The numbers of a piece, from its first point."""
        x, y = piece[0]
        return [self.number(it) for u, v in piece[1:] for it in (u - x, v - y)]

    def arrows(self, root: Element) -> None:
        """The heads of arrows. The pointer sees what is below them, as it does with the marks of crossings."""
        for stroke in self.scene.strokes:
            if stroke.head:
                points = "L".join(",".join(self.at(place)) for place in stroke.head)
                color = self.paint.ink(stroke.look.color)
                _put(root, "path", class_="arrow", fill=color, pointer_events="none", d=f"M{points}Z")

    def dots(self, root: Element) -> None:
        """The marks of crossings where these are no bridges."""
        if self.scene.dots:
            group = _put(root, "g", fill=self.paint.crossing or DOTS, pointer_events="none")
            for dot in self.scene.dots:
                x, y = self.at(dot)
                _put(group, "circle", class_="crossing", cx=x, cy=y, r="1.6")

    def bridges(self, root: Element, background: str) -> None:
        """The crossings as bridges; in drawings whose crossings have no marks, which are orthogonal, these are arcs.
        All gaps come first, so that none lies on what is drawn again."""
        found = bridges(self.result, self.scene, not self.scene.dots)
        for width in dict.fromkeys(it.gap_width for it in found):
            gaps = [it.gap for it in found if it.gap_width == width]
            self.chains(root, Look(background, width), gaps, "butt", class_="crossing")
        for look in dict.fromkeys(it.below_look for it in found if it.below):
            self.chains(root, look, [it.below for it in found if it.below_look == look], "butt")
        for look in dict.fromkeys(it.above_look for it in found):
            self.chains(root, look, [it.above for it in found if it.above_look == look], "round")

    def chains(
        self, root: Element, look: Look, chains: Iterable[Iterable[Position]], ends: str, **words: str
    ) -> None:
        """Chains of straight lines that look like this and have such ends, which the pointer does not see."""
        drawn = {"stroke": look.color, "stroke_width": number(look.width), "stroke_linecap": ends}
        group = _put(root, "g", fill="none", pointer_events="none", stroke_linejoin="round", **drawn)
        for chain in chains:
            _put(group, "polyline", points=" ".join(",".join(self.at(place)) for place in chain), **words)

    # ---- Nodes

    def nodes(self, root: Element) -> None:
        """The nodes: each shape once, and where it is used."""
        group = _put(root, "g", fill=self.paint.node, stroke=self.paint.ink(RIM), stroke_width=number(RIM_WIDTH))
        shapes = _put(group, "defs")
        ids: dict[Hashable, str] = {}
        for node, place in zip(self.scene.nodes, self.page.nodes):
            kind = (place.right, place.down, place.is_round, node.box)
            if kind not in ids:
                ids[kind] = f"n{len(ids)}"
                self.shape(shapes, place, node.box).set("id", ids[kind])
            x, y = map(self.number, place.middle)
            name = str(node.node)
            use = _put(group, "use", class_="node", data_node=name, href=f"#{ids[kind]}", x=x, y=y)
            if node.color is not None:
                use.set("fill", clean(str(node.color)))
            if node.rim is not None:
                use.set("stroke-width", number(node.rim, 2))
            _put(use, "title", name)

    def shape(self, parent: Element, node: PageNode, is_box: bool) -> Element:
        """A node as it would be drawn at the upper left corner."""
        if node.is_round:
            return _put(parent, "circle", r=self.number(node.right))
        left, up, width, height = map(self.number, (-node.right, -node.down, 2 * node.right, 2 * node.down))
        rounding = number(3) if is_box else self.number(node.down)
        return _put(parent, "rect", x=left, y=up, width=width, height=height, rx=rounding)

    def labels(self, root: Element) -> None:
        """The names of the nodes. The pointer sees the nodes below them."""
        words = {"font_family": "sans-serif", "font_size": number(LETTER_HEIGHT), "text_anchor": "middle"}
        group = _put(root, "g", fill="#111", pointer_events="none", **words)
        for node in self.scene.nodes:
            if node.label:
                self.label(group, node)

    def edge_labels(self, root: Element) -> None:
        """The labels of the edges, each on the middle of its edge with a rim of the background round the letters, or
        beside it where there is no background."""
        words = {"font_family": "sans-serif", "font_size": number(LETTER_HEIGHT - 1), "text_anchor": "middle"}
        rim = {"fill": "none", "stroke": self.paint.background or "", "stroke_width": "3", "stroke_linejoin": "round"}
        for stroke in self.scene.strokes:
            if stroke.label:
                x, y = (it / self.page.steps for it in self.page.at(middle_of(stroke)))
                text = label_in_one_line(stroke.label)
                if self.paint.background is None:
                    piece = longest_piece(stroke)
                    across, up = toward(*sorted((piece[0], piece[-1])))
                    apart = abs(up) * text_width(text) / 2 + across * LETTER_HEIGHT / 2 + stroke.look.width / 2 + 2
                    x, y = x - up * apart, y - across * apart
                place = {"x": number(x), "y": number(y + LETTER_HEIGHT / 3)}
                group = _put(root, "g", pointer_events="none", **words)
                if self.paint.background is not None:
                    _put(group, "text", text, aria_hidden="true", **rim, **place)
                _put(group, "text", text, class_="edge-label", fill=self.paint.ink(LETTERS), **place)

    def label(self, group: Element, node: NodeShape) -> None:
        """The name of a node, in one line or in several."""
        x, y = (it / self.page.steps for it in self.page.at(node.middle))
        size, lines = LETTER_HEIGHT * node.scale, node.label.split("\n")
        small = {"font_size": number(size, 2)} if node.scale < 1 else {}
        top = y + size / 3 - LINE * node.scale * (len(lines) - 1) / 2
        if len(lines) == 1:
            _put(group, "text", node.label, x=number(x), y=number(top), **small)
            return
        text = _put(group, "text", **small)
        for place, line in enumerate(lines):
            _put(text, "tspan", line, x=number(x), y=number(top + LINE * node.scale * place))

    # ---- The legend

    def legend(self, root: Element, top: float) -> None:
        """The rows of the legend, below the drawing."""
        for place, (words, look) in enumerate(self.scene.legend):
            y, color = top + LEGEND_ROW * place, self.paint.ink(look.color)
            line = f"M{number(MARGIN)},{number(y)}h24"
            _put(root, "path", stroke=color, stroke_width=number(look.width), d=line)
            corner = {"x": number(MARGIN + 30), "y": number(y + 3), "fill": self.paint.ink(LETTERS)}
            _put(root, "text", words, font_family="sans-serif", font_size="10", **corner)
