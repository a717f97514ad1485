"""How nodes and edges look: all alike, by a mapping from them, or by an attribute that they have in the graph."""

from __future__ import annotations

import re
from collections.abc import Mapping, Sequence
from dataclasses import replace
from typing import Any, TypeVar

from ..engine.graph_edges import Node
from ..engine.results import Planarization
from .scenes import PLAIN, Look, Scene

#: The colours by an attribute whose values are no colours, in the order in which these come: of nodes, and of edges.
LIGHT = (
    "#8dd3c7", "#ffffb3", "#bebada", "#fb8072", "#80b1d3", "#fdb462", "#b3de69", "#fccde5", "#d9d9d9", "#bc80bd",
    "#ccebc5", "#ffed6f",
)
DARK = ("#1b6ca8", "#c0392b", "#2e8b57", "#8e44ad", "#b9770e", "#148f8f", "#7f4f24", "#5d6d7e", "#ad1457", "#4b5320")
COLOR = re.compile("#([0-9A-Fa-f]{3}|[0-9A-Fa-f]{6})")

Thing = TypeVar("Thing")


def names_of(result: Planarization, labels: Any) -> dict[Node, str]:
    """What each node shows: its name where `labels` is True, nothing where it is False, and else what a mapping has for
    it, or an attribute, and its name where it has no such attribute. ValueError where no node has it."""
    if isinstance(labels, bool):
        return {node: str(node) if labels else "" for node in result.node_of}
    values = node_values(result, labels, "labels")
    if not isinstance(labels, Mapping) and not values:
        raise ValueError(f"no node has the attribute {labels!r}")
    return {node: str(values.get(node, "" if isinstance(labels, Mapping) else node)) for node in result.node_of}


def node_values(result: Planarization, wish: Any, word: str) -> dict[Node, Any]:
    """What a mapping has for nodes, or an attribute of theirs; empty where the wish is neither. ValueError where a
    mapping has something for what is no node."""
    if not isinstance(wish, Mapping):
        return {node: row[wish] for node, row in result.graph.nodes(data=True) if _has(row, wish)}
    for node in wish:
        if node not in result.vertex_of:
            raise ValueError(f"{word} has a value for {node!r}, which is no node")
    return dict(wish)


def edge_values(result: Planarization, wish: Any, word: str) -> dict[int, Any]:
    """What a mapping has for edges, by their ids, or an attribute of theirs; empty where the wish is neither.
    ValueError where a mapping has something for what is no edge."""
    if not isinstance(wish, Mapping):
        keys = {"keys": True} if result.graph.is_multigraph() else {}
        rows = result.graph.edges(data=True, **keys)
        return {result.edge_id(*edge): row[wish] for *edge, row in rows if _has(row, wish)}
    found = {}
    for edge, value in wish.items():
        try:
            found[result.edge_id(*edge)] = value
        except (KeyError, TypeError):
            raise ValueError(f"{word} has a value for {edge!r}, which is no edge") from None
    return found


def _has(row: Mapping[str, Any], wish: Any) -> bool:
    return isinstance(wish, str) and row.get(wish) is not None


def is_for_all(values: Mapping[Any, Any], wish: Any) -> bool:
    """Whether a wish is one value for all, and no mapping and no attribute."""
    return not values and not isinstance(wish, Mapping)


def colors_of(values: Mapping[Thing, Any], wish: Any, palette: Sequence[str]) -> dict[Thing, Any]:
    """Values as colours: those of a mapping as they are, and those of an attribute too if they are as `#1b6ca8`; each
    other value has a colour of the palette."""
    if isinstance(wish, Mapping):
        return dict(values)
    known: dict[str, str] = {}
    for value in map(str, values.values()):
        known.setdefault(value, value if COLOR.fullmatch(value) else palette[len(known) % len(palette)])
    return {thing: known[str(value)] for thing, value in values.items()}


def with_nodes(result: Planarization, scene: Scene, color: Any, width: Any) -> Scene:
    """The scene with nodes in these colours, and with rims so wide, where it is not for all alike."""
    colors = colors_of(node_values(result, color, "node_color"), color, LIGHT)
    widths = node_values(result, width, "node_width")
    if not colors and not widths:
        return scene
    nodes = tuple(
        shape._replace(color=colors.get(shape.node), rim=_number(widths.get(shape.node), "node_width"))
        for shape in scene.nodes
    )
    return replace(scene, nodes=nodes)


def with_edges(result: Planarization, scene: Scene, color: Any, width: Any, labels: Any) -> Scene:
    """The scene with edges in these colours, so wide, and with these labels. ValueError where no edge has the attribute
    that `labels` names."""
    colors = colors_of(edge_values(result, color, "edge_color"), color, DARK)
    widths, words = edge_values(result, width, "edge_width"), edge_values(result, labels, "edge_labels")
    if labels is not None and is_for_all(words, labels):
        raise ValueError(f"no edge has the attribute {labels!r}")
    if width is not None and is_for_all(widths, width):
        widths = dict.fromkeys(result.edge_of, width)
    if not (colors or widths or words):
        return scene
    strokes = []
    for stroke in scene.strokes:
        wide = _number(widths.get(stroke.edge_id), "edge_width")
        look = Look(str(colors.get(stroke.edge_id, stroke.look.color)), stroke.look.width if wide is None else wide)
        strokes.append(replace(stroke, look=look, label=str(words.get(stroke.edge_id, ""))))
    return replace(scene, strokes=tuple(strokes))


def plain_color(result: Planarization, color: Any) -> str:
    """The colour of edges that have none of their own and no price."""
    return str(color) if is_for_all(edge_values(result, color, "edge_color"), color) else PLAIN


def _number(value: Any, word: str) -> float | None:
    """A width in pixels. ValueError for what is none."""
    try:
        number = None if value is None else float(value)
    except (TypeError, ValueError):
        raise ValueError(f"{word} is {value!r:.80}: it must be a number of pixels, or have numbers") from None
    if number is not None and not 0 <= number < 1000:
        raise ValueError(f"{word} is {value!r:.80}: it must be at least 0, and less than 1000")
    return number
