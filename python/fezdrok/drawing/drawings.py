"""Drawings of a planarization: `Drawing`, and pictures as SVG or by matplotlib.

In a straight drawing each edge leads in straight lines from crossing to crossing; in a curved one it passes each of
them without a corner; in an orthogonal one it runs along a grid (see `orthogonal_layout`). Lines meet at points of the
planarization alone, as they stand in the file (see `verification`), but where `pos` gives points that do not allow it.
"""

from __future__ import annotations

import warnings
from collections.abc import Mapping
from dataclasses import dataclass, replace
from typing import TYPE_CHECKING, Any

from ..engine.faults import PlanarError, PlanarWarning, wanted
from ..engine.results import Planarization
from ..files.embeddings import chains_of, to_networkx_embedding
from .appearance import is_for_all, names_of, node_values, plain_color, with_edges, with_nodes
from .labels import LETTER_HEIGHT
from .near_lines import near_chains, settled
from .orthogonal_layout import orthogonal_drawing
from .pages import Page
from .scenes import PLAIN, Position, Scene, flat, grid_of, middle_of, orthogonal_scene, with_arrows
from .straight_layout import grid_positions, places_between, positions
from .straight_scenes import Chains, scene_beside, straight_scene, true_scene
from .svg import NODE_COLOR, RIM_WIDTH, Paint, svg_of
from .uncollected import uncollected
from .verification import Defect, Judge, defects
from .wider_angles import Effort

if TYPE_CHECKING:
    from matplotlib.axes import Axes

STYLES = ("straight", "curved", "orthogonal")
#: How much is done to widen the angles at a new edge, and then those of all the drawing.
QUICK, SLOW = Effort(first=0.02, looks=250), Effort(first=0.01, looks=6000)
#: How many decimals coordinates have where lines are still to come, so that these are seldom too near to others.
FINE_DECIMALS = 3


class FalseDrawing(PlanarError, ValueError):
    """With the points that were given a drawing would show what is not in the picture.

    `defects` says what, and where; see `Defect`.
    """

    def __init__(self, false: list[Defect]):
        super().__init__(false)
        self.defects = false

    def __str__(self) -> str:
        more = f", and {len(self.defects) - 1} defects more" if len(self.defects) > 1 else ""
        return f"the drawing would be false with these points: {self.defects[0]}{more}"


@dataclass(frozen=True)
class Drawing:
    """A planarization drawn in one of the STYLES; `scene` is what it shows."""

    result: Planarization
    style: str
    scene: Scene

    def verify(self) -> list[Defect]:
        """What is false in the drawing, as it stands in its file: where lines meet that do not cross there in the
        picture, edges do not lie in their order round a node or a crossing, or a node lies on what is not its own. The
        list is empty but where the points were the caller's and kept."""
        return defects(self.result, Page(self.scene))

    def to_svg(
        self,
        *,
        node_color: Any = NODE_COLOR,
        node_width: Any = None,
        crossing_color: str | None = None,
        background: str | None = "#fff",
        prefix: str | None = None,
    ) -> str:
        """The drawing as an SVG document. `node_color` and `node_width`, that of rims in pixels, are one value for all
        nodes, a mapping from them, or an attribute of theirs. At a crossing the edge that was there first has a gap, or
        in the style `orthogonal` the newcomer an arc; with a `crossing_color` crossings have dots instead, but none in
        that style. With None as `background` it has none, and edges that have no colour of yours or of a price are
        drawn in `currentColor`, so that it fits a dark page as well as a light one; crossings then have dots, and labels
        of edges stand beside them. Its ids begin with `prefix`; without it with a checksum of the document, so that
        those of drawings which differ do not meet on one page."""
        scene = with_nodes(self.result, self.scene, node_color, node_width)
        every = node_color if is_for_all(node_values(self.result, node_color, "node_color"), node_color) else NODE_COLOR
        return svg_of(self.result, scene, Paint(every, crossing_color, background), prefix)

    def to_pdf(self, **words: Any) -> bytes:
        """The drawing as PDF; the words are those of `to_svg`. ModuleMissing where the package cairosvg is not there
        (Debian: python3-cairosvg)."""
        return self._converted("svg2pdf", words)

    def to_png(self, *, scale: float = 2.0, **words: Any) -> bytes:
        """The drawing as PNG, with so many points for a pixel of the SVG; the other words are those of `to_svg`.
        ModuleMissing where the package cairosvg is not there (Debian: python3-cairosvg)."""
        return self._converted("svg2png", words, scale=scale)

    def _converted(self, function: str, words: Mapping[str, Any], **options: Any) -> bytes:
        converter = wanted("cairosvg", "drawings as PDF and PNG")
        data: bytes = getattr(converter, function)(bytestring=self.to_svg(**words).encode(), **options)
        return data


@uncollected()
def drawing_of(
    result: Planarization,
    *,
    style: str = "curved",
    pos: Mapping[Any, Position] | None = None,
    keep_pos: bool = False,
    near: Drawing | None = None,
    node_size: str = "fixed",
    labels: Any = True,
    edge_labels: Any = None,
    edge_color: Any = PLAIN,
    edge_width: Any = None,
) -> Drawing:
    """A drawing of a planarization, which is true; the words are those of `draw`.

    ValueError for a style or a `node_size` that is not known, for `pos` or `near` with the style `orthogonal`, which
    has points of its own, for both together, for a `near` that is no drawing or an orthogonal one, and for labels,
    colours and widths of what is no node or no edge; FalseDrawing where the points of `pos` allow no true drawing, or
    with `keep_pos` a PlanarWarning. A PlanarWarning too where `near` has too little in common with this planarization.
    """
    if style not in STYLES:
        raise ValueError(f"the style {style!r} is not known: it is 'straight', 'curved' or 'orthogonal'")
    _judge_near(near, style, pos)
    names, color = names_of(result, labels), plain_color(result, edge_color)
    if style == "orthogonal":
        scene = _orthogonal_scene(result, pos, node_size, names, color)
    else:
        scene = _scene(result, style == "curved", pos, keep_pos, near, names, color)
    return Drawing(result, style, with_edges(result, scene, edge_color, edge_width, edge_labels))


def _orthogonal_scene(
    result: Planarization,
    pos: Mapping[Any, Position] | None,
    node_size: str,
    names: Mapping[Any, str],
    color: str,
) -> Scene:
    """The scene of an orthogonal drawing."""
    if pos is not None:
        raise ValueError("an orthogonal drawing has points of its own: leave pos out")
    unit, sizes = grid_of(result, names, node_size == "fixed")
    drawing = orthogonal_drawing(result, sizes, node_size=node_size)
    scene = orthogonal_scene(result, drawing, unit, names, color)
    false = defects(result, Page(scene))
    if false:
        raise AssertionError(f"an orthogonal drawing is false: {false[0]}")
    return scene


def _judge_near(near: Any, style: str, pos: Mapping[Any, Position] | None) -> None:
    """ValueError where a drawing cannot be near this one."""
    if near is None:
        return
    if not isinstance(near, Drawing):
        raise ValueError(f"near is {near!r:.80}: it must be a Drawing, as drawing_of gives it")
    if "orthogonal" in (style, near.style):
        raise ValueError("an orthogonal drawing has points of its own: leave near out")
    if pos is not None:
        raise ValueError("pos and near both say where the points are: leave one of them out")


def _scene_near(
    result: Planarization, is_curved: bool, near: Drawing, names: Mapping[Any, str], color: str
) -> Scene | None:
    """The scene in which all that a drawing has too lies as there; None where that is not true."""
    chains = near_chains(result, near.result, near.scene)
    if chains is None:
        return None
    scene, false = true_scene(chains, is_curved, names, color)
    return None if false else scene


def _scene(
    result: Planarization,
    is_curved: bool,
    pos: Mapping[Any, Position] | None,
    keep_pos: bool,
    near: Drawing | None,
    names: Mapping[Any, str],
    color: str,
) -> Scene:
    """The scene of a straight or a curved drawing; without `pos`, the points lie on a grid where there is no other
    way."""
    if near is not None:
        same = _scene_near(result, is_curved, near, names, color)
        if same is not None:
            return same
        warnings.warn("too much is otherwise than in the drawing before: this one begins anew", PlanarWarning)
    places = positions(result) if pos is None else places_between(to_networkx_embedding(result), pos)
    chains = Chains(result, chains_of(result), places)
    scene, false = true_scene(chains, is_curved, names, color)
    if false and pos is None:
        warnings.warn("the points of the drawing lie too near to each other: it is drawn on a grid", PlanarWarning)
        scene, false = true_scene(replace(chains, places=grid_positions(result)), is_curved, names, color)
    if false and not keep_pos:
        raise FalseDrawing(false)
    if false:
        warnings.warn(str(FalseDrawing(false)), PlanarWarning)
    return scene


def judged(drawing: Drawing) -> tuple[Drawing, Judge] | None:
    """A drawing, with more decimals where it is true with them, and its judge; None where it is not true."""
    for decimals in (FINE_DECIMALS, drawing.scene.decimals):
        scene = replace(drawing.scene, decimals=decimals)
        judge = Judge(drawing.result, Page(scene))
        if not judge.defects():
            return replace(drawing, scene=scene), judge
    return None


def drawing_beside(result: Planarization, before: Drawing, judge: Judge) -> tuple[Drawing, Judge] | None:
    """A drawing that goes on from a true one with straight lines, soon, and its judge, which goes on from that one's:
    what both have lies as there, and the new edges lead through the faces between, where they are moved a little. None
    where that is not true."""
    chains = near_chains(result, before.result, before.scene)
    if chains is None:
        return None
    new = [edge_id for edge_id, name in result.edge_of.items() if name not in before.result.id_of]
    inner = [node for edge_id in new for node in chains.nodes[edge_id][1:-1]]
    names = names_of(result, True)
    for its in (settled(chains, QUICK._replace(nodes=inner)), chains) if inner else (chains,):
        scene = scene_beside(its, names, before.scene)
        now, false = judge.beside(result, Page(scene, judge.page))
        if not false:
            return Drawing(result, before.style, scene), now
    return None


def drawing_settled(before: Drawing) -> tuple[Drawing, Judge] | None:
    """A drawing with straight lines whose points are moved a little so that fewer angles are small, and whose nodes are
    as large as there is room, and its judge. None where that is not true. It gives way (see `giving_way`)."""
    result = before.result
    chains = near_chains(result, result, before.scene)
    if chains is None:
        return None
    chains = settled(chains, SLOW)
    return judged(Drawing(result, before.style, with_arrows(result, straight_scene(chains, names_of(result, True)))))


def scene_of(result: Planarization, style: str = "curved", **words: Any) -> Scene:
    """What a drawing of a planarization shows; the words are those of `drawing_of`."""
    return drawing_of(result, style=style, **words).scene


def to_svg(
    result: Planarization,
    *,
    node_color: Any = NODE_COLOR,
    node_width: Any = None,
    crossing_color: str | None = None,
    background: str | None = "#fff",
    prefix: str | None = None,
    **words: Any,
) -> str:
    """A planarization drawn as an SVG document, without matplotlib. The named words are those of `Drawing.to_svg`, and
    the others those of `draw`: `style`, `pos`, `keep_pos`, `near`, `node_size`, `labels`, `edge_labels`, `edge_color`
    and `edge_width`."""
    return drawing_of(result, **words).to_svg(
        node_color=node_color,
        node_width=node_width,
        crossing_color=crossing_color,
        background=background,
        prefix=prefix,
    )


# ---- matplotlib


def draw(
    result: Planarization,
    ax: "Axes | None" = None,
    *,
    style: str = "curved",
    pos: Mapping[Any, Position] | None = None,
    keep_pos: bool = False,
    near: Drawing | None = None,
    node_size: str = "fixed",
    labels: Any = True,
    edge_labels: Any = None,
    node_color: Any = NODE_COLOR,
    node_width: Any = None,
    edge_color: Any = PLAIN,
    edge_width: Any = None,
    crossing_color: Any = "#777777",
) -> "Axes":
    """Draw a planarization by matplotlib and give the axes.

    `style` is `straight`, `curved` or `orthogonal`. In the last one nodes are as large as their labels and edges want,
    and with `node_size="grow"` those of more than four edges so large that edges hardly bend. Nodes have their names if
    `labels`, in several lines where they are long, and are as large as these. Edges of different prices have colours of
    their own, those that must not be crossed are dark and broad, and a legend says so; where all cost the same they
    have `edge_color`. Directed edges have arrows. Each of `labels`, `edge_labels`, `node_color`, `node_width` (of
    rims), `edge_color` and `edge_width` may be a mapping from nodes or edges, or the name of an attribute that these
    have in the graph; the values of an attribute that are no colours, as `#1b6ca8`, have one each. `pos` gives points
    for the nodes of the graph, and if you like for those of `to_networkx_embedding(result)`; crossings without a point
    are put between their neighbours. Where these points show what is not in the picture, that is FalseDrawing, and with
    `keep_pos` a PlanarWarning. Without `pos` the points are those of `positions`, and the drawing is true. With `near`,
    a drawing of a planarization that has most edges in common with this one, what both have lies as it lies there, and
    new edges lead through the faces between; where too much is otherwise, a PlanarWarning says so. ModuleMissing where
    matplotlib is not there.
    """
    patches = wanted("matplotlib.patches", "drawings by draw")
    places = {"pos": pos, "keep_pos": keep_pos, "near": near, "node_size": node_size}
    looks = {"labels": labels, "edge_labels": edge_labels, "edge_color": edge_color, "edge_width": edge_width}
    scene = with_nodes(result, scene_of(result, style, **places, **looks), node_color, node_width)
    every = node_color if is_for_all(node_values(result, node_color, "node_color"), node_color) else NODE_COLOR
    ax = _fresh_axes(scene) if ax is None else ax
    for stroke in scene.strokes:
        xs, ys = zip(*flat(stroke))
        ax.plot(
            xs, ys, "-", color=stroke.look.color, linewidth=stroke.look.width, zorder=1, gid=f"edge {stroke.edge_id}"
        )
        if stroke.label:
            size = 0.9 * (LETTER_HEIGHT - 1)
            ax.annotate(stroke.label, middle_of(stroke), ha="center", va="center", fontsize=size, zorder=2)
        if stroke.head:
            ax.add_patch(patches.Polygon(stroke.head, closed=True, color=stroke.look.color, linewidth=0, zorder=2))
    if scene.dots:
        ax.scatter(*zip(*scene.dots), s=6.0, color=crossing_color, edgecolors="none", zorder=2)
    for node in scene.nodes:
        (x, y), rounding = node.middle, 0.0 if node.box else 0.499 * node.height
        style_of = f"round,pad=0,rounding_size={rounding}" if rounding else "square,pad=0"
        corner = (x - node.width / 2, y - node.height / 2)
        fill, rim = every if node.color is None else node.color, RIM_WIDTH if node.rim is None else node.rim
        inks = {"facecolor": fill, "edgecolor": "#333333", "linewidth": rim, "zorder": 3}
        ax.add_patch(patches.FancyBboxPatch(corner, node.width, node.height, boxstyle=style_of, **inks))
        if node.label:
            size = 0.9 * LETTER_HEIGHT * node.scale
            ax.annotate(node.label, node.middle, ha="center", va="center", fontsize=size, zorder=4)
    _finish(ax, scene)
    return ax


def _finish(ax: "Axes", scene: Scene) -> None:
    """The legend, and axes of one scale that are not shown."""
    lines = wanted("matplotlib.lines", "drawings by draw")
    if scene.legend:
        handles = [
            lines.Line2D([], [], color=look.color, linewidth=look.width, label=words) for words, look in scene.legend
        ]
        ax.legend(handles=handles, fontsize=8, frameon=False, loc="upper left", bbox_to_anchor=(1.0, 1.0))
    ax.set_axis_off()
    ax.set_aspect("equal")
    ax.margins(0.05)


def _fresh_axes(scene: Scene) -> "Axes":
    """Axes of a new figure, in which a pixel of the scene is a point of print."""
    left, bottom, right, top = scene.bounds
    width, height = (max(3.0, 1.15 * extent * scene.unit / 72) for extent in (right - left, top - bottom))
    axes: "Axes" = wanted("matplotlib.pyplot", "drawings by draw").subplots(figsize=(width, height))[1]
    return axes
