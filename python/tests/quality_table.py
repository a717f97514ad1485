"""`python3 -m tests.quality_table`: how well drawings of ten graphs can be read in each style, as rows of a table."""

from __future__ import annotations

from typing import Any

import networkx as nx

from fezdrok import Quality, drawing_of, planarize, quality
from fezdrok.drawing.drawings import STYLES

from .drawing_support import grid_with_chords

#: The seed of the searches for their pictures.
SEED = 2


def ten_graphs() -> dict[str, Any]:
    """The graphs, by their names."""
    return {
        "Petersen": nx.petersen_graph(),
        "K6": nx.complete_graph(6),
        "K8": nx.complete_graph(8),
        "hypercube of 4 dimensions": nx.hypercube_graph(4),
        "torus grid 5 x 5": nx.grid_2d_graph(5, 5, periodic=True),
        "grid 6 x 6 with chords": grid_with_chords(),
        "tree of 63 nodes": nx.balanced_tree(2, 5),
        "3-regular, 40 nodes": nx.random_regular_graph(3, 40, seed=1),
        "random, 30 nodes, 45 edges": nx.gnm_random_graph(30, 45, seed=1),
        "scale-free, 60 nodes": nx.barabasi_albert_graph(60, 2, seed=1),
    }


def row(name: str, style: str, found: Quality) -> str:
    """A row of the table."""
    angles = ["" if it is None else f"{it:.0f}" for it in (found.node_angle, found.crossing_angle)]
    shares = [f"{100 * it:.1f} %" for it in (found.small_angles, found.turning_edges)]
    turns = [f"{it:.0f}" for it in (found.greatest_turn, found.mean_turn)]
    rest = [str(found.bends), f"{100 * found.node_share:.0f} %", f"{found.length_ratio:.1f}"]
    return f"| {' | '.join([name, style, *angles, shares[0], *turns, shares[1], *rest])} |"


def main() -> None:
    """Print the rows."""
    for name, graph in ten_graphs().items():
        result = planarize(graph, seed=SEED)
        for style in STYLES:
            print(row(name, style, quality(drawing_of(result, style=style))))


if __name__ == "__main__":
    main()
