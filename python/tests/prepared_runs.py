"""`python3 -m tests.prepared_runs FOLDER`: prints what one process makes of some graphs whose nodes are words.

For each it prints the text, and what the answer in the folder means for the graph. An answer that is not there is
made first, so that a second process reads those of the first.
"""

from __future__ import annotations

import subprocess
import sys
from collections.abc import Iterator
from pathlib import Path
from typing import Any

import networkx as nx

from fezdrok import find_program, prepare


def worded(graph: Any) -> Any:
    """The graph with words for nodes."""
    return nx.relabel_nodes(graph, {node: f"node {node}" for node in graph})


def cases() -> Iterator[tuple[str, Any, dict[str, Any]]]:
    """Graphs and options, with a name for each."""
    parallel = nx.MultiGraph(list(nx.complete_graph(6).edges) * 2)
    graphs = {
        "K7": nx.complete_graph(7),
        "Petersen": nx.petersen_graph(),
        "torus": nx.grid_2d_graph(3, 4, periodic=True),
        "parallel": parallel,
    }
    for name, graph in graphs.items():
        graph = worded(graph)
        edges = list(graph.edges)
        forbidden = {edges[0], edges[3], edges[-1]}
        ways = {
            "plain": {},
            "seed": {"seed": 3},
            "quick": {"effort": "quick"},
            "forbidden": {"forbidden": forbidden},
            "priced": {"price": {edges[1]: 5, edges[2]: None, edges[4]: 7}},
            "few": {"price": {edges[1]: 5}, "objective": "crossings"},
            "start": {"start": prepare(graph, seed=2, effort="quick").run()},
        }
        for way, options in ways.items():
            yield f"{name}-{way}", graph, options


def main(folder: Path) -> None:
    """Print two lines for each case."""
    for name, graph, options in cases():
        prepared = prepare(graph, **options)
        file = folder / f"{name}.json"
        if not file.exists():
            command, text = [find_program(), "planarize"], prepared.graph_text().encode()
            file.write_bytes(subprocess.run(command, input=text, stdout=subprocess.PIPE, check=True).stdout)
        result = prepared.result(file.read_bytes())
        rows = [(result.node_of[row.a], result.node_of[row.b], result.edge_of[row.id]) for row in result.picture.edges]
        is_right = all({a, b} == set(edge[:2]) for a, b, edge in rows)
        print(name, prepared.graph_text())
        print(name, "every edge has its ends:", is_right, rows, result.crossing_pairs)


if __name__ == "__main__":
    main(Path(sys.argv[1]))
