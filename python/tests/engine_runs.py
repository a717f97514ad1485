"""`mpiexec -n 3 python3 -m mpi4py.futures -m tests.engine_runs COUNT`: prints what some graphs come to by MPI.

The graphs, and what is printed of them, are those of the tests of other engines too.
"""

from __future__ import annotations

import json
import random
import sys
from collections.abc import Iterable
from typing import Any

import networkx as nx

from fezdrok import planarize_many

#: The options of each search.
OPTIONS: dict[str, Any] = {"effort": "quick", "tries": 2}


def sparse_graphs(count: int, nodes: int = 14, edges: int = 24) -> list[nx.Graph]:
    """So many connected graphs, the same each time."""
    graphs = []
    for seed in range(count):
        chance = random.Random(seed)
        graph = nx.Graph((node, chance.randrange(node)) for node in range(1, nodes))
        while graph.number_of_edges() < edges:
            graph.add_edge(*chance.sample(range(nodes), 2))
        graphs.append(graph)
    return graphs


def told(outcomes: Iterable[Any]) -> list[Any]:
    """Each outcome as JSON: its picture, or the exception in words."""
    return [repr(it) if isinstance(it, Exception) else it.picture.to_json() for it in outcomes]


def main(count: int) -> None:
    """Print the outcomes of so many graphs, and by how many workers they were found."""
    from mpi4py import MPI
    from mpi4py.futures import MPIPoolExecutor

    with MPIPoolExecutor() as executor:
        outcomes = planarize_many(sparse_graphs(count), executor=executor, progress=False, **OPTIONS)
    print(json.dumps([MPI.COMM_WORLD.Get_size() - 1, told(outcomes)]))


if __name__ == "__main__":
    main(int(sys.argv[1]))
