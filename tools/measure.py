#!/usr/bin/env python3
"""Measures planarization on graphs of networkx: the crossings found, and the time taken.

Prints a table in Markdown: `tools/measure.py numbers` beside known crossing numbers, from Python, `tools/measure.py
ogdf` beside what OGDF found, by `planar planarize`. Behind the crossings stand the time, and the time of a processor
that Python and the program took, which depends less on other work. All numbers but the times are the same each time.

`tools/measure.py files FOLDER` writes 500 GraphML files of sparse graphs of 10 to 100 nodes, of sizes as those of the
Rome graphs have, and `tools/measure.py sizes FILE` makes a table by size of what `fezdrok stats --csv` said of them.

`tools/measure.py sessions` times calls of a session from C, from Python in process, and from Python over a process.

`tools/measure.py search` prints the crossings that `planar planarize` finds on larger graphs, beside OGDF and a plain
search.
"""

from __future__ import annotations

import argparse
import csv
import json
import random
import resource
import subprocess
import sys
import tempfile
import time
from collections.abc import Callable, Iterable, Iterator
from dataclasses import replace
from pathlib import Path
from typing import Any, NamedTuple

sys.path.insert(0, str(Path(__file__).resolve().parent.parent / "python"))

import networkx as nx  # noqa: E402

from fezdrok import Program, Session, planarize  # noqa: E402
from fezdrok.engine.pictures import json_text  # noqa: E402


class Case(NamedTuple):
    """A graph with its name, and its crossing number where that is known."""

    name: str
    graph: Any
    number: int | None


def complete(n: int) -> int:
    """The crossing number of the complete graph, known for n up to 12."""
    return (n // 2) * ((n - 1) // 2) * ((n - 2) // 2) * ((n - 3) // 2) // 4


def bipartite(m: int, n: int) -> int:
    """The crossing number of the complete bipartite graph, known where m is at most 6."""
    return (m // 2) * ((m - 1) // 2) * (n // 2) * ((n - 1) // 2)


def torus(m: int, n: int) -> int:
    """The crossing number of the product of two cycles, known for 3 <= m <= 7 and m <= n."""
    return (m - 2) * n


def cases() -> Iterator[Case]:
    """The graphs of the table."""
    for n in range(4, 13):
        yield Case(f"K{n}", nx.complete_graph(n), complete(n))
    for m, n in ((3, 3), (3, 6), (4, 4), (4, 7), (5, 5), (5, 8), (6, 6), (6, 8)):
        yield Case(f"K{m},{n}", nx.complete_bipartite_graph(m, n), bipartite(m, n))
    yield Case("Petersen", nx.petersen_graph(), 2)
    yield Case("Heawood", nx.heawood_graph(), 3)
    yield Case("Möbius-Kantor", nx.moebius_kantor_graph(), 4)
    yield Case("Pappus", nx.pappus_graph(), 5)
    yield Case("Desargues", nx.desargues_graph(), 6)
    yield Case("hypercube of 4 dimensions", nx.hypercube_graph(4), 8)
    for m, n in ((3, 5), (4, 4), (5, 6), (7, 7)):
        yield Case(f"torus grid {m} x {n}", nx.grid_2d_graph(n, m, periodic=True), torus(m, n))
    for m, n in ((5, 5), (10, 10), (30, 30)):
        yield Case(f"grid {m} x {n}", nx.grid_2d_graph(m, n), 0)
    for degree, n in ((3, 20), (3, 50), (3, 100), (4, 20), (4, 50), (6, 20)):
        yield Case(f"random {degree}-regular", nx.random_regular_graph(degree, n, seed=1), None)


def chords(size: int, count: int, seed: int) -> Any:
    """A grid of so many rows and columns, and so many random edges more."""
    graph = nx.convert_node_labels_to_integers(nx.grid_2d_graph(size, size))
    chance = random.Random(seed)
    while graph.number_of_edges() < 2 * size * (size - 1) + count:
        graph.add_edge(*chance.sample(range(size * size), 2))
    return graph


class Beside(NamedTuple):
    """A graph, or how one is made from a seed, with the crossings and the seconds that OGDF came to."""

    name: str
    make: Callable[[int], Any]
    is_random: bool
    crossings: int
    seconds: float


#: What OGDF's SubgraphPlanarizer found on a machine of four processors: fast planar subgraph of 16 runs, fixed
#: embedding, all edges taken out and inserted again, 10 permutations. Which random graphs it had is not known.
OGDF = (
    Beside("K12", lambda seed: nx.complete_graph(12), False, 150, 0.09),
    Beside("hypercube of 5 dimensions", lambda seed: nx.hypercube_graph(5), False, 58, 0.05),
    Beside("torus grid 7 x 7", lambda seed: nx.grid_2d_graph(7, 7, periodic=True), False, 35, 0.02),
    Beside("torus grid 20 x 20", lambda seed: nx.grid_2d_graph(20, 20, periodic=True), False, 395, 0.46),
    Beside("random 3-regular of 50 nodes", lambda seed: nx.random_regular_graph(3, 50, seed=seed), True, 13, 0.02),
    Beside("random 3-regular of 100 nodes", lambda seed: nx.random_regular_graph(3, 100, seed=seed), True, 60, 0.07),
    Beside("random 4-regular of 50 nodes", lambda seed: nx.random_regular_graph(4, 50, seed=seed), True, 59, 0.06),
    Beside("random 6-regular of 20 nodes", lambda seed: nx.random_regular_graph(6, 20, seed=seed), True, 43, 0.02),
    Beside("grid 30 x 30", lambda seed: nx.grid_2d_graph(30, 30), False, 0, 0.01),
    Beside("grid 30 x 30 with 50 random chords", lambda seed: chords(30, 50, seed), True, 742, 18.0),
    Beside(
        "Barabasi-Albert of 200 nodes, m = 2", lambda seed: nx.barabasi_albert_graph(200, 2, seed=seed), True, 1043, 6.7
    ),
)


def processor_seconds() -> float:
    """The seconds of a processor that this process and the programs that have ended took so far."""
    return sum(
        spent.ru_utime + spent.ru_stime
        for spent in map(resource.getrusage, (resource.RUSAGE_SELF, resource.RUSAGE_CHILDREN))
    )


def measured(graph: Any, options: dict[str, Any]) -> tuple[int, float, float]:
    """The crossings found with these options, the seconds that it took, and those of a processor."""
    begun, begun_processor = time.perf_counter(), processor_seconds()
    crossings = planarize(graph, **options).crossings
    return crossings, time.perf_counter() - begun, processor_seconds() - begun_processor


def worded(crossings: float, *seconds: float) -> str:
    """A cell of the table."""
    spent = ", ".join(f"{1000 * part:.0f} ms" if part < 1 else f"{part:.1f} s" for part in seconds)
    return f"{crossings:.0f} ({spent})"


def cell(case: Case, options: dict[str, Any]) -> str:
    """What is found with these options; an error where there are fewer crossings than there can be."""
    crossings, *seconds = measured(case.graph, options)
    if case.number is not None and crossings < case.number:
        raise AssertionError(f"{case.name}: {crossings} crossings are fewer than the crossing number {case.number}")
    return worded(crossings, *seconds)


def row(cells: Iterable[Any]) -> str:
    """A line of the table."""
    return "| " + " | ".join(str(each) for each in cells) + " |"


def known_numbers() -> None:
    """Print the table beside known crossing numbers."""
    columns: dict[str, dict[str, Any]] = {
        "quick": {"effort": "quick"},
        "quick, 5 seeds": {"effort": "quick", "tries": 5},
        "default": {},
    }
    headings = ["graph", "nodes", "edges", "crossing number", *columns]
    print(row(headings))
    print(row("---" for _ in headings))
    for case in cases():
        known = "not known" if case.number is None else case.number
        sizes = [case.name, len(case.graph), case.graph.number_of_edges(), known]
        print(row([*sizes, *(cell(case, options) for options in columns.values())]), flush=True)


def asked_of(graph: Any) -> dict[str, Any]:
    """A graph in the form that `planar planarize` reads."""
    plain = nx.convert_node_labels_to_integers(graph)
    return {"edges": [[u, v, 0] for u, v in plain.edges], "version": 1, "vertices": len(plain)}


def searched(asked: dict[str, Any], effort: str) -> tuple[int, float, float]:
    """The crossings that `planar planarize` finds, the seconds that it took, and those of a processor."""
    text = json_text({**asked, "effort": effort})
    begun, begun_processor = time.perf_counter(), processor_seconds()
    ran = subprocess.run([Program().path, "planarize"], input=text, capture_output=True, text=True, check=True)
    spent = time.perf_counter() - begun, processor_seconds() - begun_processor
    return json.loads(ran.stdout)["crossings"], *spent


class Searched(NamedTuple):
    """A graph, with what OGDF found with 1 and with 10 permutations, and a plain search quick and by default, each with
    its seconds of a processor."""

    name: str
    graph: Any
    one: str
    ten: str
    quick: str
    default: str


def kept(name: str) -> dict[str, Any]:
    """A graph that lies in `graphs`."""
    asked: dict[str, Any] = json.loads((Path(__file__).resolve().parent / "graphs" / f"{name}.json").read_text())
    return asked


def searches() -> Iterator[Searched]:
    """The graphs of the table. OGDF is that of Debian's Tulip 5.4, the plain search a prototype in Rust of 950 lines
    without proofs; both on a machine of four processors, in November 2026."""
    torus_7, torus_20 = (asked_of(nx.grid_2d_graph(n, n, periodic=True)) for n in (7, 20))
    cubes = [asked_of(nx.hypercube_graph(n)) for n in (5, 6, 7)]
    bipartite_10 = asked_of(nx.complete_bipartite_graph(10, 10))
    yield Searched("K12", asked_of(nx.complete_graph(12)), "151 (0.01)", "150 (0.07)", "150 (0.001)", "150 (0.02)")
    yield Searched("K20", asked_of(nx.complete_graph(20)), "1625 (0.50)", "1622 (13)", "1624 (0.056)", "1620 (16)")
    yield Searched("K10,10", bipartite_10, "401 (0.08)", "400 (0.57)", "401 (0.004)", "400 (0.11)")
    yield Searched("torus 7 x 7", torus_7, "35 (0.003)", "35 (0.009)", "35 (0.001)", "35 (0.004)")
    yield Searched("torus 20 x 20", torus_20, "395 (0.10)", "395 (0.50)", "360 (0.008)", "360 (0.04)")
    yield Searched("hypercube of 5", cubes[0], "64 (0.01)", "58 (0.04)", "58 (0.001)", "56 (0.006)")
    yield Searched("hypercube of 6", cubes[1], "469 (0.18)", "379 (1.7)", "353 (0.006)", "352 (0.05)")
    yield Searched("hypercube of 7", cubes[2], "2159 (8.1)", "1985 (91)", "1788 (0.07)", "1765 (2.1)")
    for name, *found in (
        ("regular_3_100", "70 (0.02)", "60 (0.14)", "65 (0.001)", "53 (0.01)"),
        ("grid_20_with_30_chords", "499 (0.47)", "414 (10)", "231 (0.006)", "231 (0.02)"),
        ("barabasi_albert_200", "1168 (1.3)", "1119 (21)", "1079 (0.05)", "860 (1.5)"),
        ("netlist_1000", "4892 (175)", "none in 300", "3407 (0.56)", "2823 (34)"),
    ):
        yield Searched(f"`graphs/{name}.json`", kept(name), *found)


def time_searches() -> None:
    """Print the table of `planar planarize` beside OGDF and the plain search, with seconds of a processor."""
    print(row(["graph", "OGDF, 1 permutation", "10", "plain, quick", "default", "`planar planarize`, quick", "default"]))
    print(row("---" for _ in range(7)))
    for name, asked, *found in searches():
        for effort in ("quick", "default"):
            crossings, _, spent = searched(asked, effort)
            found.append(f"{crossings} ({spent:.3f})" if spent < 0.1 else f"{crossings} ({spent:.2g})")
        print(row([name, *found]), flush=True)


def beside_ogdf(seeds: int) -> None:
    """Print the table beside OGDF. Of random graphs the mean over the seeds 1, 2, .. is taken."""
    columns: dict[str, Callable[[Any], tuple[int, float, float]]] = {
        "`planar planarize`, quick": lambda graph: searched(asked_of(graph), "quick"),
        "default": lambda graph: searched(asked_of(graph), "default"),
    }
    headings = ["graph", "OGDF", *columns]
    print(row(headings))
    print(row("---" for _ in headings))
    for case in OGDF:
        graphs = [case.make(seed) for seed in range(1, 1 + (seeds if case.is_random else 1))]
        cells = [worded(case.crossings, case.seconds)]
        for measure in columns.values():
            found = [measure(graph) for graph in graphs]
            cells.append(worded(*(sum(numbers) / len(found) for numbers in zip(*found))))
        print(row([case.name + (f", mean of {seeds}" if case.is_random else ""), *cells]), flush=True)


def write_files(folder: Path, count: int = 500) -> None:
    """Write GraphML files of connected graphs: of n nodes and from 1.1 n to 1.6 n edges, most between nodes that are
    near each other along a walk."""
    folder.mkdir(parents=True, exist_ok=True)
    for number in range(count):
        chance = random.Random(number)
        size = chance.randint(10, 100)
        graph = nx.Graph((node, chance.randrange(max(0, node - 12), node)) for node in range(1, size))
        edges = round(size * chance.uniform(1.1, 1.6))
        while graph.number_of_edges() < edges:
            u, v = chance.randrange(size), chance.randrange(size)
            if u != v and (abs(u - v) < 15 or chance.random() < 0.3):
                graph.add_edge(u, v)
        nx.write_graphml(graph, folder / f"grafo{number:03}.{size}.graphml")


def by_size(file: Path) -> None:
    """Print a table by tens of nodes of the rows that `fezdrok stats --csv` wrote."""
    groups: dict[int, list[dict[str, str]]] = {}
    with open(file, newline="") as lines:
        for each in csv.DictReader(lines):
            groups.setdefault(min(int(each["nodes"]), 99) // 10, []).append(each)
    headings = ["nodes", "graphs", "edges", "planar", "crossings", "lower bound", "seconds"]
    print(row(headings))
    print(row("---" for _ in headings))
    for tens, rows in sorted(groups.items()):
        planar = sum(each["planar"] == "yes" for each in rows)
        means = [
            f"{sum(float(each[name]) for each in rows) / len(rows):.2f}"
            for name in ("edges", "crossings", "lower_bound", "seconds")
        ]
        last = 100 if tens == 9 else 10 * tens + 9
        print(row([f"{10 * tens} to {last}", len(rows), means[0], planar, *means[1:]]))


def least_time(call: Callable[[], Any], count: int) -> float:
    """The microseconds that a call takes, the least of a hundred runs of so many."""
    times = []
    for _ in range(100):
        begun = time.perf_counter()
        for _ in range(count):
            call()
        times.append((time.perf_counter() - begun) / count * 1e6)
    return min(times)


def times_from_c(lines: list[str], count: int) -> list[float]:
    """The microseconds of opening a session by the first line and closing it, of each further line, and of a refused
    insertion and the counts without a text."""
    library = Program().library
    assert library is not None, "there is no library beside the program"
    here = Path(__file__).resolve().parent
    with tempfile.TemporaryDirectory() as folder:
        program = Path(folder) / "sessions"
        source = here / "benchmarks" / "sessions.c"
        subprocess.run(["cc", "-O2", f"-I{here.parent / 'c'}", source, library.path, "-o", program], check=True)
        words = {"input": "".join(f"{line}\n" for line in lines), "env": {"LD_LIBRARY_PATH": folder}}
        (Path(folder) / "libfezdrok.so.0").symlink_to(library.path)
        told = subprocess.run([program, str(count)], stdout=subprocess.PIPE, text=True, check=True, **words)
    return [float(line) for line in told.stdout.split()]


def time_sessions() -> None:
    """Print the table of calls of a session with a picture of 61 edges."""
    with Session() as session:
        for vertex in range(60):
            session.grow(vertex)
        start = session.picture()
    lines = [json_text({"version": 1, "start": start.to_json()}), '["insert",0,0,0]', '"counts"']
    from_c = times_from_c(lines, 1000)
    columns: list[list[float | None]] = [[from_c[0], None, *from_c[1:3]], [None, None, *from_c[3:]]]
    for process in (False, True):
        with Session(start, process=process) as session:
            count = 1 if process else 5
            opening = least_time(lambda: Session(replace(start), process=process).close(), count)
            again = least_time(lambda: Session(start, process=process).close(), count)
            refused = least_time(lambda: session.insert(0, 0), 100)
            columns.append([opening, again, refused, least_time(session.counts, 100)])
    print("| microseconds | from C, as lines | from C, without a text | from Python, in process | from Python, over a process |")
    print("|---|---|---|---|---|")
    names = "open and close 61 edges", "the same picture again", "a refused insertion", "`counts`"
    for name, row in zip(names, zip(*columns)):
        print(f"| {name} | {' | '.join('' if it is None else f'{it:.2f}' if it < 10 else f'{it:,.0f}' for it in row)} |")


def main() -> None:
    """Print the table that is asked for."""
    parser = argparse.ArgumentParser(description=__doc__.splitlines()[0])
    parser.add_argument(
        "table",
        choices=("numbers", "ogdf", "files", "sizes", "sessions", "search"),
        help="beside known crossing numbers, beside OGDF, of files that are written, by sizes of graphs, of sessions, "
        "or of the search on larger graphs",
    )
    parser.add_argument("place", type=Path, nargs="?", default=Path("graphs"), help="the folder, or the file of rows")
    parser.add_argument(
        "--seeds", type=int, default=5, help="how many random graphs of each kind are measured beside OGDF"
    )
    words = parser.parse_args()
    if words.table == "numbers":
        known_numbers()
    elif words.table == "files":
        write_files(words.place)
    elif words.table == "sizes":
        by_size(words.place)
    elif words.table == "sessions":
        time_sessions()
    elif words.table == "search":
        time_searches()
    else:
        beside_ogdf(words.seeds)


if __name__ == "__main__":
    main()
