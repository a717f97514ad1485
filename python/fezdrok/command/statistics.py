"""`fezdrok stats`: how large each graph is, how many crossings were found, and how many there are at least."""

from __future__ import annotations

import argparse
import csv
import io
import json
import multiprocessing
import os
import signal
import time
import warnings
from collections.abc import Generator
from concurrent.futures import Future, ProcessPoolExecutor
from typing import Any

from ..engine.faults import PlanarWarning
from ..engine.processes import kill_when_closed
from ..search.planarization import planarize
from .graph_inputs import inputs_of, name_of, read_graph, without_loops
from .graph_work import Run, search_options
from .lower_bounds import crossings_at_least
from .streams import complain, say

COLUMNS = ("file", "nodes", "edges", "planar", "crossings", "lower_bound", "seconds")
#: The columns of the table; the file comes last, since its name may be long.
_TABLE = "{nodes:>7} {edges:>7} {planar:>7} {crossings:>10} {lower_bound:>12} {seconds:>8}  {file}\n"

Row = dict[str, Any]


def row_of(path: str, words: argparse.Namespace) -> tuple[Row, list[str]]:
    """The row of a file, and its warnings; exceptions where it fails."""
    begun = time.monotonic()
    with warnings.catch_warnings(record=True) as caught:
        warnings.simplefilter("ignore")
        warnings.simplefilter("always", PlanarWarning)
        graph = without_loops(read_graph(path, words.format))
        result = planarize(graph, **search_options(words, graph))
    bound = crossings_at_least(graph.edges()) if result.crossings else 0
    row = {
        "file": name_of(path),
        "nodes": len(graph),
        "edges": graph.number_of_edges(),
        "planar": bound == 0,
        "crossings": result.crossings,
        "lower_bound": bound,
        "seconds": round(time.monotonic() - begun, 3),
    }
    return row, [str(it.message) for it in caught]


def show_statistics(words: argparse.Namespace) -> int:
    """`fezdrok stats`."""
    inputs = inputs_of(words.files)
    run, rows = Run(), _rows(inputs, words)
    if words.csv:
        say(",".join(COLUMNS) + "\n")
    elif not words.json:
        say(_TABLE.format(**{name: name for name in COLUMNS}))

    def work(path: str) -> None:
        row, told = next(rows)()
        for text in told:
            complain(f"{name_of(path)}: warning: {text}")
        say(_text_of(row, words))

    try:
        return run.each(inputs, work)
    finally:
        rows.close()


def _text_of(row: Row, words: argparse.Namespace) -> str:
    """The line of a row: a JSON object, a row of CSV or one of the table."""
    if words.json:
        return json.dumps(row, ensure_ascii=False) + "\n"
    shown = {**row, "planar": "yes" if row["planar"] else "no"}
    if not words.csv:
        return _TABLE.format(**shown)
    line = io.StringIO()
    csv.DictWriter(line, COLUMNS, lineterminator="\n").writerow(shown)
    return line.getvalue()


def _rows(inputs: list[str], words: argparse.Namespace) -> Generator[Any, None, None]:
    """For each input a function that gives its row, or raises what came in its place."""
    if words.jobs == 1 or len(inputs) < 2:
        for path in inputs:
            yield lambda path=path: row_of(path, words)
        return
    pool = ProcessPoolExecutor(min(words.jobs, len(inputs)), initializer=_begin_worker)
    try:
        waiting: list[Future[tuple[Row, list[str]]]] = [pool.submit(row_of, path, words) for path in inputs]
        for future in waiting:
            yield future.result
    finally:
        for process in list((pool._processes or {}).values()):
            process.kill()
        pool.shutdown(wait=False, cancel_futures=True)


def _begin_worker() -> None:
    """Begins a worker: it ends with the process that it works for, and leaves Ctrl-C to that one."""
    signal.signal(signal.SIGINT, signal.SIG_IGN)
    parent = multiprocessing.parent_process()
    assert parent is not None
    kill_when_closed(parent.sentinel, os.getpid())
