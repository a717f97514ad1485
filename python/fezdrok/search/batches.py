"""Many graphs at once: a pool of processes, each of which planarizes one graph after another."""

from __future__ import annotations

import multiprocessing
import os
import signal
import sys
import time
import warnings
from collections.abc import Callable, Generator, Iterable, Sized
from concurrent.futures import FIRST_COMPLETED, Future, ProcessPoolExecutor, wait
from concurrent.futures.process import BrokenProcessPool
from contextlib import closing
from queue import SimpleQueue
from typing import Any, TextIO

from ..engine.faults import PlanarWarning, Unfinished
from ..engine.pictures import Picture
from ..engine.planarizer import Planarizer
from ..engine.processes import kill_when_closed
from ..engine.results import Planarization
from .options import taken, whole
from .planarization import planarize
from .progress import StatusLine, line_ended

#: A planarization, or the exception that came in its place.
Outcome = Planarization | Exception
#: A graph with its place in the list.
Job = tuple[int, Any]
#: How many graphs wait at most in an executor that is given.
AT_ONCE = 256
#: True for a bar, False for none, None for a bar on a terminal, or a function of the graphs done and their number.
BatchProgress = None | bool | Callable[[int, int | None], None]


def planarize_many(
    graphs: Iterable[Any],
    *,
    processes: int | None = None,
    executor: Any = None,
    progress: BatchProgress = None,
    **options: Any,
) -> list[Outcome]:
    """Planarize many graphs; the outcomes stand in the order of the graphs.

    Ctrl-C (KeyboardInterrupt) ends all work at once. Where some graphs are done, their outcomes are given, with
    Unfinished in the places of the others; of an iterable without a length, the graphs behind the last one that is done
    have no place. Where none is done, the interrupt goes on.

    Parameters
    ----------
    graphs : iterable of networkx.Graph
        They are taken from the iterable as they are needed.
    processes : int, optional
        How many work at once, at least 1; without it one a processor.
    executor : object with the method submit, optional
        What has the work done in the place of processes of its own, as those of concurrent.futures, mpi4py.futures and
        a client of dask.distributed. Each worker looks for its own program, unless one is named.
    progress : bool or callable, optional
        True for a bar, False for none, None for a bar on a terminal, or a function of the graphs done and their number.
    options
        Those of `planarize`, which count for every graph; functions among them must be such that pickle can name.

    Returns
    -------
    list of Planarization or Exception
        A graph that fails has its exception in its place, and the others go on. Graphs whose worker was killed are
        tried once more, one by one; the exception BrokenProcessPool stands for one that kills its worker again.

    Raises
    ------
    ValueError
        Where an option of these cannot be used.
    ProgramNotFound
        Where there is no program: without an executor it is called once before the work begins, and every failure of
        that call is raised.

    Warns
    -----
    PlanarWarning
        Where Ctrl-C came.

    Examples
    --------
    >>> import networkx as nx
    >>> from fezdrok import planarize_many
    >>> planarize_many([nx.complete_graph(5), nx.Graph()], processes=2, progress=False)
    [<Planarization: 5 nodes, 10 edges, 1 crossings>, ValueError('the graph has no edge and no node: the smallest \
picture is one node')]
    """
    tell = _progress_function(progress)
    total = len(graphs) if isinstance(graphs, Sized) else None
    outcomes: dict[int, Outcome] = {}
    each = _outcomes(graphs, processes, executor, options)
    try:
        with line_ended(tell), closing(each):
            tell(0, total)
            for place, outcome in each:
                outcomes[place] = outcome
                tell(len(outcomes), total)
    except KeyboardInterrupt:
        if not outcomes:
            raise
        warnings.warn(
            f"interrupted when {len(outcomes)} graphs were done: Unfinished stands for the others",
            PlanarWarning,
            stacklevel=2,
        )
        for place in range(max(outcomes) + 1 if total is None else total):
            outcomes.setdefault(place, Unfinished("interrupted before it was done"))
    return [outcomes[place] for place in sorted(outcomes)]


def iter_planarize(
    graphs: Iterable[Any], *, processes: int | None = None, executor: Any = None, **options: Any
) -> Generator[tuple[int, Outcome], None, None]:
    """Planarize many graphs, and give each outcome as soon as it is there.

    What is left over, as where the loop is left, ends at once.

    Parameters
    ----------
    graphs, processes, executor, options
        As for `planarize_many`.

    Returns
    -------
    generator of (int, Planarization or Exception)
        The place of a graph among those that are given, and its outcome.

    Raises
    ------
    ValueError, ProgramNotFound
        As `planarize_many`.

    Examples
    --------
    >>> import networkx as nx
    >>> from fezdrok import iter_planarize
    >>> graphs = (nx.complete_graph(size) for size in (5, 6, 7))
    >>> sorted((place, outcome.crossings) for place, outcome in iter_planarize(graphs, processes=2))
    [(0, 1), (1, 3), (2, 9)]
    """
    return _outcomes(graphs, processes, executor, options)


def _outcomes(
    graphs: Iterable[Any], processes: int | None, executor: Any, options: dict[str, Any]
) -> Generator[tuple[int, Outcome], None, None]:
    """The places of the graphs with their outcomes, as they are done. What cannot be used is refused at once."""
    options = taken(options, 3)
    if executor is not None:
        if processes is not None:
            raise ValueError(f"processes is {processes!r}: it counts for nothing beside an executor")
        if not callable(getattr(executor, "submit", None)):
            raise ValueError(f"executor is {executor!r:.80}: it must have a method submit")
        return _submitted(executor, enumerate(graphs), options)
    workers = whole("processes", (os.cpu_count() or 1) if processes is None else processes, 1)
    Planarizer(program=options.get("program")).check(Picture.seed())
    return _each(graphs, workers, options)


def _submitted(
    executor: Any, jobs: Iterable[Job], options: dict[str, Any]
) -> Generator[tuple[int, Outcome], None, None]:
    """The places of the jobs with their outcomes, as an executor does them. A few of them wait at any time."""
    source = iter(jobs)
    finished: SimpleQueue[int] = SimpleQueue()
    waiting: dict[int, Any] = {}
    try:
        while True:
            while len(waiting) < AT_ONCE and (job := next(source, None)) is not None:
                place, graph = job
                try:
                    waiting[place] = executor.submit(_one, graph, options)
                    waiting[place].add_done_callback(lambda _, place=place: finished.put(place))
                except Exception as fault:  # as where the executor is broken
                    waiting.pop(place, None)
                    yield place, fault
            if not waiting:
                return
            place = finished.get()
            yield place, _outcome(waiting.pop(place))
    finally:
        for future in waiting.values():
            future.cancel()


def _each(
    graphs: Iterable[Any], workers: int, options: dict[str, Any]
) -> Generator[tuple[int, Outcome], None, None]:
    """The places of the graphs with their outcomes, as they are done; last those whose worker was killed, each tried
    once more."""
    lost: list[Job] = []
    with closing(_pooled(enumerate(graphs), workers, options)) as pooled:
        for job, outcome in pooled:
            if isinstance(outcome, BrokenProcessPool):
                lost.append(job)
            else:
                yield job[0], outcome
    for job in lost:
        with closing(_pooled([job], 1, options)) as pooled:
            for _, outcome in pooled:
                yield job[0], outcome


def _begin_worker() -> None:
    """Begins a worker: it ends with the process that it works for, and leaves Ctrl-C to that one."""
    signal.signal(signal.SIGINT, signal.SIG_IGN)
    parent = multiprocessing.parent_process()
    assert parent is not None
    kill_when_closed(parent.sentinel, os.getpid())
    if not parent.is_alive():
        os._exit(1)


def _one(graph: Any, options: dict[str, Any]) -> Outcome:
    """One graph, in a worker: its planarization, or its exception."""
    try:
        return planarize(graph, **options)
    except Exception as fault:  # any failure of one graph is its outcome
        return fault


def _pooled(jobs: Iterable[Job], workers: int, options: dict[str, Any]) -> Generator[tuple[Job, Outcome], None, None]:
    """The jobs as they are done, each with its outcome. At most a few jobs a worker wait at any time.

    Where a worker is killed its whole pool is lost: the jobs that waited in it have BrokenProcessPool as their
    outcome, and those that come after them go to a new pool.
    """
    source = iter(jobs)
    job = next(source, None)
    while job is not None:
        pool = ProcessPoolExecutor(workers, initializer=_begin_worker)
        waiting: dict["Future[Outcome]", Job] = {}
        is_whole = True
        try:
            while waiting or (is_whole and job is not None):
                while is_whole and job is not None and len(waiting) < 4 * workers:
                    waiting[_submit(pool, job, options)] = job
                    job = next(source, None)
                for done in wait(waiting, return_when=FIRST_COMPLETED).done:
                    outcome = _outcome(done)
                    is_whole = is_whole and not isinstance(outcome, BrokenProcessPool)
                    yield waiting.pop(done), outcome
        except BaseException:
            _kill(pool)
            raise
        pool.shutdown()


def _kill(pool: ProcessPoolExecutor) -> None:
    """Ends the workers of a pool in the middle of their work; the programs that they called end with them."""
    for process in list((pool._processes or {}).values()):
        process.kill()
    pool.shutdown(wait=False, cancel_futures=True)


def _submit(pool: ProcessPoolExecutor, job: Job, options: dict[str, Any]) -> "Future[Outcome]":
    """The job given to the pool; where the pool is lost already, a future with that outcome."""
    try:
        return pool.submit(_one, job[1], options)
    except BrokenProcessPool as broken:
        done: "Future[Outcome]" = Future()
        done.set_result(broken)
        return done


def _outcome(done: Any) -> Outcome:
    """What a future came to: a graph or an answer that cannot be pickled has that exception as its outcome."""
    try:
        outcome: Outcome = done.result()
        return outcome
    except Exception as fault:
        return fault


# ---- Progress


def _progress_function(progress: BatchProgress) -> Callable[[int, int | None], None]:
    """What is told after each graph; ValueError if it is neither a function nor True, False or None."""
    if callable(progress):
        return progress
    if progress is not None and not isinstance(progress, bool):
        raise ValueError(
            f"progress is {progress!r}: it must be True, False, None, or a function of the graphs done and their number"
        )
    if progress or (progress is None and sys.stderr.isatty()):
        return Bar(sys.stderr)
    return lambda done, total: None


class Bar(StatusLine):
    """A line that says how many graphs are done, how fast, and how long it will take.

    It ends with a line feed when all are done. `close` ends it sooner, as where the work was interrupted or their
    number is not known; `planarize_many` calls it in any case.
    """

    def __init__(self, stream: TextIO, width: int = 30, clock: Callable[[], float] = time.monotonic):
        super().__init__(stream)
        self.width = width
        self.clock = clock
        self.begun = clock()

    def __call__(self, done: int, total: int | None) -> None:
        """Writes the line anew for so many graphs that are done of so many, or of a number that is not known (None)."""
        self.write(self.line(done, total), done == total)

    def line(self, done: int, total: int | None) -> str:
        """The line as it stands now."""
        spent = self.clock() - self.begun
        pace = done / spent if spent > 0 else 0.0
        if not total:
            return f"{done} graphs, {pace:.1f} a second "
        full = self.width * done // total
        left = f"{(total - done) / pace:.0f} s left" if pace > 0 else "-"
        return f"[{'#' * full}{'.' * (self.width - full)}] {done}/{total}, {pace:.1f} a second, {left}   "
