"""Planarization of networkx graphs: a graph goes in, a picture with few crossings comes out."""

from __future__ import annotations

import json
import logging
import math
import warnings
from collections.abc import Callable, Iterable
from contextlib import suppress
from dataclasses import dataclass, replace
from typing import Any

from ..engine.faults import Fault, NotPlanarized, OtherReport, PlanarError, PlanarWarning, VerificationError, read_as
from ..engine.graph_copies import GraphCopy, GraphPart
from ..engine.graph_edges import GraphEdge, Node
from ..engine.pictures import Picture, json_text
from ..engine.program import PathLike, Program
from ..engine.reports import Refused, version_of
from ..engine.results import LONELY, Planarization, joined_parts
from ..engine.searches import LibrarySearch, ProcessSearch, Way, begin_search
from ..files.graphs import Objective, PricedGraph, Pricing, objective_for, read_graph
from .options import SEEDS, EffortName, judge_old, judge_program, judged_seconds, one_of, whole
from .progress import Clock, Progress, ProgressOption, line_ended, progress_function
from .starts import start_parts

logger = logging.getLogger("fezdrok")

#: What ends all searches, while what was found so far is given.
_ENDS = (KeyboardInterrupt, PlanarError, OSError, MemoryError)
#: The number of the fault that an edge could not be drawn as it has to be.
_NOT_PLANARIZED = 83


@dataclass(frozen=True, eq=False)
class Prepared:
    """A graph made ready for one search: the text that `planar planarize` reads, and what its answer will mean.

    `starts` are the planarizations of the graph's connected parts to go on from; without them the search begins anew.
    """

    source: PricedGraph
    effort: EffortName = "default"
    seed: int = 1
    seconds: float | None = None
    starts: tuple[Planarization, ...] = ()
    program: PathLike | None = None

    def __repr__(self) -> str:
        return f"<Prepared: {len(self.source.nodes)} nodes, {len(self.source.edges)} edges>"

    def graph_text(self) -> str:
        """The text, to be given to `planar planarize` elsewhere."""
        source, number = self.source, {node: place for place, node in enumerate(self.source.nodes)}
        prices = source.prices
        if source.objective == "crossings":
            prices = tuple(None if price is None else 1 for price in prices)
        text: dict[str, Any] = {
            "effort": self.effort,
            "prices": prices,
            "seed": self.seed % SEEDS,
            "version": version_of(prices),
            "vertices": len(number),
        }
        if self.seconds is not None:
            text["seconds"] = min(math.ceil(self.seconds), SEEDS - 1)
        ends = [(number[edge[0]], number[edge[1]]) for edge in source.edges]
        if self.starts:
            text["start"] = self._start_json(number, ends)
        rows = ",".join([f"[{a},{b},{kind}]" for (a, b), kind in zip(ends, source.kinds)])
        return f'{{"edges":[{rows}],{json_text(text)[1:]}'

    def _start_json(self, number: dict[Any, int], ends: list[tuple[int, int]]) -> dict[str, Any]:
        """The pictures to go on from. The edges of the graph lead as in these."""
        place_of = {edge: place for place, edge in enumerate(self.source.edges)}
        lonely, parts = [], []
        for part in self.starts:
            vertices = [number[node] for node in part.node_of]
            if not part.edge_of:
                lonely += vertices
                continue
            edges = [place_of[edge] for edge in part.edge_of.values()]
            for place, row in zip(edges, part.picture.edges):
                ends[place] = vertices[row.a], vertices[row.b]
            parts.append({"edges": edges, "picture": part.picture.to_json(), "vertices": vertices})
        return {"lonely": lonely, "parts": parts}

    def result(self, answer: str | bytes) -> Planarization:
        """What the answer of `planar planarize` to this text means for the graph.

        NoReport where it is no such answer, OtherReport where it is that of another graph.
        """
        text = answer if isinstance(answer, str) else answer.decode(errors="replace")
        result = read_as("answer of planar planarize", text, lambda value: self._known(json_text(value)))
        if result is None:
            raise OtherReport("the answer is that of a larger graph")
        try:
            result.verify(program=self.program)
        except VerificationError as fault:
            raise OtherReport(f"the answer is that of another graph: {fault}") from fault
        kind_of = dict(zip(self.source.edges, self.source.kinds))
        for row in result.picture.edges:
            if row.kind != kind_of[result.edge_of[row.id]]:
                raise OtherReport(f"the edge {result.edge_of[row.id]!r} has another price in the answer")
        return result

    def _known(self, answer: str) -> Planarization | None:
        """What an answer means; None where it has more vertices or edges than the graph."""
        try:
            return planarization_of(self.source, answer)
        except IndexError:
            return None

    def run(self) -> Planarization:
        """Search here. Exceptions are those of `planarize`."""
        return _Searches(self, 1, progress_function(None)).result()


def planarization_of(source: PricedGraph, answer: str) -> Planarization:
    """What the answer to a search means for its graph. It is read as the program writes it, without a space and with
    its keys in order; the pictures are read when they are first looked at."""
    nodes, edges = source.nodes, source.edges
    head, *rows = answer.split('{"edges":[')
    found: dict[int, tuple[Picture, tuple[Node, ...], dict[int, GraphEdge]]] = {}
    end = ""
    for row in rows:
        places, row = row.split('],"picture":', 1)
        picture, row = row.split(',"vertices":[', 1)
        vertices, end = row.split("]}", 1)
        numbers = list(map(int, vertices.split(",")))
        edge_of = {edge_id: edges[int(place)] for edge_id, place in enumerate(places.split(","))}
        node_of = tuple([nodes[number] for number in numbers])
        found[min(numbers)] = Picture.of_text(picture), node_of, edge_of
    rest = json.loads(head + end)
    if rest["parts"]:
        raise ValueError("a part is of another form")
    found.update([(number, (LONELY, (nodes[number],), {})) for number in rest["lonely"]])
    tries = tuple(rest["tries"])
    if len(found) == 1:
        ((drawn, node_of, edge_of),) = found.values()
        return Planarization(source.copy, drawn, node_of, edge_of, source.prices, (), tries)
    parts = [
        Planarization(GraphPart(source.copy, node_of), drawn, node_of, edge_of, source.prices, ())
        for drawn, node_of, edge_of in (found[number] for number in sorted(found))
    ]
    return joined_parts(source.copy, source.prices, parts, tries)


class _Searches:
    """Searches from one seed after another, of whose pictures the best counts. `spare` is what is given where they find
    nothing, and `failures` says what was not done."""

    def __init__(self, prepared: Prepared, tries: int, tell: Callable[[Progress], Any]):
        self._prepared = prepared
        self._tries = tries
        self._tell = tell
        self._program = Program(prepared.program)
        self._clock = Clock(prepared.seconds)
        self._failures: list[str] = []
        self._first: BaseException | None = None
        self._is_interrupted = False
        self._best: Planarization | None = None
        self._spare: Planarization | None = None
        if prepared.starts:
            source, starts = prepared.source, prepared.starts
            self._spare = joined_parts(source.copy, source.prices, starts)

    def result(self) -> Planarization:
        """The best planarization. Where not all was done there is a warning, and where there is none the first failure
        is raised."""
        with line_ended(self._tell):
            try:
                self._search()
            except _ENDS as end:
                self._fail(_words_of(end), end)
            result = self._best or self._spare
            if result is None:
                assert self._first is not None
                raise self._first
            self._tell_progress("done", self._tries, result.crossings, result.crossings)
        if self._failures:
            words = f"the best picture so far is given, and not all was tried: {'; '.join(self._failures)}"
            warnings.warn(words, PlanarWarning, stacklevel=3)
        if logger.isEnabledFor(logging.INFO):
            logger.info("%r, cost %d, after %.1f seconds", result, result.cost, self._clock.spent)
        return result

    def _fail(self, words: str, failure: BaseException) -> None:
        self._first = self._first or failure
        self._failures.append(words)

    def _score(self, result: Planarization) -> tuple[int, int]:
        return self._prepared.source.score(result.crossings, result.cost)

    def _search(self) -> None:
        for number in range(self._tries):
            if number and (self._is_interrupted or self._clock.is_over):
                return
            try:
                prepared = replace(self._prepared, seed=self._prepared.seed + number) if number else self._prepared
                found = self._found(number, prepared)
            except (Fault, NotPlanarized) as fault:
                self._fail(f"search {number + 1} of {self._tries}: {_words_of(fault)}", fault)
                continue
            logger.info("search %d of %d: %d crossings", number + 1, self._tries, found.crossings)
            if self._best is None or self._score(found) < self._score(self._best):
                self._best = found

    def _found(self, number: int, prepared: Prepared) -> Planarization:
        """What one search finds. One over a process cannot be ended with what it has found, so a quick one is made
        before it."""
        if prepared.seconds is not None:
            prepared = replace(prepared, seconds=max(0.0, prepared.seconds - self._clock.spent))
        search = begin_search(self._program, prepared.graph_text().encode())
        if not (search.can_end_soon or self._best or self._spare or prepared.effort == "quick"):
            with suppress(Fault, NotPlanarized):
                self._spare = self._found(number, replace(prepared, effort="quick"))
        return self._result_of(number, search)

    def _result_of(self, number: int, search: LibrarySearch | ProcessSearch) -> Planarization:
        """What this search finds."""
        source = self._prepared.source
        try:
            return planarization_of(source, self._searched(number, search).decode())
        except Fault as fault:
            if fault.number != _NOT_PLANARIZED:
                raise
            assert isinstance(fault.value, int)
            reply = None if source.price(fault.value) is None else Refused(9, "NoRoute")
            raise NotPlanarized(source.edges[fault.value], reply) from None
        finally:
            search.end()

    def _searched(self, number: int, search: LibrarySearch | ProcessSearch) -> bytes:
        """What a search has found at its end, at the end of the time, or after Ctrl-C, if that is something."""
        self._tell_way("begins", number, Way(1, 1, None))
        try:
            while not search.has_ended:
                if self._clock.is_over:
                    search.end_soon()
                elif self._clock.is_late:
                    search.hurry()
                way = search.step()
                if not search.has_ended:
                    self._tell_way("searches", number, way)
        except KeyboardInterrupt as interrupt:
            way = search.end_soon()
            is_nothing = way.crossings is None and way.components == 1
            if not search.can_end_soon or is_nothing and not search.has_ended:
                raise
            self._is_interrupted = True
            self._fail(_words_of(interrupt), interrupt)
            while not search.has_ended:
                search.step()
        return search.pictures()

    def _tell_way(self, step: str, number: int, way: Way) -> None:
        """Tells how far a search has come. What others have found counts where the graph is connected."""
        known = [] if way.crossings is None else [way.crossings]
        before = self._best or self._spare
        if before is not None and way.components == 1:
            known.append(before.crossings)
        self._tell_progress(step, number + 1, way.crossings or 0, min(known, default=None))

    def _tell_progress(self, step: str, number: int, crossings: int, best: int | None) -> None:
        self._tell(Progress(step, number, self._tries, crossings, best, self._clock.spent))


def _words_of(end: BaseException) -> str:
    """What ended a search, in words."""
    return f"{type(end).__name__} {end}".strip()


def planarize(
    graph: Any,
    price: Pricing = None,
    forbidden: Iterable[GraphEdge] | None = None,
    *,
    start: Planarization | None = None,
    objective: Objective | None = None,
    effort: EffortName = "default",
    tries: int = 1,
    seed: int = 1,
    seconds: float | None = None,
    progress: ProgressOption = None,
    round_prices: bool = False,
    program: PathLike | None = None,
    **old: Any,
) -> Planarization:
    """Draw a graph in the plane with few crossings.

    The program searches, as `planar planarize`: in this process where its library is there. A graph that is not
    connected is planarized part by part; see `Planarization.parts`. In each part a large planar part is drawn first,
    and every other edge is inserted along a cheapest route. Then each crossed edge is taken out and inserted again, in
    rounds, and some edges that are near each other together.

    The result is the same for the same graph and the same words on every machine, unless time ends the search. The
    graph is copied: what is done to it later does not change the result.

    Parameters
    ----------
    graph : networkx.Graph or list of pairs
        A graph with at least one node, and without loops. It may be directed, which counts for nothing, and may have
        parallel edges. Pairs of nodes are the edges of a graph.
    price : str, mapping or callable, optional
        What crossing an edge costs, a whole number from 1 to 1000: the name of an edge attribute, a mapping from edges,
        or a function of both nodes and the data; without it, and for edges that it does not name, 1. A crossing costs
        the product of the prices of both edges. None is as `forbidden`. At most 64 prices may differ.
    forbidden : list of edges, optional
        Edges that have no crossing.
    start : Planarization, optional
        A planarization of the same graph from which the search goes on, as one that `from_positions` made, in the
        place of beginning anew. The prices are those that are given now.
    objective : {"crossings", "cost"}, optional
        What is to be as small as can be; without it the cost where a price is not 1, and else the number of crossings.
        Of pictures with one cost the search prefers fewer crossings.
    effort : {"quick", "default", "thorough"}
        How much is tried: some pictures with rounds alone, two and so many changes of the better one as its crossings
        suggest, or always many.
    tries : int, optional
        How many searches are made, with the seeds from `seed` on. The best counts, of equal ones the first.
    seed : int
        What the choices of the search begin with, modulo 2**32.
    seconds : float, optional
        When they are over, the best picture so far is the result; the first picture is made in any case.
    progress : bool or callable, optional
        True for a line on the terminal, or a function that is called with a Progress now and then. What it raises ends
        the search and is raised here.
    round_prices : bool
        Where there are more than 64 prices, those that are near each other share one, which then counts as theirs, so
        that the greatest factor by which one is changed is as small as can be.
    program : str or os.PathLike, optional
        The path of `planar`; see `find_program`.
    old
        `begin`, `order`, `rounds`, `shakes` and `limits` count for nothing any more. Each is a DeprecationWarning that
        says what stands in its place.

    Returns
    -------
    Planarization
        The picture with the names of the graph's nodes and edges. It has no reports; `verify` judges it.

    Raises
    ------
    ValueError
        Where the graph has no node or a loop, where the start is of another graph or has a crossing on an edge that
        must not be crossed, and where an option cannot be used; the message names it.
    NotPlanarized
        Where no picture was found in which the edges that must not be crossed have no crossing, and do not part the
        ends of another; it names the edge.
    Fault
        Where a part has more than 65,536 vertices or edges, or would need more than 1,048,576 crossings (82 TooLarge);
        MemoryFault where there is no memory.
    ProgramNotFound
        Where there is no program; see `find_program`. Other failures of it are raised as by Session.

    Warns
    -----
    PlanarWarning
        Where not all was tried. A search that comes to no picture is passed over where another comes to one; any other
        failure of the program and Ctrl-C (KeyboardInterrupt) end the search. The best picture so far is the result;
        where there is none yet, the first failure is raised.

    Examples
    --------
    >>> import networkx as nx
    >>> from fezdrok import planarize
    >>> planarize(nx.complete_graph(6))
    <Planarization: 6 nodes, 15 edges, 3 crossings>
    >>> planarize([("a", "b"), ("b", "c"), ("c", "a")], forbidden=[("a", "b")]).crossings
    0
    """
    judge_old(old)
    tries, tell = whole("tries", tries, 1), progress_function(progress)
    prepared = prepare(
        graph,
        price,
        forbidden,
        start=start,
        objective=objective,
        effort=effort,
        seed=seed,
        seconds=seconds,
        round_prices=round_prices,
        program=program,
    )
    return _Searches(prepared, tries, tell).result()


def prepare(
    graph: Any,
    price: Pricing = None,
    forbidden: Iterable[GraphEdge] | None = None,
    *,
    start: Planarization | None = None,
    objective: Objective | None = None,
    effort: EffortName = "default",
    seed: int = 1,
    seconds: float | None = None,
    round_prices: bool = False,
    program: PathLike | None = None,
    **old: Any,
) -> Prepared:
    """Make the text of the search that `planarize` makes with the same words, to be given to `planar planarize`
    elsewhere.

    Parameters
    ----------
    graph, price, forbidden, start, objective, effort, seed, round_prices, old
        As for `planarize`.
    seconds : float, optional
        As for `planarize`, rounded up to whole ones.
    program : str or os.PathLike, optional
        The path of `planar` that `Prepared.run` calls; here no program is called or looked for.

    Returns
    -------
    Prepared
        The text, and what reads the answer to it.

    Raises
    ------
    ValueError
        As `planarize`.

    Examples
    --------
    >>> import networkx as nx
    >>> from fezdrok import prepare
    >>> prepared = prepare(nx.complete_graph(3))
    >>> prepared.graph_text()
    '{"edges":[[0,1,0],[0,2,0],[1,2,0]],"effort":"default","prices":[1],"seed":1,"version":1,"vertices":3}'
    >>> prepared.run().crossings
    0
    """
    judge_old(old)
    options = _judged(objective, effort, seed, seconds, program)
    source = read_graph(graph, price, forbidden, round_prices, objective)
    return Prepared(source, *options, () if start is None else start_parts(start, source), program)


def _judged(objective: Any, effort: Any, seed: Any, seconds: Any, program: Any) -> tuple[EffortName, int, float | None]:
    """The effort, the seed and the seconds, where these options can be used."""
    judge_program(program)
    if objective is not None:
        one_of("objective", objective, Objective)
    return one_of("effort", effort, EffortName), whole("seed", seed), judged_seconds(seconds)


def reinsert(
    result: Planarization,
    *,
    objective: Objective | None = None,
    effort: EffortName = "quick",
    seed: int = 1,
    seconds: float | None = None,
    progress: ProgressOption = None,
    program: PathLike | None = None,
    **old: Any,
) -> Planarization:
    """Go on from a planarization, with its kinds and prices, to one of the same graph that is as good or better.

    Parameters
    ----------
    result : Planarization
        Where to go on from.
    effort : {"quick", "default", "thorough"}
        How much is tried: rounds alone, in which each crossed edge is taken out and inserted again, until one saves
        nothing, or as for `planarize`.
    objective, seed, seconds, progress, program, old
        As for `planarize`.

    Returns
    -------
    Planarization
        The best that was found; the one that was given, where nothing was.

    Raises
    ------
    ValueError
        Where an option cannot be used; the message names it.

    Warns
    -----
    PlanarWarning
        Where the program fails or is not found, and at Ctrl-C (KeyboardInterrupt): what was found is never lost.

    Examples
    --------
    >>> import networkx as nx
    >>> from fezdrok import from_positions, reinsert
    >>> result = from_positions(nx.complete_graph(8), {node: (node, node * node) for node in range(8)})
    >>> reinsert(result).crossings < result.crossings
    True
    """
    judge_old(old)
    if not isinstance(result, Planarization):
        raise ValueError(f"result is {result!r:.80}: it must be a Planarization")
    tell, options = progress_function(progress), _judged(objective, effort, seed, seconds, program)
    rows = result.picture.edges
    edges, kinds = tuple(result.edge_of[row.id] for row in rows), tuple(row.kind for row in rows)
    wanted = objective or objective_for(result.prices)
    source = PricedGraph(GraphCopy.of_itself(result.graph), result.node_of, edges, kinds, result.prices, wanted)
    found = _Searches(Prepared(source, *options, start_parts(result, source), program), 1, tell).result()
    return min(result, found, key=lambda it: source.score(it.crossings, it.cost))
