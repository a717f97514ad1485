"""What the calls of a report did, step by step: which edges and crossings are there when.

The program carries the calls out again, and its pictures and counts are what is told here.
"""

from __future__ import annotations

import json
from collections.abc import Iterator, Sequence
from dataclasses import dataclass
from typing import NamedTuple
from zlib import compress, decompress

from ..engine.pictures import Counts, Crossing, Edge, Picture, json_text
from ..engine.planarizer import Planarizer
from ..engine.program import PathLike
from ..engine.reports import Call, Delete, Deleted, Grown, Insert, Inserted, Report
from ..engine.session import Session

#: How many bytes of lines are handed to a session at once.
TOGETHER = 30_000


class Life(NamedTuple):
    """From which step on something is there, and from which on it is not any more, or None. Step 0 is the start, and
    step i what is there after i calls."""

    born: int
    gone: int | None = None

    def has(self, step: int) -> bool:
        """Whether it is there at a step."""
        return self.born <= step and (self.gone is None or step < self.gone)


@dataclass(frozen=True)
class History:
    """A report with what there is at each step: `counts` as the program counts it, and the lives of vertices, edges and
    crossings. `crossing_of` has the row of each crossing that there ever was."""

    report: Report
    counts: tuple[Counts, ...]
    vertices: tuple[Life, ...]
    edges: dict[int, tuple[Edge, Life]]
    crossings: dict[int, Life]
    crossing_of: dict[int, Crossing]
    before: tuple[tuple[int, bytes], ...]

    def deletions(self) -> Iterator[tuple[int, Picture]]:
        """The edges that were taken out, the last first, each with the picture from which it was."""
        for edge_id, text in reversed(self.before):
            yield edge_id, Picture.from_text(decompress(text).decode())


def history_of(report: Report, program: PathLike | None = None) -> History:
    """The history of a report; Fault where the program finds it not true."""
    Planarizer(program=program).replay(report)
    counts, before = _carried_out(report, program)
    edges = _edges(report)
    crossing_of = {row.id: row for row in (*report.start.crossings, *report.picture.crossings)}
    vertices = [Life(0)] * len(report.start.rotations)
    vertices += [Life(step) for step, reply in enumerate(report.replies, 1) if isinstance(reply, Grown)]
    for _, text in before:
        crossing_of.update((row.id, row) for row in Picture.from_text(decompress(text).decode()).crossings)
    crossings = {}
    for crossing_id, row in crossing_of.items():
        lives = (edges[row.crossed][1], edges[row.newcomer][1])
        ends = [it.gone for it in lives if it.gone is not None]
        crossings[crossing_id] = Life(max(it.born for it in lives), min(ends, default=None))
    return History(report, counts, tuple(vertices), edges, crossings, crossing_of, before)


def _edges(report: Report) -> dict[int, tuple[Edge, Life]]:
    """The rows of all edges that there ever were, without their crossings, and their lives."""
    found = {row.id: (Edge(row.id, row.a, row.b, row.kind), Life(0)) for row in report.start.edges}
    for step, (call, reply) in enumerate(zip((entry.call for entry in report.history), report.replies), 1):
        if isinstance(reply, Grown) and not isinstance(call, Delete):
            found[reply.edge] = Edge(reply.edge, call.u, reply.vertex, call.kind), Life(step)
        elif isinstance(reply, Inserted) and isinstance(call, Insert):
            found[reply.edge] = Edge(reply.edge, call.u, call.v, call.kind), Life(step)
        elif isinstance(reply, Deleted):
            row, life = found[reply.edge]
            found[reply.edge] = row, life._replace(gone=step)
    return found


# ---- The calls carried out again


def _carried_out(
    report: Report, program: PathLike | None
) -> tuple[tuple[Counts, ...], tuple[tuple[int, bytes], ...]]:
    """How large the picture is at each step, and for each edge that is taken out the text of the picture before."""
    before = []
    with Session(report.start, report.limits, report.prices, program) as session:
        counts = [session.counts()]
        for calls in _in_parts([(entry.call, isinstance(entry.reply, Deleted)) for entry in report.history]):
            answers = iter(session.answers([line for call, is_deleted in calls for line in _lines(call, is_deleted)]))
            for call, is_deleted in calls:
                if is_deleted and isinstance(call, Delete):
                    before.append((call.edge, compress(next(answers).encode())))
                next(answers)
                value = json.loads(next(answers))
                counts.append(Counts(*(value[name] for name in Counts._fields)))
    return tuple(counts), tuple(before)


def _lines(call: Call, is_deleted: bool) -> list[str]:
    """What a session is asked for a call."""
    return [*(['"picture"'] if is_deleted else []), json_text(call.to_json()), '"counts"']


def _in_parts(calls: Sequence[tuple[Call, bool]]) -> Iterator[list[tuple[Call, bool]]]:
    """The calls in parts whose lines a session takes at once."""
    part: list[tuple[Call, bool]] = []
    size = 0
    for call in calls:
        more = sum(len(line) + 1 for line in _lines(*call))
        if part and size + more > TOGETHER:
            yield part
            part, size = [], 0
        part.append(call)
        size += more
    if part:
        yield part
