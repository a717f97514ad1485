"""Sessions: a picture that is changed by one call after another, in this process or in one of the program."""

from __future__ import annotations

import json
import re
from collections.abc import Callable, Sequence
from operator import index
from threading import Lock
from types import TracebackType
from typing import Any, ClassVar, TypeVar

from .answers import About, EdgeAnswer, Renumbered, Route, Undone, VertexAnswer, face_from_json
from .faults import Fault, MemoryFault, ProgramFailed, SessionClosed, SessionInUse
from .library import IN_USE, LibrarySession
from .line_process import HASTE, LineProcess
from .pictures import Counts, Dart, Picture, json_text
from .planarizer import Planarizer
from .program import PathLike
from .reports import Deleted, Grown, Inserted, Limits, Prices, Refused, Report, reply_from_json
from .typed_calls import COMMANDS, fit

Value = TypeVar("Value")
Own = TypeVar("Own", bound="Session")
#: The answer to an opening that is not at fault.
_COUNTED = re.compile(rb'\{"crossings":\d+,"edges":\d+,"faces":\d+,"segments":\d+,"vertices":\d+\}')
#: What answers the lines of a session.
Answerer = LibrarySession | LineProcess


class Session:
    """A picture that is changed by calls, each of which is answered at once.

    `start` is the picture to begin with (without it two vertices and one edge), `limits` how large it may grow (see
    Limits), `prices` the price of crossing an edge of kind 0, 1, .. (1 to 1000, or None where such edges must not be
    crossed; kinds past the end cost 1), and `program` the path of `planar` (see `find_program`).

    The session is in this process, by the library `libfezdrok.so` that lies beside the program, or that the environment
    variable FEZDROK_LIBRARY names. Where there is none that this system loads, or where `process` is true, it is a
    process of the program, which a crash or a limit of memory ends alone.

    It begins here, and ends with the `with` block or by `close`. A fault of the start, of the limits or of the prices
    is a Fault here, as by `Planarizer.run`.

    `route`, `edge`, `vertex`, `face`, `counts`, `picture` and `report` are questions, which change nothing. `undo`
    takes calls back, `forget` and `renumber` begin the report anew, and `open` and `reopen` put another picture in the
    place of this one. `from_report` begins a session where another one ended.

    `caller` is the number, from 0 to 15, that calls have in the report as their caller; it may be set before each call.

    A call that the program refuses changes nothing, and its reply is a Refused. Numbers that are none of the form's, as
    negative ones, are a Fault (54 BadNumber), which changes nothing either.

    A session is for one thread at a time. A call that comes before another one has ended is SessionInUse, and is not
    carried out. A call of a session that is over is SessionClosed.

    Out of memory is a MemoryFault. In this process the session goes on: the call is not carried out, or it is and its
    answer is lost; `report` says which. A process is over then, and so it is where it ends in another way: the
    exception is that of its status, with what it wrote on standard error, as ProgramFailed for a signal.

    A call that was interrupted, as by Ctrl-C, may have been carried out; `report` says whether it was. The session goes
    on, but where `open`, `reopen` or `renumber` is interrupted. One over a process is over too where the next call is
    interrupted as it waits for the end of that one, and may be over where `answers` to more than 512 bytes is
    interrupted.

    Parameters
    ----------
    start : Picture, optional
    limits : Limits, optional
    prices : sequence of int or None, optional
    program : str or os.PathLike, optional
    process : bool, optional
        Whether the session is a process of its own.

    Examples
    --------
    >>> from fezdrok import Session
    >>> with Session() as session:
    ...     session.grow(1)
    ...     session.insert(0, 2).crossed
    ...     session.counts()
    Grown(vertex=2, edge=1)
    ()
    Counts(vertices=3, crossings=0, edges=3, segments=3, faces=2)
    """

    #: What makes pages of reports: the package sets it.
    pager: ClassVar[Callable[..., str] | None] = None

    def __init__(
        self,
        start: Picture | None = None,
        limits: Limits | None = None,
        prices: Sequence[int | None] | None = None,
        program: PathLike | None = None,
        process: bool = False,
    ):
        given = Planarizer(start, limits, prices, program)
        self._begin(given, given.opening_text(), process)

    @classmethod
    def from_report(cls: type[Own], report: Report, program: PathLike | None = None, process: bool = False) -> Own:
        """A session that goes on from a report, with its limits, prices and calls, as by `reopen`.

        Examples
        --------
        >>> from fezdrok import Session
        >>> with Session() as session:
        ...     reply = session.grow(0)
        ...     report = session.report()
        >>> with Session.from_report(report) as session:
        ...     session.undo()
        Undone(undone=1, vertices=2, next_edge=1, next_crossing=0)
        """
        session = cls.__new__(cls)
        session._begin(_given_by(report, program), _reopening(report), process)
        return session

    def _begin(self, given: Planarizer, first: str, process: bool) -> None:
        """Begins with this line."""
        self._program = given.program
        self._given: Planarizer | None = given
        self.caller = 0
        self._lock = Lock()
        self._answerer: Answerer | None = None
        library = None if process else self._program.library
        answerer: Answerer = LibrarySession(library) if library else LineProcess(self._program.path)
        try:
            answer = answerer.ask(first)
            if not _COUNTED.fullmatch(answer):
                _understood(answerer, answer, _counts)
        except BaseException:
            answerer.end()
            raise
        self._answerer = answerer

    def __repr__(self) -> str:
        if self._answerer is None:
            return "<Session: closed>"
        return f"<Session: process {self.process_id}>" if self.process_id else "<Session: in this process>"

    @property
    def limits(self) -> Limits:
        """How large the picture may grow."""
        return self._opened_with().limits or Limits()

    @property
    def prices(self) -> Prices:
        """The prices of the kinds, as they were given."""
        return self._opened_with().prices or ()

    def _opened_with(self) -> Planarizer:
        """What the picture was opened with, which the report says where it is not known here."""
        if self._given is None:
            self._given = _given_by(self.report())
        return self._given

    @property
    def is_closed(self) -> bool:
        """Whether the session is over."""
        return self._answerer is None

    @property
    def process_id(self) -> int | None:
        """The number of the session's own process, or None where it has none or is over."""
        return None if self._answerer is None else self._answerer.process_id

    # ---- Calls

    def grow(self, u: int, position: int = 0, kind: int = 0) -> Grown | Refused:
        """A new vertex on a new edge, from the corner at this position of `u`."""
        reply: Grown | Refused = self._made("grow", (self.caller, index(u), index(position), index(kind)))
        return reply

    def insert(self, u: int, v: int, kind: int = 0) -> Inserted | Refused:
        """A new edge from `u` to `v` along the first of the cheapest routes."""
        reply: Inserted | Refused = self._made("insert", (self.caller, index(u), index(v), index(kind)))
        return reply

    def delete(self, edge: int) -> Deleted | Refused:
        """An edge taken out."""
        reply: Deleted | Refused = self._made("delete", (self.caller, index(edge)))
        return reply

    def open(
        self,
        start: Picture | None = None,
        limits: Limits | None = None,
        prices: Sequence[int | None] | None = None,
    ) -> Counts:
        """Begins anew with another picture, and gives its counts: many small graphs in one session.

        The words are those of the class. The picture and the report of before are gone. Where the start, the limits or
        the prices are at fault, as by `Planarizer.run`, that is a Fault, and all is as it was.
        """
        given = Planarizer(start, limits, prices)
        counts = self._ask_once(f'{{"open":{given.opening_text()}}}', _counts)
        self._given = given
        return counts

    def reopen(self, report: Report) -> Counts:
        """Goes on from a report, and gives the counts of its picture.

        Start, limits, prices and calls are the report's, so `undo` takes its calls back. The picture and the report of
        before are gone. The program carries the calls out again: a report that is not true is the Fault of
        `Planarizer.replay`, as 60 WrongReply, and all is as it was.
        """
        counts = self._ask_once(_reopening(report), _counts)
        self._given = _given_by(report)
        return counts

    # ---- The report

    def undo(self, entries: int = 1) -> Undone:
        """Takes the last entries of the report back, refused calls too, and gives what comes next then.

        Picture, ids and report are as if these calls had never been made; a call that is made again is answered as it
        was. More than there are since the report began is the Fault 70 NothingToUndo, which changes nothing. The first
        `undo` of a session, and one that goes far back, may take as long as the calls of the report took.
        """
        undone: Undone = self._made("undo", (index(entries),))
        return undone

    def forget(self) -> Counts:
        """Begins the report anew with the picture of now, and gives its counts: what came before takes no memory any
        more, and cannot be taken back. Ids stay."""
        return self._ask("forget", _counts)

    def renumber(self) -> Renumbered:
        """Begins the report anew, as `forget`, and closes up the ids of edges and crossings from 0 in their order.

        The id of an edge that was deleted is not given again, unless `undo` took back the call that gave it. The limits
        bound the ids, so after 65,536 edges in all an insertion is refused as 7 Full; then this makes room. Vertices
        keep their numbers.
        """
        return self._ask_once('"renumber"', Renumbered.from_json)

    # ---- What there is now

    def route(self, u: int, v: int) -> Route | Refused:
        """What `insert(u, v)` would do now, without doing it, or the refusal that it would have: 1 NoVertex,
        2 SameEnds, 7 Full or 9 NoRoute. Nothing is entered in the report, and no id is taken."""
        route: Route | Refused = self._made("route", (index(u), index(v)))
        return route

    def edge(self, edge: int) -> EdgeAnswer | Refused:
        """The ends, the kind, the price and the crossings of an edge, or the refusal 4 NoEdge."""
        told: EdgeAnswer | Refused = self._made("edge", (index(edge),))
        return told

    def vertex(self, vertex: int) -> VertexAnswer | Refused:
        """The edges round a vertex, clockwise from the least id, or the refusal 1 NoVertex."""
        told: VertexAnswer | Refused = self._made("vertex", (index(vertex),))
        return told

    def face(self, edge: int, segment: int = 0, way: str = "forward") -> tuple[Dart, ...] | Refused:
        """The darts once round the face on the left of this one, from it on: of a segment of an edge, counted from 0 at
        the end `a`, which is walked `forward` (from `a` to `b`) or `back`. Else the refusal 4 NoEdge, or 71 NoDart
        where the edge has no such segment. Another way is a Fault (52 BadShape)."""
        return self._ask(["face", index(edge), index(segment), way], face_from_json)

    def about(self) -> About:
        """What the program is: its version, the greatest limits, and which requests it knows."""
        return self._ask("about", About.from_json)

    def counts(self) -> Counts:
        """How many vertices, crossings, edges, segments and faces the picture has, as the program counts them."""
        counts: Counts = self._made("counts", ())
        return counts

    def picture(self) -> Picture:
        """The picture now."""
        return self._asked(['"picture"'], _picture)

    def report(self) -> Report:
        """The start, each call since then with its reply, and the picture now; `Planarizer.replay` accepts it."""
        return self._ask("report", Report.from_json)

    def to_html(self, names: Sequence[Any] | None = None) -> str:
        """A page of HTML that steps through the calls so far, with these names for the vertices; see
        `fezdrok.to_html`. Where the report began anew, those since then."""
        pager = type(self).pager
        assert pager is not None, "the package fezdrok was not imported"
        return pager(self.report(), names=names, program=self._program.path)

    def picture_text(self) -> str:
        """The picture now, as the program writes it."""
        return self._asked(['"picture"'], lambda answerer, answers: answers[0].decode())

    def answers(self, requests: Sequence[str]) -> list[str]:
        """The answers to several lines of docs/FORMATS.md in order, as the program writes them, also where they are
        faults.

        There may be any number of lines. Over a process none waits for the answer before it, which saves turns through
        the pipes. A line that has a line feed in it is a ValueError: it would have more than one answer.
        """
        if any("\n" in request for request in requests):
            raise ValueError("a line has a line feed in it")
        return self._asked(requests, lambda answerer, answers: [answer.decode() for answer in answers])

    def _made(self, call: str, numbers: tuple[int, ...]) -> Any:
        """The answer to a call, without a line where the session is in this process and the numbers are of the form, or
        else by a line."""
        if self._lock.locked():
            raise SessionInUse(IN_USE)
        with self._lock:
            answerer = self._answerer
            if isinstance(answerer, LibrarySession) and fit(call, numbers):
                return answerer.make(call, numbers)
        return self._ask(_request(call, numbers), _READERS[call])

    def _ask(self, request: Any, read: Callable[[Any], Value]) -> Value:
        """The answer to a request, read by this function; Fault where the program refuses the line."""
        return self._ask_line(json_text(request), read)

    def _ask_line(self, line: str, read: Callable[[Any], Value]) -> Value:
        """The same of a line."""
        return self._asked([line], lambda answerer, answers: _understood(answerer, answers[0], read))

    def _ask_once(self, line: str, read: Callable[[Any], Value]) -> Value:
        """The same for a line after which limits, prices and ids may be others. Where it is interrupted, the session
        is over; where memory is out, they are unknown here."""
        try:
            return self._ask_line(line, read)
        except MemoryFault:
            self._given = None
            raise
        except (Fault, SessionInUse):
            raise
        except BaseException:
            self.close()
            raise

    def _asked(self, requests: Sequence[str], read: Callable[[Answerer, list[bytes]], Value]) -> Value:
        """The answers to some lines, read by this function."""
        self._refuse_another()
        with self._lock:
            answerer = self._answerer
            if answerer is None:
                raise SessionClosed("the session is closed")
            try:
                return read(answerer, answerer.ask_all(requests))
            finally:
                if answerer.is_over:
                    self._answerer = None

    def _refuse_another(self) -> None:
        """SessionInUse where a call has not ended. One that begins in this moment is waited for; its thread can be
        interrupted at any place, and gives the lock back all the same, as it is taken by `with`."""
        if self._lock.locked():
            raise SessionInUse(IN_USE)

    # ---- Its end

    def __enter__(self: Own) -> Own:
        return self

    def __exit__(
        self, kind: type[BaseException] | None, raised: BaseException | None, trace: TracebackType | None
    ) -> None:
        self.close()

    def close(self) -> None:
        """Ends the session. A process has its input closed, and is killed if it has not ended half a second later. What
        is closed already stays so; SessionInUse where another thread calls it."""
        self._refuse_another()
        with self._lock:
            answerer, self._answerer = self._answerer, None
            if answerer is not None:
                answerer.end(HASTE)


def _reopening(report: Report) -> str:
    """The line that goes on from a report."""
    return f'{{"reopen":{report.to_text()}}}'


def _given_by(report: Report, program: PathLike | None = None) -> Planarizer:
    """What a session that goes on from a report was given."""
    return Planarizer(report.start, report.limits, report.prices, program)


def _understood(answerer: Answerer, answer: bytes, read: Callable[[Any], Value]) -> Value:
    """An answer, read by this function; Fault where it is one. Where it is in no form that is known, the session is
    ended, and that is ProgramFailed."""
    try:
        value = json.loads(answer.decode())  # which is faster than to let it find the coding
        value = value.get("answer", value)  # that to an envelope
        fault = value.get("fault")
        if fault is None:
            return read(value)
    except (KeyError, TypeError, ValueError, IndexError, AttributeError) as other:
        status, told = answerer.end()
        raise ProgramFailed(
            status, f"{answerer.path} gave no answer in its form, but {answer[:200]!r} {told}"
        ) from other
    raise Fault(*fault)


def _picture(answerer: Answerer, answers: list[bytes]) -> Picture:
    """The picture of an answer, which keeps its text: so it is opened anew without being written."""
    picture = _understood(answerer, answers[0], Picture.from_json)
    picture.__dict__["_text"] = answers[0].decode()
    return picture


def _counts(value: dict[str, int]) -> Counts:
    return Counts(value["vertices"], value["crossings"], value["edges"], value["segments"], value["faces"])


#: What reads the answer to the line of each call that has a form without a line.
_READERS: dict[str, Callable[[Any], Any]] = {
    **dict.fromkeys(COMMANDS, reply_from_json),
    "route": Route.from_json,
    "undo": Undone.from_json,
    "counts": _counts,
    "edge": EdgeAnswer.from_json,
    "vertex": VertexAnswer.from_json,
}


def _request(call: str, numbers: tuple[int, ...]) -> Any:
    """What stands in the line of such a call, whose first number is a caller where it is a command."""
    if call not in COMMANDS:
        return [call, *numbers] if numbers else call
    caller, *words = numbers
    return {"call": [call, *words], "caller": caller} if caller else [call, *words]
