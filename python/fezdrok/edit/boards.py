"""The picture that is edited: calls of several callers, their undo and redo, and what was opened anew."""

from __future__ import annotations

from collections.abc import Sequence
from dataclasses import dataclass, field
from typing import Any, NamedTuple

from ..engine.answers import Route, VertexAnswer
from ..engine.faults import Fault, NotPlanarized, PlanarError
from ..engine.graph_edges import Node, Price
from ..engine.graph_session import GraphSession
from ..engine.pictures import Counts
from ..engine.program import PathLike
from ..engine.reports import Inserted, Refused, Report
from ..engine.results import Planarization
from .kinds import BOUNDS, price_words, repriced
from .pruning import without_node

#: How many pictures that others took the place of can be taken back.
MOST_LAYERS = 8
#: What is said of a refusal, by its number.
WORDS = {
    1: "there is no such node",
    2: "an edge has two different ends",
    3: "the node has no such corner",
    4: "there is no such edge",
    5: "there is no such kind",
    6: "this would part the picture",
    7: "the picture is full: no more ids are left",
    9: "there is no way: edges that must not be crossed part these nodes",
}


class NotDoneError(Exception):
    """Something was not done; the message says why, in words for the user."""


class Change(NamedTuple):
    """A change of the picture: its number, who made it, the word of the call, what was done in words, and how large the
    picture is now."""

    number: int
    caller: int
    word: str
    words: str
    counts: Counts

    def to_json(self) -> dict[str, Any]:
        """The change as the page has it."""
        return {
            "number": self.number, "caller": self.caller, "word": self.word, "words": self.words,
            "vertices": self.counts.vertices, "edges": self.counts.edges, "crossings": self.counts.crossings,
        }


class EditedSession(GraphSession[Planarization]):
    """A session whose calls have callers, and which is asked by vertices and ids. `kind` is that of new edges, whatever
    price they are given: two kinds may have the same."""

    kind = 0

    def _kind(self, price: Price) -> int:
        """The kind of a new edge of this price."""
        return self.kind

    def price_of(self, kind: int) -> Price:
        """The price of a kind; NotDoneError where there is none."""
        if kind >= len(self._source.prices):
            raise NotDoneError(WORDS[5])
        return self.prices[kind]

    def called_by(self, caller: int) -> None:
        """Sets the caller of the calls to come."""
        self._session.caller = caller

    def route(self, u: int, v: int) -> Route | Refused:
        """What an edge would do, as `Session.route`."""
        return self._session.route(u, v)

    def around(self, vertex: int) -> VertexAnswer | Refused:
        """The edges round a vertex, as `Session.vertex`."""
        return self._session.vertex(vertex)

    def report(self) -> Report:
        """The report, as `Session.report`."""
        return self._session.report()

    def snapshot(self) -> Planarization:
        """The planarization of now, without its reports."""
        self._settle()
        return self._result(self._session.picture(), ())

    @property
    def names(self) -> Sequence[Node]:
        """The nodes of the vertices."""
        return self._node_of

    def node(self, vertex: int) -> Node:
        """The node of a vertex; NotDoneError where there is none."""
        if vertex >= len(self._node_of):
            raise NotDoneError(WORDS[1])
        return self._node_of[vertex]

    def edge_words(self, edge: int) -> str:
        """An edge in words; NotDoneError where there is none."""
        if edge not in self.edge_of:
            raise NotDoneError(WORDS[4])
        return " – ".join(map(str, self.edge_of[edge][:2]))


#: A call as it is made again by redo: its word, and what is behind it.
_Call = tuple[str, tuple[Any, ...]]


@dataclass
class _Layer:
    """A picture that was opened: its session, the calls in it with the number of entries that each has in the report,
    and those that were taken back, the last of them last."""

    session: EditedSession
    done: list[tuple[_Call, int]] = field(default_factory=list)
    undone: list[_Call] = field(default_factory=list)
    refused: int = 0  # how many entries since the last of `done` are refusals


class Board:
    """The picture that is edited. Vertices and edges are named by their numbers; what they mean stays as long as
    `steady` does not rise above the number of a change that a caller has seen. It is for one thread."""

    def __init__(self, result: Planarization, program: PathLike | None = None):
        self.number = self.steady = 0
        self._program = program
        self._ahead: list[_Layer] = []
        self._layers = [_Layer(self._begun(result))]

    def _begun(self, result: Planarization) -> EditedSession:
        """A session of a picture, in a process of its own: where that ends, the editor goes on."""
        return EditedSession(result, program=self._program, process=True)

    @property
    def session(self) -> EditedSession:
        """The session of the picture."""
        return self._layers[-1].session

    def close(self) -> None:
        """Ends all sessions."""
        for layer in (*self._layers, *self._ahead):
            layer.session.close()

    # ---- Calls

    def judge(self, seen: int) -> None:
        """NotDoneError where numbers may mean something else than when this was the last change."""
        if seen < self.steady:
            raise NotDoneError("the picture has changed meanwhile: look again")

    def call(self, caller: int, word: str, values: Sequence[Any]) -> Change:
        """Makes a call: `insert` from a vertex to a vertex, of a kind; `grow` from a vertex at a position to a node of
        this name, of a kind; `delete` of an edge, `remove` of a vertex with its edges, `prices` of all kinds, `undo` or
        `redo`. NotDoneError where it is refused."""
        if word == "undo":
            return self._undo(caller)
        if word == "redo":
            return self._redo(caller)
        if word == "remove":
            node = self.session.node(values[0])
            return self.open(caller, word, without_node(self.session.snapshot(), node), f"{node} was taken out")
        if word == "prices":
            return self._priced(caller, values[0])
        words = self._made(caller, (word, tuple(values)))
        self._forget_undone()
        return self._changed(caller, word, words)

    def open(self, caller: int, word: str, result: Planarization | None, words: str) -> Change:
        """Puts another picture in the place of this one, which `undo` brings back in one step. NotDoneError where it is
        None, since it would not hang together."""
        if result is None:
            raise NotDoneError(WORDS[6])
        layer = _Layer(self._begun(result))
        self._forget_undone()
        self._layers.append(layer)
        if len(self._layers) > MOST_LAYERS + 1:
            self._layers.pop(0).session.close()
        return self._changed(caller, word, words, False)

    def _priced(self, caller: int, prices: Sequence[Price | float]) -> Change:
        """Opens the picture anew at these prices of its kinds."""
        try:
            other = repriced(self.session.snapshot(), prices)
            return self.open(caller, "prices", other, f"prices: {price_words(prices)}")
        except Fault as fault:
            if fault.number not in (10, 54):
                raise
            kind = str(fault.value).rpartition("/")[2]
            raise NotDoneError(f"kind {kind}: {BOUNDS}") from None
        except ValueError as refused:
            if isinstance(refused, PlanarError):
                raise
            raise NotDoneError(str(refused)) from None

    def begin_again(self, result: Planarization) -> Change:
        """Puts a picture in the place of one whose program ended."""
        self._layers[-1].session.close()
        self._layers[-1] = _Layer(self._begun(result))
        self._forget_undone()
        return self._changed(0, "begin", "the program ended, and was begun again from the last drawing", False)

    def _made(self, caller: int, call: _Call) -> str:
        """Makes a call that the report has an entry of, and says what was done."""
        layer, (word, values) = self._layers[-1], call
        session = layer.session
        session.called_by(caller)
        try:
            words = self._carried_out(session, word, values)
        except NotPlanarized as refused:
            if refused.reply is None:
                raise NotDoneError(str(refused)) from None
            layer.refused += 1
            raise NotDoneError(WORDS[refused.reply.number]) from None
        except Fault as fault:
            raise NotDoneError(str(fault)) from None
        except ValueError as refused:
            if isinstance(refused, PlanarError):
                raise
            raise NotDoneError(str(refused)) from None
        layer.done.append((call, layer.refused + 1))
        layer.refused = 0
        return words

    def _carried_out(self, session: EditedSession, word: str, values: Sequence[Any]) -> str:
        """What was done, in words."""
        if word == "delete":
            words = session.edge_words(values[0])
            session.delete_edge(*session.edge_of[values[0]])
            return f"{words} was taken out"
        if word == "grow":
            start, position, name, session.kind = values
            node, price = session.node(start), session.price_of(session.kind)
            session.grow_edge(node, name, price, position)
            return f"{name} is new, on an edge from {node}"
        start, end, session.kind = values
        u, v = session.node(start), session.node(end)
        reply: Inserted = session.insert_edge(u, v, session.price_of(session.kind))
        count = len(reply.crossed)
        return f"{u} – {v} is new: {count} crossing{'' if count == 1 else 's'}, price {reply.price}"

    def free_name(self, wanted: str | None) -> str:
        """The name of a new node: the wanted one, or the first number that is none yet. NotDoneError where another node
        has it, or looks like it."""
        names = set(map(str, self.session.names))
        if wanted:
            if wanted in names:
                raise NotDoneError(f"{wanted} is a node already")
            return wanted
        return next(name for name in map(str, range(len(names) + 1)) if name not in names)

    # ---- Taken back, and done again

    def _undo(self, caller: int) -> Change:
        layer = self._layers[-1]
        if layer.done:
            call, entries = layer.done.pop()
            layer.session.undo(layer.refused + entries)
            layer.refused = 0
            layer.undone.append(call)
            return self._changed(caller, "undo", f"taken back: {call[0]}", False)
        if len(self._layers) == 1:
            raise NotDoneError("there is nothing to take back")
        self._ahead.append(self._layers.pop())
        return self._changed(caller, "undo", "taken back: the picture of before", False)

    def _redo(self, caller: int) -> Change:
        layer = self._layers[-1]
        if layer.undone:
            words = self._made(caller, layer.undone[-1])
            layer.undone.pop()
            return self._changed(caller, "redo", f"again: {words}", False)
        if not self._ahead:
            raise NotDoneError("there is nothing to do again")
        self._layers.append(self._ahead.pop())
        return self._changed(caller, "redo", "again: the picture of after", False)

    def _forget_undone(self) -> None:
        """What was taken back cannot be done again after another change."""
        self._layers[-1].undone.clear()
        for layer in self._ahead:
            layer.session.close()
        self._ahead.clear()

    def _changed(self, caller: int, word: str, words: str, is_steady: bool = True) -> Change:
        self.number += 1
        if not is_steady:
            self.steady = self.number
        return Change(self.number, caller, word, words, self.session.counts())
