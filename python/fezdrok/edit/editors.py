"""The editor: messages of tabs are carried out one after another, and all tabs are told and shown what came of them.

The sessions have a thread of their own, and so has each drawing and each search, so that none waits for what it does
not need.
"""

from __future__ import annotations

import asyncio
import time
from collections import deque
from collections.abc import Callable, Coroutine
from concurrent.futures import ThreadPoolExecutor
from contextlib import suppress
from typing import Any, TypeVar
from weakref import WeakKeyDictionary

from ..engine.faults import PlanarError
from ..engine.pictures import json_text
from ..engine.program import PathLike
from ..engine.reports import Refused
from ..engine.results import Planarization
from ..search.progress import Progress
from .boards import WORDS, Board, Change, EditedSession, NotDoneError
from .folders import Folder
from .forms import Message
from .tabs import Tab, Tabs
from .threads import aside
from .tidying import StoppedError, Tidying
from .views import View, settled_view, view_of

#: How many changes are kept for tabs that were away.
KEPT = 1000
#: How many seconds the end waits for what is under way.
PATIENCE = 5.0
#: How many seconds are between two words on how far a search is.
APART = 0.1
#: How many seconds are between a drawing and the next one at least.
REST = 0.02
#: How many seconds the picture stays as it is before the rest of its drawing settles.
SETTLE = 0.3

Value = TypeVar("Value")
#: What a drawing may fail by.
FAILURES = (PlanarError, ArithmeticError, AssertionError, LookupError, RuntimeError, ValueError)


class Editor:
    """A picture that is edited by tabs. It is made and used within one event loop, but for `finish`. Without a folder
    no other file can be opened."""

    def __init__(self, result: Planarization, program: PathLike | None = None, folder: Folder | None = None):
        self._program = program
        self._folder = folder
        self._board = Board(result, program)
        self._last = result
        self.tabs = Tabs()
        self._hand = ThreadPoolExecutor(1)
        self._turn = asyncio.Lock()
        self._tasks: set[asyncio.Task[Any]] = set()
        self._is_to_draw = asyncio.Event()
        self._is_to_draw.set()
        self._changes: deque[Change] = deque(maxlen=KEPT)
        self._views: WeakKeyDictionary[EditedSession, View] = WeakKeyDictionary()
        self._shown: View | None = None
        self._tidying: Tidying | None = None
        self._drawings = 0
        self.number = 0  # of the last change that the tabs were told of
        self.saved = 0  # of the last change that was saved

    async def _by_hand(self, work: Callable[..., Value], *words: Any) -> Value:
        """Does something with the sessions, in their thread."""
        return await asyncio.get_running_loop().run_in_executor(self._hand, work, *words)

    def _begin(self, work: Coroutine[Any, Any, Value]) -> asyncio.Task[Value]:
        """Begins what goes on also where nobody waits for it any more."""
        task = asyncio.get_running_loop().create_task(work)
        self._tasks.add(task)
        task.add_done_callback(self._tasks.discard)
        task.add_done_callback(lambda done: done.cancelled() or done.exception())  # which nobody may ask for
        return task

    # ---- Tabs

    def welcome(self, tab: Tab, since: int | None) -> None:
        """Tells a tab that has come what it missed since a change, or null where that is no more known, and shows it
        the drawing."""
        missed: list[Any] | None = []
        if since is not None and since != self.number:
            kept = [change.to_json() for change in self._changes if change.number > since]
            missed = kept if since < self.number and len(kept) == self.number - since else None
        tab.tell(json_text({"hello": {"tab": tab.number, "number": self.number, "missed": missed}}))
        if self._shown is not None:
            tab.show(self._shown)
        self.tabs.tell_names()

    async def handle(self, tab: Tab, message: Message) -> None:
        """Carries a message out, and tells the tab its answer."""
        work = self._begin(self._answer(tab, message))
        try:
            answer = await asyncio.shield(work)
        except NotDoneError as refused:
            answer = {"refused": str(refused)}
        except PlanarError as failed:
            answer = {"refused": f"the program failed: {failed}"}
        tab.tell(json_text({"answer": answer, "id": message.id}))

    async def _answer(self, tab: Tab, message: Message) -> Any:
        """The answer to a message of a tab."""
        if message.word == "point":
            self.tabs.point(tab, *message.values)
            return {}
        if message.word == "name":
            tab.rename(*message.values)
            self.tabs.tell_names()
            return {}
        if message.word == "files":
            return {"files": [] if self._folder is None else await aside(self._folder.names)}
        if message.word == "open":
            return await self._open(tab.number, *message.values)
        if message.word == "route":
            return await self._by_hand(self._route, message)
        if message.word == "tidy":
            return await self._tidy(tab.number)
        if message.word == "stop":
            if self._tidying is not None:
                self._tidying.stop()
            return {}
        if message.word == "redraw":
            self._views.pop(self._board.session, None)
            self._is_to_draw.set()
            return {}
        return await self._change(lambda: self._called(tab.number, message))

    async def _open(self, caller: int, name: str | None) -> Any:
        """Puts the picture of a file in the place of that of now, which `undo` brings back."""
        if self._folder is None:
            raise NotDoneError("no file can be opened here")
        opened = self._folder.opened
        found = await aside(lambda: opened(name))
        return await self._change(lambda: self._board.open(caller, "open", found, f"{name} was opened"))

    async def _change(self, make: Callable[[], Change]) -> Any:
        """Changes the picture, and tells all tabs, in the order in which the sessions do it."""
        async with self._turn:
            try:
                change = await self._by_hand(make)
            except PlanarError:
                if self._board.session.is_closed:
                    self._publish(await self._by_hand(self._board.begin_again, self._last))
                raise
            self._publish(change)
        return {"number": change.number, "words": change.words}

    def _publish(self, change: Change) -> None:
        self._changes.append(change)
        self.number = change.number
        self.tabs.tell(json_text({"change": change.to_json()}))
        self._is_to_draw.set()
        if self._tidying is not None and self._tidying.number < change.number:
            self._tidying.stop()

    # ---- In the thread of the sessions

    def _called(self, caller: int, message: Message) -> Change:
        """Makes a call."""
        board, values = self._board, message.values
        if message.word not in ("undo", "redo"):
            board.judge(message.seen)
        if message.word == "grow":
            vertex, across, down, name, kind = values
            board.session.node(vertex)
            values = (vertex, self._position(vertex, across, down), board.free_name(name), kind)
        before = board.session
        change = board.call(caller, message.word, values)
        if message.word in ("remove", "prices") and before in self._views:
            self._views[board.session] = self._views[before]
        return change

    def _position(self, vertex: int, across: float, down: float) -> int:
        """The position of the corner of a vertex from which a way leaves it on the page."""
        view, around = self._views.get(self._board.session), self._board.session.around(vertex)
        if view is None or isinstance(around, Refused) or vertex >= len(view.drawing.result.node_of):
            return 0
        edge_id = view.edge_after(vertex, across, down)
        return around.edges.index(edge_id) if edge_id in around.edges else 0

    def _route(self, message: Message) -> Any:
        """What an edge of a kind would do: what it would cross, its price, and where the drawing is that of now its
        line."""
        board, (u, v, kind) = self._board, message.values
        board.judge(message.seen)
        session = board.session
        ends = session.node(u), session.node(v)
        if not session.graph.is_multigraph() and session.graph.has_edge(*ends):
            raise NotDoneError("these nodes are joined already")
        route = session.route(u, v)
        if isinstance(route, Refused):
            raise NotDoneError(WORDS[route.number])
        if session.price_of(kind) is None and route.crossed:
            raise NotDoneError("nothing may cross an edge of this kind, and this one would cross others")
        told: dict[str, Any] = {"crossed": [dart.edge for dart in route.crossed], "price": route.price}
        view = self._views.get(session)
        if view is not None and view.number == board.number:
            with suppress(ArithmeticError, LookupError, ValueError):  # the faces are too small for a line
                told.update(view.route(u, v, route))
        return told

    def _snapshot(self) -> tuple[EditedSession, int, Planarization]:
        return self._board.session, self._board.number, self._board.session.snapshot()

    # ---- Drawings

    async def draw(self) -> None:
        """Draws the picture whenever it has changed, for ever; of several changes at once the last."""
        while True:
            await self._is_to_draw.wait()
            self._is_to_draw.clear()
            try:
                await self._draw()
            except FAILURES as failed:
                self.tabs.tell(json_text({"told": f"the picture cannot be drawn: {failed}"}))

    async def _draw(self) -> None:
        """Draws the picture with what has changed, soon, and if nothing changes then has the rest settle."""
        session, number, result = await self._by_hand(self._snapshot)
        self._last = result
        before = self._views.get(session)
        serial = self._next_serial()
        try:
            view = await aside(lambda: view_of(number, serial, result, before))
        except FAILURES:
            view = await aside(lambda: view_of(number, serial, result, None))
        self._show(session, view)
        await asyncio.sleep(REST)
        if view.chain != serial:
            with suppress(*FAILURES):
                await self._settle(session, view)

    async def _settle(self, session: EditedSession, view: View) -> None:
        """Has the rest of a drawing settle, unless the picture changes before that is done."""
        with suppress(asyncio.TimeoutError):
            await asyncio.wait_for(self._is_to_draw.wait(), SETTLE)
        serial, is_over = self._next_serial(), self._is_to_draw.is_set
        settled = None if is_over() else await aside(lambda: settled_view(serial, view, is_over))
        if settled is not None and not is_over():
            self._show(session, settled)

    def _next_serial(self) -> int:
        self._drawings += 1
        return self._drawings

    def _show(self, session: EditedSession, view: View) -> None:
        """Shows all tabs a drawing of the picture of a session."""
        self._views[session] = self._shown = view
        self.tabs.show(view)

    # ---- The search

    async def _tidy(self, caller: int) -> Any:
        """Begins a search from the picture of now."""
        async with self._turn:
            if self._tidying is not None:
                raise NotDoneError("Tidy is under way")
            _, number, result = await self._by_hand(self._snapshot)
            self._tidying = Tidying(number, result, self._teller())
        self._begin(self._tidied(caller, self._tidying))
        return {}

    def _teller(self) -> Callable[[Progress], None]:
        """What tells all tabs how far a search is, from its thread."""
        loop, due = asyncio.get_running_loop(), 0.0

        def tell(progress: Progress) -> None:
            nonlocal due
            if time.monotonic() >= due:
                due = time.monotonic() + APART
                best = progress.crossings if progress.best is None else progress.best
                words = f"Tidy: {best} crossings, {progress.seconds:.1f} s"
                loop.call_soon_threadsafe(self.tabs.tell, json_text({"tidy": words}))

        return tell

    async def _tidied(self, caller: int, tidying: Tidying) -> None:
        """Waits for a search, and opens what it found, if nothing has changed meanwhile."""
        words = "Tidy found nothing better"
        try:
            found = await aside(lambda: tidying.run(self._program))
            if found is not None:
                better, words = found, f"Tidy: {found.crossings} crossings"
                await self._change(lambda: self._opened(caller, tidying.number, better, words))
        except (StoppedError, NotDoneError):
            words = "Tidy was ended: the picture is as it was"
        except (PlanarError, ValueError) as failed:
            words = f"Tidy failed: {failed}"
        finally:
            self._tidying = None
        self.tabs.tell(json_text({"tidy": None, "told": words}))

    def _opened(self, caller: int, number: int, found: Planarization, words: str) -> Change:
        self._board.judge(number)
        if self._board.number != number:
            raise NotDoneError("the picture has changed meanwhile")
        return self._board.open(caller, "tidy", found, words)

    # ---- What is kept

    async def report_text(self) -> str:
        """The report of the session of now, as the program writes it."""
        return await self._by_hand(lambda: self._board.session.report().to_text())

    async def planarization(self) -> Planarization:
        """The planarization of now."""
        return (await self._by_hand(self._snapshot))[2]

    async def svg(self) -> str:
        """The drawing of now as SVG."""
        session, number, result = await self._by_hand(self._snapshot)
        before = self._views.get(session)
        return await aside(lambda: view_of(number, 0, result, before).drawing.to_svg())

    async def finish(self) -> tuple[str | None, Planarization]:
        """Ends the search and what is under way, and gives the report, if it can be had, and the planarization."""
        if self._tidying is not None:
            self._tidying.stop()
        if self._tasks:
            await asyncio.wait(self._tasks, timeout=PATIENCE)
        report, result = None, self._last
        with suppress(PlanarError):
            report, result = await self.report_text(), await self.planarization()
        await self._by_hand(self._board.close)
        self._hand.shutdown()
        return report, result
