"""The tabs that show the picture: each with a number, and with what is still to be sent to it."""

from __future__ import annotations

import asyncio
from collections import deque
from collections.abc import Awaitable, Callable, Iterator

from ..engine.pictures import json_text
from .views import View

#: How many tabs there may be: a report knows callers from 0 to 15, and the editor itself is 0.
MOST_TABS = 15
#: How many messages may wait for a tab that does not read, before its connection is cut.
MOST_WAITING = 1000


class Tab:
    """A tab. What is told to it waits here, so that a slow one holds nobody up; of drawings the last alone waits, and
    so does of each tab's pointers. `name` is what the other tabs call it."""

    def __init__(self, number: int, cut: Callable[[], None]):
        self.number = number
        self.cut = cut
        self.rename(None)
        self._pointers: dict[int, str] = {}
        self._waiting: deque[str] = deque()
        self._drawing: View | None = None
        self._seen: View | None = None
        self._is_cut = False
        self._has_more = asyncio.Event()

    def rename(self, name: str | None) -> None:
        """Gives the tab this name, or where it says nothing one from its number."""
        self.name = (name or "").strip() or f"tab {self.number}"

    def tell(self, text: str) -> None:
        """Has a message be sent. Where too many wait, the connection is cut: the tab comes again and asks for what it
        missed."""
        self._waiting.append(text)
        self._has_more.set()
        if len(self._waiting) > MOST_WAITING and not self._is_cut:
            self._is_cut = True
            self.cut()

    def show(self, view: View) -> None:
        """Has a drawing be sent, in the place of one that still waits: what is otherwise than in that sent before."""
        self._drawing = view
        self._has_more.set()

    def point(self, number: int, text: str) -> None:
        """Has a message be sent on where the pointer of another tab is, in the place of one that still waits."""
        self._pointers[number] = text
        self._has_more.set()

    async def send_all(self, send: Callable[[str], Awaitable[None]]) -> None:
        """Sends what is told, for ever."""
        while True:
            await self._has_more.wait()
            self._has_more.clear()
            while self._waiting:
                await send(self._waiting.popleft())
            view, self._drawing = self._drawing, None
            if view is not None:
                await send(view.text(self._seen))
                self._seen = view
            pointers, self._pointers = self._pointers, {}
            for text in pointers.values():
                await send(text)


class Tabs:
    """The tabs that are there, by their numbers."""

    def __init__(self) -> None:
        self._tabs: dict[int, Tab] = {}
        self._free = deque(range(1, MOST_TABS + 1))  # those that were left longest ago come first

    def __iter__(self) -> Iterator[Tab]:
        return iter(list(self._tabs.values()))

    def __len__(self) -> int:
        return len(self._tabs)

    def come(self, wanted: int | None, cut: Callable[[], None]) -> Tab | None:
        """A new tab, with the wanted number if nobody has it; None where there are too many."""
        if not self._free:
            return None
        number = wanted if wanted in self._free else self._free[0]
        assert number is not None
        self._free.remove(number)
        self._tabs[number] = tab = Tab(number, cut)
        return tab

    def go(self, tab: Tab) -> None:
        """The tab is left; its number is free."""
        del self._tabs[tab.number]
        self._free.append(tab.number)

    def tell(self, text: str) -> None:
        """Tells all tabs this."""
        for tab in self:
            tab.tell(text)

    def show(self, view: View) -> None:
        """Shows all tabs this drawing."""
        for tab in self:
            tab.show(view)

    def tell_names(self) -> None:
        """Tells all tabs which there are, and their names."""
        self.tell(json_text({"tabs": sorted([tab.number, tab.name] for tab in self)}))

    def point(self, pointing: Tab, x: float, y: float) -> None:
        """Tells all tabs but this one where its pointer is, across and down on the page."""
        text = json_text({"pointer": {"tab": pointing.number, "x": x, "y": y}})
        for tab in self:
            if tab is not pointing:
                tab.point(pointing.number, text)
