"""The names of the editor's tabs, and their pointers on the other tabs."""

import asyncio
import unittest

import networkx as nx

from fezdrok import planarize
from fezdrok.edit import tabs

from .edit_support import Served, needs_server


class Waiting(unittest.IsolatedAsyncioTestCase):
    async def test_of_pointers_the_last_alone_waits(self):
        tab, sent = tabs.Tab(1, lambda: None), []
        for place in range(2 * tabs.MOST_WAITING):
            tab.point(2 + place % 2, str(place))
        tab.tell("told")

        async def send(text):
            sent.append(text)

        with self.assertRaises(asyncio.TimeoutError):
            await asyncio.wait_for(tab.send_all(send), 0.05)
        self.assertEqual(sent, ["told", *(str(2 * tabs.MOST_WAITING - it) for it in (2, 1))])


@needs_server
class Names(Served):
    async def test_names_and_pointers(self):
        await self.serve(planarize(nx.complete_graph(4)))
        first, second = await self.talk(), await self.talk()
        self.assertEqual(await first.ask("name", " Ann <b> "), {})
        self.assertEqual(await first.ask("point", -1.5, 2), {})
        pointer = await second.until(lambda message: "pointer" in message)
        self.assertEqual(pointer, {"pointer": {"tab": 1, "x": -1.5, "y": 2}})
        self.assertEqual(second.names, {1: "Ann <b>", 2: "tab 2"})
        for nothing in ("  ", None):
            await second.ask("name", "Bob")
            await second.ask("name", nothing)
            self.assertEqual(second.names, {1: "Ann <b>", 2: "tab 2"})
        self.assertFalse([message for message in first.told if "pointer" in message])
        self.assertEqual(first.changes, [])


if __name__ == "__main__":
    unittest.main()
