"""The program of docs/EDITOR.md that is an editor in the browser, as it is written there."""

import json
import re
import unittest

import networkx as nx

from .edit_support import PATIENCE, needs_server
from .support import ROOT


def program() -> str:
    """The program."""
    found = re.search(r"```python\n(.*?)```", (ROOT / "docs" / "EDITOR.md").read_text(), re.DOTALL)
    assert found is not None
    return found[1]


@needs_server
class Editors(unittest.IsolatedAsyncioTestCase):
    async def test_two_pages(self):
        import aiohttp

        names = {"__name__": "editor"}
        exec(program(), names)
        graph = nx.complete_graph(5)
        graph.remove_edge(0, 1)
        address, runner, editor = await names["begin"](graph)
        self.addCleanup(editor.board.close)
        self.addAsyncCleanup(runner.cleanup)
        origin = address.rsplit("/", 2)[0]
        async with aiohttp.ClientSession() as web:
            async with web.get(address) as response:
                self.assertIn("An editor", await response.text())
            with self.assertRaises(aiohttp.WSServerHandshakeError):
                await web.ws_connect(f"{address}live", origin="http://evil.example")
            sockets = [await web.ws_connect(f"{address}live", origin=origin) for _ in range(2)]
            first, second = sockets
            for socket in sockets:
                self.assertIn("<svg", (await socket.receive_json(timeout=PATIENCE))["svg"])
            await first.send_str(json.dumps(["route", "0", "1"]))
            self.assertEqual(await first.receive_json(timeout=PATIENCE), {"told": "1 crossed, price 1", "svg": None})
            for call, told in (
                (["insert", "0", "1"], "0 – 1 is new: 1 crossing, price 1"), (["undo"], "taken back: insert"),
            ):
                await first.send_str(json.dumps(call))
                shown = [await socket.receive_json(timeout=PATIENCE) for socket in sockets]
                self.assertEqual((shown[0], shown[0]["told"]), (shown[1], told))
            await second.send_str(json.dumps(["undo"]))
            told = (await second.receive_json(timeout=PATIENCE))["told"]
            self.assertEqual(told, "there is nothing to take back")
            for socket in sockets:
                await socket.close()

    def test_it_is_short(self):
        self.assertLessEqual(len([line for line in program().splitlines() if line]), 60)


if __name__ == "__main__":
    unittest.main()
