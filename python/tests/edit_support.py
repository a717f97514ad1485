"""What the tests of the editor share: a server, tabs that talk to it, and a browser that is driven."""

from __future__ import annotations

import asyncio
import json
import os
import shutil
import signal
import subprocess
import tempfile
import unittest
import warnings
from importlib.util import find_spec
from pathlib import Path

from fezdrok import PlanarWarning

from .support import has_program

CHROMIUM = shutil.which("chromium")
needs_server = unittest.skipUnless(
    find_spec("aiohttp") and has_program(), "left out: aiohttp or the program planar is not there"
)
needs_browser = unittest.skipUnless(CHROMIUM, "left out: chromium is not there")
#: How many seconds anything may take.
PATIENCE = 30


def shown(drawing, before=None):
    """A drawing as a message has it with all its rows, those that it has not from the one before."""
    for word, key in (("edges", "id"), ("nodes", "vertex")):
        rows = {} if drawing["isWhole"] else {row[key]: row for row in before[word] if row[key] not in drawing["gone"][word]}
        rows.update((row[key], row) for row in drawing[word])
        drawing[word] = [rows[it] for it in sorted(rows)]
    return {name: it for name, it in drawing.items() if name not in ("isWhole", "gone")}


class Talk:
    """A tab that is no page: what it was told, and its answers."""

    def __init__(self, socket):
        self.socket = socket
        self.told = []
        self.drawing = None
        self.seen = 0
        self._last = 0

    async def read(self):
        """The next message, which is noted."""
        message = json.loads(await asyncio.wait_for(self.socket.receive_str(), PATIENCE))
        if "drawing" in message:
            self.drawing = message["drawing"] = shown(message["drawing"], self.drawing)
        else:
            self.told.append(message)
        if "change" in message:
            self.seen = message["change"]["number"]
        return message

    async def until(self, is_it):
        """The first message from now on that is it."""
        while not is_it(message := await self.read()):
            pass
        return message

    async def ask(self, word, *values, seen=None):
        """The answer to a message."""
        self._last += 1
        await self.socket.send_json([self._last, self.seen if seen is None else seen, word, *values])
        return (await self.until(lambda message: message.get("id") == self._last))["answer"]

    async def left_with(self, numbers):
        """Waits until it was told that these tabs are there."""
        while [*self.names] != numbers:
            await self.read()

    @property
    def names(self):
        """The names of the tabs that are there by their numbers, as it was told last."""
        return dict(next((message["tabs"] for message in reversed(self.told) if "tabs" in message), []))

    async def drawn(self, number):
        """The drawing after this change, or a later one."""
        while self.drawing is None or self.drawing["number"] < number:
            await self.read()
        return self.drawing

    @property
    def changes(self):
        """The changes that it was told."""
        return [message["change"] for message in self.told if "change" in message]


class Served(unittest.IsolatedAsyncioTestCase):
    """Tests with a server of an editor."""

    async def asyncSetUp(self):
        caught = warnings.catch_warnings()
        caught.__enter__()
        self.addCleanup(caught.__exit__, None, None, None)
        warnings.simplefilter("ignore", PlanarWarning)  # of drawings that begin anew
        asyncio.get_running_loop().set_debug(False)  # which is slow

    async def serve(self, result, folder=None):
        """Begins a server of this picture, in which files of a folder can be opened, which ends with the test."""
        import aiohttp

        from fezdrok.edit.editors import Editor
        from fezdrok.edit.servers import Server

        self.talks = []
        self.editor = Editor(result, folder=folder)
        self.server = Server(self.editor)
        await self.server.begin()
        self.origin = f"http://127.0.0.1:{self.server.port}"
        self.web = aiohttp.ClientSession()

    async def asyncTearDown(self):
        if hasattr(self, "web"):
            await self.web.close()
            await self.server.end()
            await self.editor.finish()

    async def talk(self, query="", **headers):
        """A new tab."""
        socket = await self.web.ws_connect(f"{self.server.address}live{query}", origin=self.origin, headers=headers)
        talk = Talk(socket)
        self.talks.append(talk)  # a connection that nobody holds ends
        talk.hello = (await talk.read())["hello"]
        talk.seen = talk.hello["number"]
        return talk


class Browser:
    """A page in a browser without a window, driven by the browser's own protocol."""

    def __init__(self, test, web):
        self._web = web
        self._last = 0
        folder = tempfile.TemporaryDirectory(ignore_cleanup_errors=True)
        test.addCleanup(folder.cleanup)
        self._folder = Path(folder.name)
        options = ("--headless", "--no-sandbox", "--disable-gpu", "--remote-debugging-port=0", "--window-size=900,700")
        self._process = subprocess.Popen(
            [CHROMIUM, *options, f"--user-data-dir={self._folder}", "about:blank"],
            stdout=subprocess.DEVNULL, stderr=subprocess.DEVNULL, start_new_session=True,
        )
        test.addCleanup(self._end)

    def _end(self):
        os.killpg(self._process.pid, signal.SIGKILL)
        self._process.wait()

    async def begin(self):
        """Waits until the browser can be driven."""
        place = self._folder / "DevToolsActivePort"
        async with asyncio.timeout(PATIENCE) if hasattr(asyncio, "timeout") else _Nothing():
            while not (place.exists() and place.read_text().count("\n")):
                await asyncio.sleep(0.05)
            address = f"http://127.0.0.1:{place.read_text().split()[0]}/json/list"
            while not (pages := [it for it in await self._json(address) if it["type"] == "page"]):
                await asyncio.sleep(0.05)
        self._socket = await self._web.ws_connect(pages[0]["webSocketDebuggerUrl"], max_msg_size=0)
        await self.send("Page.enable")
        source = "window.faults = []; addEventListener('error', event => faults.push(event.message));"
        await self.send("Page.addScriptToEvaluateOnNewDocument", source=source)

    async def _json(self, address):
        async with self._web.get(address) as response:
            return await response.json(content_type=None)

    async def send(self, method, **words):
        """The result of a method of the protocol."""
        self._last += 1
        await self._socket.send_json({"id": self._last, "method": method, "params": words})
        while True:
            message = json.loads(await asyncio.wait_for(self._socket.receive_str(), PATIENCE))
            if message.get("id") == self._last:
                return message["result"]

    async def value(self, script):
        """The value of an expression on the page."""
        done = await self.send("Runtime.evaluate", expression=script, returnByValue=True)
        if "exceptionDetails" in done:
            raise AssertionError(done["exceptionDetails"])
        return done["result"].get("value")

    async def until(self, script):
        """Waits until an expression on the page is true, and gives the seconds that this took."""
        loop = asyncio.get_running_loop()
        begun = loop.time()
        while not await self.value(script):
            if loop.time() > begun + PATIENCE:
                raise AssertionError(f"this was never so: {script}; {await self.value('document.body.innerText')}")
            await asyncio.sleep(0.01)
        return loop.time() - begun

    async def move(self, x, y):
        """Moves the pointer."""
        await self.send("Input.dispatchMouseEvent", type="mouseMoved", x=x, y=y)

    async def click(self, x, y):
        """Clicks there."""
        await self.move(x, y)
        for kind in ("mousePressed", "mouseReleased"):
            await self.send("Input.dispatchMouseEvent", type=kind, x=x, y=y, button="left", clickCount=1)

    async def middle(self, mark):
        """Where the middle of an element is on the page."""
        box = await self.value(
            f"(() => {{ const box = document.querySelector({json.dumps(mark)}).getBoundingClientRect();"
            " return [box.x + box.width / 2, box.y + box.height / 2]; })()"
        )
        return tuple(box)

    async def press(self, key, control=False):
        """Presses a key."""
        for kind in ("keyDown", "keyUp"):
            await self.send("Input.dispatchKeyEvent", type=kind, key=key, modifiers=2 if control else 0)


class _Nothing:
    """Limits no time, where Python has nothing that does."""

    async def __aenter__(self):
        return self

    async def __aexit__(self, *failure):
        return False
