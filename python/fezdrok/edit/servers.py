"""The server of the editor: what comes by HTTP and by WebSocket from this machine, and what is judged of it.

It listens on the loopback alone. Each request names a token that was made at random when the server began, and says by
`Host` that it means this server; a WebSocket says by `Origin` that it is a page of this server's.
"""

from __future__ import annotations

import asyncio
import secrets
import time
from base64 import b64encode
from collections.abc import Awaitable, Callable
from contextlib import suppress
from hashlib import sha256
from importlib.resources import files
from typing import Any

from ..engine.faults import wanted
from .editors import Editor
from .forms import LONGEST, BadMessageError, Pace, read_message
from .tabs import Tab

#: Where the server listens, and what the machine is called there.
LOOPBACK, NAMES = "127.0.0.1", ("127.0.0.1", "localhost")
#: How many seconds a tab has to take what closes its connection, and requests to end when the server does.
PATIENCE = 2.0


def aiohttp_web() -> Any:
    """The module `aiohttp.web`; ModuleMissing with the name of the extra where it is not there."""
    return wanted("aiohttp.web", "pages that edit")


class Server:
    """The server of one editor."""

    def __init__(self, editor: Editor):
        self._web = aiohttp_web()
        self._editor = editor
        self.token = secrets.token_urlsafe(24)
        self._page = files(__package__).joinpath("edit_page.html").read_text(encoding="utf-8")
        script = self._page.partition("<script>")[2].partition("</script>")[0]
        self._script = b64encode(sha256(script.encode()).digest()).decode()
        self._runner: Any = None
        self._drawing: asyncio.Task[None] | None = None
        self.port = 0

    @property
    def address(self) -> str:
        """The address of the page."""
        return f"http://{LOOPBACK}:{self.port}/{self.token}/"

    async def begin(self, port: int = 0) -> None:
        """Listens on a port, or on a free one. OSError where it is taken."""
        web = self._web

        async def judged(request: Any, handler: Callable[[Any], Awaitable[Any]]) -> Any:
            return await self._judged(request, handler)

        app = web.Application(middlewares=[web.middleware(judged)])
        routes = {
            "": self._send_page, "live": self._live, "report.json": self._send_report,
            "planarization.json": self._send_planarization, "drawing.svg": self._send_svg,
        }
        for name, answer in routes.items():
            app.router.add_get(f"/{{token}}/{name}", answer)
        self._runner = web.AppRunner(app, access_log=None)
        await self._runner.setup()
        await web.TCPSite(self._runner, LOOPBACK, port).start()
        self.port = self._runner.addresses[0][1]
        self._drawing = asyncio.get_running_loop().create_task(self._editor.draw())

    async def end(self) -> None:
        """Ends all connections, and listens no more."""
        for tab in self._editor.tabs:
            tab.cut()
        if self._drawing is not None:
            self._drawing.cancel()
        if self._runner is not None:
            with suppress(asyncio.TimeoutError):
                await asyncio.wait_for(self._runner.cleanup(), PATIENCE)

    # ---- Judged

    async def _judged(self, request: Any, answer: Callable[[Any], Awaitable[Any]]) -> Any:
        """The answer to a request that may be answered, with what keeps a page to itself."""
        fault = self._fault(request)
        response = self._web.Response(status=403, text=f"{fault}\n") if fault else await self._answered(request, answer)
        if not response.prepared:
            response.headers.update(self._headers())
        return response

    async def _answered(self, request: Any, answer: Callable[[Any], Awaitable[Any]]) -> Any:
        try:
            return await answer(request)
        except self._web.HTTPException as refused:
            return self._web.Response(status=refused.status, text=f"{refused.reason}\n")

    def _fault(self, request: Any) -> str | None:
        """Why a request is not answered."""
        hosts = {f"{name}:{self.port}" for name in NAMES}
        if request.headers.getall("Host", []) not in [[host] for host in hosts]:
            return "this server has another name"
        token = (*request.path.split("/"), "")[1]
        if not secrets.compare_digest(token.encode(errors="replace"), self.token.encode()):
            return "the address has no token of this server"
        origin = request.headers.get("Origin")
        is_own = origin in {f"http://{host}" for host in hosts}
        if not is_own and (origin is not None or request.path.endswith("/live")):
            return "the page is none of this server"
        return None

    def _headers(self) -> dict[str, str]:
        """The headers of each answer: the page reaches nothing but this server, and no other page reaches it."""
        own = " ".join(f"ws://{name}:{self.port}" for name in NAMES)
        policy = (
            f"default-src 'none'; style-src 'unsafe-inline'; script-src 'sha256-{self._script}'; img-src data:; "
            f"connect-src 'self' {own}; base-uri 'none'; form-action 'none'; frame-ancestors 'none'"
        )
        return {
            "Content-Security-Policy": policy,
            "Referrer-Policy": "no-referrer",
            "Cache-Control": "no-store",
            "X-Content-Type-Options": "nosniff",
            "Cross-Origin-Resource-Policy": "same-origin",
            "Cross-Origin-Opener-Policy": "same-origin",
        }

    # ---- Files

    async def _send_page(self, request: Any) -> Any:
        return self._web.Response(text=self._page, content_type="text/html", charset="utf-8")

    async def _send_report(self, request: Any) -> Any:
        number = self._editor.number
        return self._file("report.json", await self._editor.report_text() + "\n", "application/json", number)

    async def _send_planarization(self, request: Any) -> Any:
        number, result = self._editor.number, await self._editor.planarization()
        return self._file("graph.planar.json", result.saved_text() + "\n", "application/json", number)

    async def _send_svg(self, request: Any) -> Any:
        return self._file("graph.svg", await self._editor.svg(), "image/svg+xml", None)

    def _file(self, name: str, text: str, kind: str, saved: int | None) -> Any:
        """A file to be kept; with the number of a change that is then saved."""
        if saved is not None:
            self._editor.saved = max(self._editor.saved, saved)
        headers = {"Content-Disposition": f'attachment; filename="{name}"'}
        return self._web.Response(text=text, content_type=kind, charset="utf-8", headers=headers)

    # ---- Connections

    async def _live(self, request: Any) -> Any:
        """The connection of a tab, until it ends."""
        socket = self._web.WebSocketResponse(max_msg_size=16 * LONGEST, compress=False, heartbeat=20.0)
        await socket.prepare(request)

        def cut() -> None:
            if request.transport is not None:
                request.transport.abort()

        tab = self._editor.tabs.come(_number(request.query.get("tab")), cut)
        if tab is None:
            await socket.close(code=1013, message=b"there are too many tabs")
            return socket
        self._editor.welcome(tab, _number(request.query.get("since")))
        sender = asyncio.get_running_loop().create_task(tab.send_all(socket.send_str))
        try:
            await self._hear(socket, tab)
        except BadMessageError as bad:
            with suppress(asyncio.TimeoutError, ConnectionError):
                await asyncio.wait_for(socket.close(code=bad.code, message=str(bad).encode()), PATIENCE)
        finally:
            sender.cancel()
            self._editor.tabs.go(tab)
            self._editor.tabs.tell_names()
            with suppress(asyncio.CancelledError, ConnectionError):
                await sender
        return socket

    async def _hear(self, socket: Any, tab: Tab) -> None:
        """Handles the messages of a tab, one after another; BadMessageError where one ends the connection."""
        text_type = wanted("aiohttp", "pages that edit").WSMsgType.TEXT
        pace = Pace()
        async for message in socket:
            pace.judge(time.monotonic())
            if message.type != text_type:
                raise BadMessageError(1003, "a message is no text")
            await self._editor.handle(tab, read_message(message.data))


def _number(text: str | None) -> int | None:
    """The number that is written so; None where it is none."""
    return int(text) if text is not None and text.isascii() and text.isdecimal() and len(text) < 10 else None
