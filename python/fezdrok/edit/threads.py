"""Work that takes long, in threads that the end of the program does not wait for."""

from __future__ import annotations

import asyncio
from collections.abc import Callable
from contextlib import suppress
from threading import Thread
from typing import Any, TypeVar

Value = TypeVar("Value")


async def aside(work: Callable[[], Value]) -> Value:
    """What this work gives, or raises, in a thread of its own."""
    loop = asyncio.get_running_loop()
    done: asyncio.Future[Value] = loop.create_future()

    def tell(deliver: Callable[[Any], None], value: Any) -> None:
        if not done.done():  # nobody waits for it where it was cancelled
            deliver(value)

    def run() -> None:
        deliver: Callable[[Any], None] = done.set_result
        value: Any
        try:
            value = work()
        except StopIteration as stopped:  # which no future takes
            value = RuntimeError("an iterator had no more")
            value.__cause__ = stopped
            deliver = done.set_exception
        except Exception as failed:
            deliver, value = done.set_exception, failed
        with suppress(RuntimeError):  # the loop is closed
            loop.call_soon_threadsafe(tell, deliver, value)

    Thread(target=run, daemon=True).start()
    return await done
