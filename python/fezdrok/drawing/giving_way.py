"""Work that gives way: what takes long asks at each of its steps whether it is still wanted."""

from __future__ import annotations

from collections.abc import Callable, Iterator
from contextlib import contextmanager
from contextvars import ContextVar


class OverError(Exception):
    """What was under way is not wanted any more."""


def _never() -> bool:
    return False


_is_over: ContextVar[Callable[[], bool]] = ContextVar("is_over", default=_never)


@contextmanager
def until(is_over: Callable[[], bool]) -> Iterator[None]:
    """Has what is done within, in this thread, end with OverError at its first step where it `is_over`."""
    before = _is_over.set(is_over)
    try:
        yield
    finally:
        _is_over.reset(before)


def go_on() -> None:
    """A step of what takes long. OverError where that is not wanted any more."""
    if _is_over.get()():
        raise OverError
