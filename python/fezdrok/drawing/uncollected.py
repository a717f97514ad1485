"""Work that makes many objects, nearly all of which stay, without a search for garbage on the way."""

from __future__ import annotations

import gc
from collections.abc import Iterator
from contextlib import contextmanager


@contextmanager
def uncollected() -> Iterator[None]:
    """Has no garbage that goes round in circles collected within, in no thread. Whoever switches that off here switches
    it on again, and nobody else does: so it is as it was when all is over that is done like this, in whatever order."""
    was_on = gc.isenabled()
    if was_on:
        gc.disable()
    try:
        yield
    finally:
        if was_on:
            gc.enable()
