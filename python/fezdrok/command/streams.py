"""What the command writes on standard output and standard error, and its statuses."""

from __future__ import annotations

import os
import sys
from contextlib import suppress
from typing import TextIO

#: The statuses: all is well, an input failed, the words are refused, out of memory, interrupted, nobody reads any more.
WELL, FAILED, REFUSED, NO_MEMORY, INTERRUPTED, UNREAD = 0, 1, 2, 3, 130, 141


class OutputLostError(Exception):
    """Something could not be written on standard output; it ends the command."""

    def __init__(self, words: str, status: int = FAILED):
        super().__init__(words)
        self.status = status


def say(text: str, target: TextIO | None = None) -> None:
    """Writes a text on standard output, or on this stream, so that it is out; OutputLostError where it cannot be."""
    stream = target or sys.stdout
    if stream is None:
        raise OutputLostError("standard output is closed")
    try:
        try:
            stream.write(text)
        except UnicodeEncodeError:
            stream.write(text.encode(stream.encoding, "backslashreplace").decode(stream.encoding))
        stream.flush()
    except BrokenPipeError:
        raise OutputLostError("nobody reads standard output", UNREAD) from None
    except (OSError, ValueError) as fault:
        raise OutputLostError(f"standard output: {getattr(fault, 'strerror', None) or fault}") from None


def say_bytes(data: bytes) -> None:
    """Writes the bytes of a file on standard output, as `say`."""
    if sys.stdout is None:
        raise OutputLostError("standard output is closed")
    try:
        sys.stdout.buffer.write(data)
        sys.stdout.buffer.flush()
    except BrokenPipeError:
        raise OutputLostError("nobody reads standard output", UNREAD) from None
    except OSError as fault:
        raise OutputLostError(f"standard output: {fault.strerror or fault}") from None


def complain(text: str) -> None:
    """Writes a line on standard error, if somebody can read it."""
    if sys.stderr is not None:
        line = f"fezdrok: {' '.join(text.split())}\n"
        with suppress(OSError, ValueError):
            sys.stderr.write(line.encode(errors="backslashreplace").decode())
            sys.stderr.flush()


def hold_streams() -> None:
    """Has no file be opened in the place of a standard stream that is closed."""
    while (descriptor := os.open(os.devnull, os.O_RDWR)) <= 2:
        pass
    os.close(descriptor)


def let_go() -> None:
    """Drops what a standard output could not take, so that nothing complains of it at the end."""
    if sys.stdout is not None:
        with suppress(OSError, ValueError):
            os.dup2(os.open(os.devnull, os.O_WRONLY), sys.stdout.fileno())
