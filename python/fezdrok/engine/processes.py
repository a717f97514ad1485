"""Processes that do not outlive the one that began them, also where that one is killed.

The kernel of Linux sees to that. Elsewhere a process whose parent was killed goes on to its own end.
"""

from __future__ import annotations

import os
import signal
import subprocess
import sys
from collections.abc import Iterator, Sequence
from contextlib import contextmanager
from typing import Any

if sys.platform == "linux":
    import fcntl


def kill_when_closed(reading: int, process: int) -> None:
    """Has the kernel kill a process as soon as no writing end of a pipe is open, of which it has the reading end.

    The writing ends of a process are closed when it ends, in whatever way. A pipe on which something is written yet
    does not serve, for that is told by the same signal.
    """
    if sys.platform == "linux":
        fcntl.fcntl(reading, fcntl.F_SETOWN, process)
        fcntl.fcntl(reading, fcntl.F_SETSIG, signal.SIGKILL)
        fcntl.fcntl(reading, fcntl.F_SETFL, fcntl.fcntl(reading, fcntl.F_GETFL) | os.O_ASYNC)


@contextmanager
def begun(command: Sequence[str], **streams: Any) -> Iterator["subprocess.Popen[bytes]"]:
    """A process of a command, which has ended at the end of the `with` block. It is killed where an exception comes
    before its end, as KeyboardInterrupt does, and where this process ends. OSError where it cannot be started."""
    reading, writing = os.pipe()
    try:
        with subprocess.Popen(command, pass_fds=[reading], **streams) as process:
            try:
                kill_when_closed(reading, process.pid)
                yield process
            except BaseException:
                process.kill()
                process.wait()
                raise
    finally:
        os.close(reading)
        os.close(writing)


def run(command: Sequence[str], text: bytes) -> tuple[int, bytes, bytes]:
    """The status of a command that is given this text, and what it wrote on standard output and on standard error. It
    ends as by `begun`."""
    pipe = subprocess.PIPE
    with begun(command, stdin=pipe, stdout=pipe, stderr=pipe) as process:
        output, errors = process.communicate(text)
    return process.returncode, output, errors
