"""A process of `planar serve`: lines asked, lines answered, and its end."""

from __future__ import annotations

import os
import select
import subprocess
import tempfile
from collections.abc import Sequence
from typing import NoReturn

from .faults import ProgramNotStarted
from .processes import kill_when_closed
from .program import failure

#: How many seconds a process has to end when its input was closed, before it is killed: one that ends by itself, whose
#: status is wanted, and one that is to end.
PATIENCE, HASTE = 3.0, 0.5
#: How many bytes are read in one call, and how many every pipe takes wholly or not at all.
_ROOM = 65536
_AT_ONCE = 512


class LineProcess:
    """A process of `planar serve`, which answers each line by a line.

    Its standard error is a file, so that it never waits for somebody who reads it. It is in a session of its own, so
    that Ctrl-C does not reach it. Where the process that began it ends, however that comes, it is killed, or where the
    system has no such thing, it ends with its input.
    """

    def __init__(self, path: str):
        self.path = path
        self._ahead = bytearray()
        self._is_behind = False  # whether answers may still come to a call that was interrupted
        self._ended: tuple[int, str] | None = None
        try:
            self._errors = tempfile.TemporaryFile()
            self._process = self._begun(path)
        except OSError as refused:
            raise ProgramNotStarted(f"{path} cannot be run: {refused.strerror or refused}") from refused
        assert self._process.stdin is not None and self._process.stdout is not None
        self._input, self._output = self._process.stdin, self._process.stdout
        os.set_blocking(self._input.fileno(), False)  # our end alone: the program waits for its input

    def _begun(self, path: str) -> "subprocess.Popen[bytes]":
        """The process. It is killed when the writing end of a pipe is closed, which is open as long as this is
        there."""
        reading, writing = os.pipe()
        self._life = open(writing, "wb", buffering=0)
        try:
            pipe = subprocess.PIPE
            process = subprocess.Popen(
                [path, "serve"],
                stdin=pipe,
                stdout=pipe,
                stderr=self._errors,
                bufsize=0,
                start_new_session=True,
                pass_fds=[reading],
            )
            try:
                kill_when_closed(reading, process.pid)
            except BaseException:
                with process:  # which closes its pipes and waits for it
                    process.kill()
                raise
        except OSError:
            self._life.close()
            self._errors.close()
            raise
        finally:
            os.close(reading)
        return process

    @property
    def process_id(self) -> int:
        """The number of the process."""
        return self._process.pid

    @property
    def is_over(self) -> bool:
        """Whether nothing can be asked any more."""
        return self._input.closed

    def ask(self, line: str) -> bytes:
        """The answer to a line, without its line feed.

        Where the process ends without an answer, the exception of its status is raised. Where asking is interrupted, as
        by Ctrl-C, the line may have come to the process or not; its answer is passed over when the next line is asked.
        """
        return self.ask_all([line])[0]

    def ask_all(self, lines: Sequence[str]) -> list[bytes]:
        """The answers to several lines, as `ask`. While the process takes no more of the lines, its answers are read,
        so there may be any number of them."""
        if not lines:
            return []
        if self._is_behind:
            self._catch_up()
        self._is_behind = True
        self._write("\n".join(lines))
        answers = [self._read() for _ in lines]
        self._is_behind = False
        return answers

    def _catch_up(self) -> None:
        """Passes over the answers that may still come to a call that was interrupted.

        How many come is not known: its lines may have been sent or not, and some answers may have been read and lost.
        So a question is sent in an envelope with an id that no other line has, and all is passed over up to its answer.
        Where this is interrupted too, the process is ended.
        """
        self._ahead.clear()
        mark = os.urandom(16).hex()
        try:
            self._write(f'{{"call":"counts","id":"{mark}"}}')
            while mark.encode() not in self._read():
                pass
        except BaseException:
            self.end()
            raise

    def _write(self, line: str) -> None:
        """Writes a line wholly or not at all; where it was too long for this and is interrupted, the process is
        ended."""
        left = memoryview(f"{line}\n".encode())
        is_at_once = len(left) <= _AT_ONCE
        try:
            while left:
                try:
                    left = left[os.write(self._input.fileno(), left) :]
                except BlockingIOError:
                    self._wait_for_room()
        except BrokenPipeError:
            self._fail()
        except BaseException:
            if not is_at_once:
                self.end()
            raise

    def _wait_for_room(self) -> None:
        """Waits until the process takes more, or answers, which is read ahead."""
        ends = select.poll()
        ends.register(self._input, select.POLLOUT)
        ends.register(self._output, select.POLLIN)
        if self._output.fileno() in dict(ends.poll()):
            self._read_ahead()

    def _read_ahead(self) -> None:
        """Waits for more of the answers, and keeps it."""
        more = os.read(self._output.fileno(), _ROOM)
        if not more:
            self._fail()
        self._ahead += more

    def _read(self) -> bytes:
        seen = 0
        while (at := self._ahead.find(b"\n", seen)) < 0:
            seen = len(self._ahead)
            self._read_ahead()
        answer = bytes(self._ahead[:at])
        del self._ahead[: at + 1]
        return answer

    def _fail(self) -> NoReturn:
        """Ends the process, and raises what its status and its standard error stand for."""
        status, told = self.end()
        raise failure(status, told)

    def end(self, patience: float = PATIENCE) -> tuple[int, str]:
        """Ends the process, if it has not ended, and gives its status and what it wrote on standard error.

        Its input is closed. If it has not ended so many seconds later, it is killed.
        """
        self._input.close()
        self._output.close()
        try:
            self._process.wait(patience)
        except subprocess.TimeoutExpired:
            pass
        finally:
            if self._process.poll() is None:
                self._process.kill()
                self._process.wait()
        if self._ended is None:
            self._life.close()
            self._errors.seek(0)
            self._ended = (self._process.returncode, self._errors.read().decode(errors="replace"))
            self._errors.close()
        return self._ended
