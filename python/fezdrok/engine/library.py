"""The C library `libfezdrok`: where it is found, texts that it judges, and and what it keeps in this process."""

from __future__ import annotations

import os
from collections.abc import Sequence
from ctypes import (
    CDLL, POINTER, Structure, byref, c_char, c_char_p, c_size_t, c_uint8, c_void_p, create_string_buffer,
)
from typing import Any

from .faults import MemoryFault, ProgramNotFound, SessionClosed, SessionInUse
from .typed_calls import NUMBERS, NUMBERS_AT, READERS, Reply, refused

VARIABLE = "FEZDROK_LIBRARY"
NAME = "libfezdrok.so"

#: The statuses of docs/C.md behind 0, done, that are told apart here.
_FAULT, _NO_MEMORY, _TOO_SMALL, _IN_USE = 1, 3, 4, 6
#: How many bytes most judgements have room in.
_ROOM = 128


class _Text(Structure):
    """Where a text lies in a session, and its length in bytes."""

    _fields_ = [("at", POINTER(c_char)), ("length", c_size_t)]


class Library:
    """One library, which was loaded. Its functions may be called from several threads at once. OSError where the system
    does not load it, AttributeError where a function is not in it."""

    def __init__(self, path: str):
        self.path = path
        functions = CDLL(path)
        self.session, self.search = (
            tuple(getattr(functions, f"fezdrok_{kind}{name}") for name in ("open", "call", "close"))
            for kind in ("", "search_")
        )
        text = POINTER(_Text)
        for opened, call, close in (self.session, self.search):
            opened.argtypes = [c_char_p, c_size_t, POINTER(c_void_p), text]
            call.argtypes = [c_void_p, c_char_p, c_size_t, text]
            close.argtypes = [c_void_p]
        self._judges = {"check": functions.fezdrok_check, "replay": functions.fezdrok_replay}
        for judge in self._judges.values():
            judge.argtypes = [c_char_p, c_size_t, c_char_p, c_size_t, POINTER(c_size_t)]
        #: The calls without a text, which have no `argtypes`: numbers below 2**32 are given as they are, and the two
        #: pointers are made once for a session. To convert each would take longer than the call.
        self.typed = {call: getattr(functions, f"fezdrok_{call}") for call in READERS}
        for function in (*self.session, *self.search, *self._judges.values(), *self.typed.values()):
            function.restype = c_uint8

    def judge(self, verb: str, text: bytes) -> tuple[int, str]:
        """The status of the command `check` or `replay` over a text, and the line that it prints."""
        room, size = _ROOM, c_size_t()
        while True:
            line = create_string_buffer(room)
            status = self._judges[verb](text, len(text), line, room, byref(size))
            if status != _TOO_SMALL:
                return status, line.raw[: size.value].decode(errors="replace")
            room = size.value


_loaded: dict[str, Library] = {}


def _load(path: str) -> Library | None:
    """The library in a file, which is loaded once; None where it is not there or does not serve."""
    if path not in _loaded:
        try:
            _loaded[path] = Library(path)
        except (OSError, AttributeError):
            return None
    return _loaded[path]


def named_library() -> Library | None:
    """The library that the environment variable FEZDROK_LIBRARY names, or None where it names none. ProgramNotFound
    where it names what is no such library."""
    named = os.environ.get(VARIABLE)
    if not named:
        return None
    library = _load(os.path.abspath(named))
    if library is None:
        raise ProgramNotFound(f"no library {NAME} by the environment variable {VARIABLE} ({named})")
    return library


def library_of(program: str) -> Library | None:
    """The library that was built with a program: it lies beside it, or in the folder `lib` beside `bin`. None where
    there is none that this system loads."""
    beside = os.path.join(os.path.dirname(os.path.abspath(program)), NAME)
    if os.path.isfile(beside):
        return _load(beside)
    top = os.path.dirname(os.path.dirname(os.path.realpath(program)))
    return _load(os.path.join(top, "lib", NAME)) if os.path.isfile(os.path.join(top, "lib", NAME)) else None


class InProcess:
    """What the library keeps in this process, by its functions that open, call and close it.

    It is for one thread at a time, and its memory is given back by `end`, or where nothing has it any more.
    """

    def __init__(self, functions: tuple[Any, ...]):
        self._open, self._ask, self._close = functions  # the last is still there when the interpreter ends
        self._handle = c_void_p()
        self._text = _Text()
        self._answer = byref(self._text)

    def _expect(self, status: int) -> bool:
        """Whether the status of a call tells a fault; raises what any other stands for."""
        if status > _FAULT:
            raise _failure(status)
        return status == _FAULT

    def _begin(self, line: bytes) -> int:
        status: int = self._open(line, len(line), byref(self._handle), self._answer)
        return status

    def _call(self, line: bytes) -> int:
        status: int = self._ask(self._handle, line, len(line), self._answer)
        return status

    def _told(self) -> bytes:
        """The text of the last answer."""
        told: bytes = self._text.at[: self._text.length]  # which is faster than `string_at`
        return told

    def end(self, patience: float = 0.0) -> tuple[int, str]:
        """Gives the memory back. There is no status, and nothing is told."""
        handle, self._handle.value = self._handle.value, None
        if handle is not None:
            self._close(handle)
        return 0, ""

    def __del__(self) -> None:
        if self._handle:
            self.end()


class LibrarySession(InProcess):
    """A session in this process, which answers each line by a line."""

    #: It has no process of its own.
    process_id = None

    def __init__(self, library: Library):
        super().__init__(library.session)
        self.path = library.path
        self._held: Any = None  # the session as it is handed to a call, made once
        self._reply = Reply()
        self._at_reply = byref(self._reply)
        self._typed = library.typed
        self.is_over = False

    def answer(self, line: bytes) -> bytes:
        """The answer to a line without a line feed, of which the first opens the session.

        MemoryFault where there is no memory: all is as it was then, or the line is carried out and its answer is lost.
        SessionInUse where another thread asks, and SessionClosed after the end.
        """
        if self.is_over:
            raise SessionClosed("the session is closed")
        if self._handle:
            status = self._ask(self._handle, line, len(line), self._answer)
        else:
            status = self._begin(line)
            self._held = c_void_p.from_param(self._handle.value)
        self._expect(status)
        return self._told()

    def make(self, call: str, numbers: tuple[int, ...]) -> Any:
        """What a call with these numbers is answered, without a line. The exceptions are those of `answer`, and Fault
        where so many entries are not there."""
        if self._expect(self._typed[call](self._held, *numbers, self._at_reply)):
            raise SessionClosed("the session was opened by settings at fault")
        told = NUMBERS.unpack_from(self._reply, NUMBERS_AT)
        return refused(told[2], told[3]) if told[2] else READERS[call](self._reply, told, numbers)

    def ask(self, line: str) -> bytes:
        """The same of a text."""
        return self.answer(line.encode())

    def ask_all(self, lines: Sequence[str]) -> list[bytes]:
        """The answers to several texts, one after another."""
        return [self.ask(line) for line in lines]

    def end(self, patience: float = 0.0) -> tuple[int, str]:
        """Gives the memory back."""
        self.is_over = True
        self._held = None
        return super().end()


def _failure(status: int) -> Exception:
    """The exception for a status of a call that was not carried out."""
    if status == _NO_MEMORY:
        return MemoryFault(8, "Memory")
    if status == _IN_USE:
        return SessionInUse(IN_USE)
    return SessionClosed("the session is closed")


#: What SessionInUse says.
IN_USE = "another call of the session has not ended: a session is for one thread at a time"
