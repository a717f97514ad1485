"""The messages of a page, and how many may come: what is of no form, too long or too fast ends a connection."""

from __future__ import annotations

import json
from collections import deque
from dataclasses import dataclass
from typing import Any

#: How many bytes a message may have, and how many messages may come within a second.
LONGEST, MOST = 65536, 200
#: How many letters the name of a new node or of a tab may have.
LONGEST_NAME = 200
#: How large a number is that names a vertex, an edge, a message or a change.
GREATEST = 2**32 - 1

#: What is behind each word: numbers from 0 on ("n"), a way across or down ("w"), a name or null ("t"), and prices, each
#: a number or null ("p"), of which the board says what is at fault.
FORMS = {
    "route": "nnn", "insert": "nnn", "grow": "nwwtn", "delete": "n", "remove": "n", "prices": "p", "undo": "",
    "redo": "", "tidy": "", "stop": "", "redraw": "", "name": "t", "point": "ww", "files": "",
    "open": "t",
}


class BadMessageError(ValueError):
    """A message ends the connection; `code` is the number that a WebSocket gives as its reason."""

    def __init__(self, code: int, words: str):
        super().__init__(words)
        self.code = code


@dataclass(frozen=True)
class Message:
    """A message of a page: its number, the number of the last change that the page has seen, a word, and what is behind
    it."""

    id: int
    seen: int
    word: str
    values: tuple[Any, ...]


def read_message(text: str) -> Message:
    """The message of a text `[ID,SEEN,WORD,..]`; BadMessageError where it is too long or of no form."""
    if len(text) > LONGEST or len(text.encode(errors="replace")) > LONGEST:
        raise BadMessageError(1009, f"a message has more than {LONGEST} bytes")
    try:
        value = json.loads(text)
    except (ValueError, RecursionError):
        raise BadMessageError(1007, "a message is no JSON") from None
    if not isinstance(value, list) or len(value) < 3 or not isinstance(value[2], str) or value[2] not in FORMS:
        raise BadMessageError(1008, "a message has no form that is known")
    number, seen, word, *values = value
    form = FORMS[word]
    if len(values) != len(form) or not all(map(_fits, "nn" + form, [number, seen, *values])):
        raise BadMessageError(1008, f"a message has not the form of {word}")
    return Message(number, seen, word, tuple(values))


def _fits(kind: str, value: Any) -> bool:
    """Whether a value is of this kind."""
    if kind == "t":
        return value is None or (isinstance(value, str) and len(value) <= LONGEST_NAME)
    if kind == "p":
        return isinstance(value, list) and all(it is None or _is_number(it) for it in value)
    if not _is_number(value):
        return False
    if kind == "n":
        return isinstance(value, int) and 0 <= value <= GREATEST
    return bool(abs(value) <= GREATEST)  # which is none that is not finite


def _is_number(value: Any) -> bool:
    return isinstance(value, (int, float)) and not isinstance(value, bool)


class Pace:
    """How fast messages come."""

    def __init__(self) -> None:
        self._last: deque[float] = deque(maxlen=MOST)

    def judge(self, now: float) -> None:
        """Notes a message at this time, in seconds; BadMessageError where there are more than MOST in a second."""
        if len(self._last) == MOST and now - self._last[0] < 1.0:
            raise BadMessageError(1008, f"there are more than {MOST} messages in a second")
        self._last.append(now)
