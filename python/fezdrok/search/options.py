"""The options of a search, and what is refused of them: a ValueError names the option and its value."""

from __future__ import annotations

import math
import os
import warnings
from numbers import Real
from operator import index
from typing import Any, Literal, get_args

#: How much is tried.
EffortName = Literal["quick", "default", "thorough"]

#: How many seeds there are.
SEEDS = 2**32

#: Options of versions before that count for nothing, and what stands in their place.
_OLD = {
    "begin": "each search begins with a planar part",
    "order": "another `seed` has edges come in another order",
    "rounds": "`effort` says how much is tried",
    "shakes": "`effort` says how much is tried",
    "limits": "a search has the greatest limits of the program",
}


def taken(options: dict[str, Any], level: int) -> dict[str, Any]:
    """The options without those that count for nothing any more, each of which is a DeprecationWarning for the caller
    so many levels above."""
    for name in _OLD.keys() & options.keys():
        warnings.warn(f"{name} counts for nothing any more: {_OLD[name]}", DeprecationWarning, stacklevel=level + 1)
    return {name: value for name, value in options.items() if name not in _OLD}


def judge_old(options: dict[str, Any]) -> None:
    """The same for the caller of the function that was given these, where there are to be no others."""
    unknown = taken(options, 3)
    if unknown:
        raise TypeError(f"got an unexpected keyword argument {next(iter(unknown))!r}")


def one_of(name: str, value: Any, words: Any) -> Any:
    """One of the words of a Literal."""
    known = get_args(words)
    if not isinstance(value, str) or value not in known:
        raise ValueError(f"the {name} {value!r} is not known: it is {' or '.join(map(repr, known))}")
    return value


def whole(name: str, value: Any, least: int | None = None) -> int:
    """A whole number that is at least so much."""
    try:
        number = index(value)
    except TypeError:
        raise ValueError(f"{name} is {value!r}: it must be a whole number") from None
    if least is not None and number < least:
        raise ValueError(f"{name} is {number}: it must be {least} or more")
    return number


def judged_seconds(seconds: Any) -> float | None:
    """The seconds that a search has, or None for as many as it takes."""
    if seconds is None:
        return None
    if not isinstance(seconds, Real) or math.isnan(seconds) or seconds < 0:
        raise ValueError(f"seconds is {seconds!r}: it must be a number that is 0 or more, or None for no limit")
    return float(seconds)


def judge_program(program: Any) -> None:
    """What names the program: a path or None."""
    if program is not None and not isinstance(program, (str, os.PathLike)):
        raise ValueError(f"program is {program!r}: it must be the path of planar, or None")
