"""`fezdrok lines`: scripts are read, one a line, and one line is written for each, in the same order.

The line is the report, or `{"fault":[NUMBER,NAME,VALUE]}` for a script that the program refused (without a value, or
with several, if the fault is so), or `{"failed":TEXT}` if the program itself failed. So every line that is read has an
answer, as a step of a pipe wants it, also one that is no UTF-8: the program gets its bytes as they are. An empty line
is a script too, and is refused.
"""

from __future__ import annotations

from collections.abc import Iterable
from typing import TextIO

from ..engine.faults import Fault, MemoryFault, PlanarError
from ..engine.pictures import json_text
from ..engine.program import Program
from .streams import FAILED, NO_MEMORY, WELL, say


def answer(program: Program, script: bytes) -> tuple[str, int]:
    """The line for one script, and its status."""
    try:
        return program.run(script).rstrip("\n"), WELL
    except Fault as fault:
        return json_text({"fault": fault.words}), NO_MEMORY if isinstance(fault, MemoryFault) else FAILED
    except PlanarError as failure:
        return json_text({"failed": str(failure)}), FAILED


def answer_lines(program: Program, source: Iterable[bytes], target: TextIO | None = None) -> int:
    """Answers all lines; the status is the greatest of theirs."""
    status = WELL
    for line in source:
        text, its = answer(program, line)
        status = max(status, its)
        say(text + "\n", target)
    return status
