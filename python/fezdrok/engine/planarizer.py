"""Commands collected and run by the program `planar`."""

from __future__ import annotations

import json
import re
from collections.abc import Sequence
from operator import index
from typing import Any

from .faults import NoReport, ProgramFailed
from .pictures import Counts, Picture, json_text
from .program import PathLike, Program
from .reports import Call, Delete, Grow, Insert, Limits, Planned, Report, version_of

_REPLAYED = re.compile(r"replayed (\d+) calls\n")
_LAWFUL = re.compile(r"lawful vertices=(\d+) crossings=(\d+) edges=(\d+) segments=(\d+) faces=(\d+)\n")


class Planarizer:
    """A list of commands over a start picture.

    `start` is the picture to begin with (without it two vertices and one edge), `limits` how large it may grow (see
    Limits), `prices` the price of crossing an edge of kind 0, 1, .. (1 to 1000, or None where such edges must not be
    crossed; kinds past the end cost 1), and `program` the path of `planar` (see `find_program`).

    A command is not judged when it is collected. `run` carries all of them out; one that is refused changes
    nothing, and its reply says why.

    Parameters
    ----------
    start : Picture, optional
    limits : Limits, optional
    prices : sequence of int or None, optional
    program : str or os.PathLike, optional

    Examples
    --------
    >>> from fezdrok import Planarizer
    >>> planarizer = Planarizer()
    >>> planarizer.grow(1), planarizer.insert(0, 2)
    (0, 1)
    >>> planarizer
    <Planarizer: 2 commands>
    >>> planarizer.run().picture
    <Picture: 3 vertices, 3 edges, 0 crossings>
    """

    def __init__(
        self,
        start: Picture | None = None,
        limits: Limits | None = None,
        prices: Sequence[int | None] | None = None,
        program: PathLike | None = None,
    ):
        self.start = start
        self.limits = limits
        self.prices = None if prices is None else tuple(None if price is None else index(price) for price in prices)
        self.program = Program(program)
        self.commands: list[Call] = []

    def __repr__(self) -> str:
        return f"<Planarizer: {len(self.commands)} commands>"

    # ---- Commands

    def _collect(self, command: Call) -> int:
        self.commands.append(command)
        return len(self.commands) - 1

    def grow(self, u: int, position: int = 0, kind: int = 0) -> int:
        """A new vertex on a new edge, from the corner at this position of `u`. Gives the index of its reply."""
        return self._collect(Grow(index(u), index(position), index(kind)))

    def insert(self, u: int, v: int, kind: int = 0) -> int:
        """A new edge from `u` to `v` along the first of the cheapest routes. Gives the index of its reply."""
        return self._collect(Insert(index(u), index(v), index(kind)))

    def delete(self, edge: int) -> int:
        """An edge taken out. Gives the index of its reply."""
        return self._collect(Delete(index(edge)))

    def planned(self, u: int, v: int, kind: int = 0) -> int:
        """An insertion whose route is looked for outside the lock. Gives the index of its reply."""
        return self._collect(Planned(index(u), index(v), index(kind)))

    # ---- Scripts and runs

    def script(self) -> dict[str, Any]:
        """The script of all commands so far, in the form of docs/FORMATS.md."""
        script: dict[str, Any] = json.loads(self.script_text())
        return script

    def script_text(self) -> str:
        """The script as one line of JSON, as `planar run` reads it."""
        commands = [command.to_json() for command in self.commands]
        return f'{self.opening_text()[:-1]},"workers":[{json_text(commands)}]}}'

    def opening_text(self) -> str:
        """The script without its lists as one line of JSON, as `planar serve` reads it first."""
        limits = "" if self.limits is None else f'"limits":{json_text(self.limits.to_json())},'
        prices = "" if self.prices is None else f'"prices":{json_text(self.prices)},'
        start = "" if self.start is None else f'"start":{self.start.to_text()},'
        return f'{{{limits}{prices}{start}"version":{version_of(self.prices or ())}}}'

    def run(self) -> Report:
        """Carry out all commands from the start picture on. The commands stay, so a second run does the same."""
        text = self.program.run(self.script_text())
        try:
            return Report.from_text(text)
        except NoReport as fault:
            raise ProgramFailed(0, f"{self.program.path} printed no report: {fault}") from fault

    def replay(self, report: Report) -> int:
        """Carry out the history of a report again: how many calls it has, or the Fault that it is not true."""
        text = self.program.replay(report.to_text())
        found = _REPLAYED.fullmatch(text)
        if found is None:
            raise ProgramFailed(0, text)
        return int(found.group(1))

    def check(self, picture: Picture) -> Counts:
        """How large a picture is, as the program counts it, or the Fault that it is not lawful."""
        text = self.program.check(picture.to_text())
        found = _LAWFUL.fullmatch(text)
        if found is None:
            raise ProgramFailed(0, text)
        return Counts(*(int(number) for number in found.groups()))
