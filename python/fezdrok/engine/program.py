"""The program `planar`: where it is found, and one call of it, or of the library that was built with it."""

from __future__ import annotations

import os
import re
import shutil
import subprocess
import warnings
from collections.abc import Iterator
from pathlib import Path

from .faults import (
    Fault, MemoryFault, PlanarWarning, ProgramFailed, ProgramNotFound, ProgramNotStarted, UsageRefused, read_value,
)
from .library import VARIABLE as LIBRARY_VARIABLE, Library, library_of, named_library
from .processes import run

PathLike = str | os.PathLike[str]
#: A text, or its bytes, which the program gets as they are.
Text = str | bytes

VARIABLE = "FEZDROK_PLANAR"

_FAULT_LINE = re.compile(r"^planar: (\d+) (\w+)(?: (\S+(?: \d+)*))?$", re.MULTILINE)


#: The program in the package itself, as a wheel has it.
PACKAGED = Path(__file__).resolve().parents[1] / "bin" / "planar"

HOW_TO_GET_ONE = "The wheel of fezdrok for Linux on x86-64 has the program in it; in a checkout ./planar gets it"


def repository_script() -> Path:
    """Where the script `planar` stands, if this package lies in `python/` of the repository."""
    return Path(__file__).resolve().parents[3] / "planar"


def _candidates(program: PathLike | None) -> Iterator[tuple[str, str]]:
    """Where to look, in order: each place with the words that name it in a message."""
    if program is not None:
        yield "the argument", os.fspath(program)
        return
    yield "the package", str(PACKAGED)
    named, script = os.environ.get(VARIABLE, ""), repository_script()
    yield f"the environment variable {VARIABLE}", named
    if not named:
        yield "PATH", "planar"
        yield "the checkout that holds the package", str(script) if script.is_file() else ""


def find_program(program: PathLike | None = None) -> str:
    """The path of the program: the argument, else the program in this package, else what the environment variable
    FEZDROK_PLANAR names, else `planar` in PATH, else that of the checkout that holds this package.

    An argument or a variable that names no program is an error; nothing else is tried then.

    The script `planar` of a checkout stands for the program `out/planar`, which it builds, or else for the one in
    `prebuilt/`, wherever the script is named. It is not called, so nothing is built here: where there is no such
    program, that is as if nothing were named. Of the two the one is taken that was built from the sources that are
    there now. Where neither was, the first is taken, and a PlanarWarning, once in a process, says that it is old.

    Examples
    --------
    >>> from fezdrok import find_program
    >>> find_program("/nowhere/planar")
    Traceback (most recent call last):
        ...
    fezdrok.engine.faults.ProgramNotFound: no program planar by the argument (/nowhere/planar). The wheel ...
    """
    looked = []
    for place, name in _candidates(program):
        path = shutil.which(name)
        places = [] if path is None else _places_of(path)
        built = [it for it in places if os.access(it, os.X_OK)]
        if path is None:
            looked.append(f"{place} ({name or 'there is none'})")
        elif built:
            return os.fspath(_current(path, built))
        elif places:
            looked.append(f"{place} (neither {' nor '.join(map(str, places))} is there: run {path}, which gets one)")
        else:
            return path
    raise ProgramNotFound(f"no program planar by {' or '.join(looked)}. {HOW_TO_GET_ONE}")


def _places_of(path: str) -> list[Path]:
    """Where the programs lie that the script at this path stands for; none where it is not the script of a checkout."""
    script = Path(path).resolve()
    is_script = script.name == "planar" and (script.parent / ".ci" / "sources").is_file()
    folders = [script.parent / "out", script.parent / "prebuilt" / "x86_64-linux"] if is_script else []
    return [folder / "planar" for folder in folders]


_chosen: dict[tuple[Path, ...], Path] = {}


def _current(script: str, built: list[Path]) -> Path:
    """The first of a checkout's programs that was built from the sources that are there now. Where none was, the first
    of all, with a warning. Where that cannot be found out, nothing is said. It is looked at once in a process."""
    key = tuple(built)
    if key not in _chosen:
        _chosen[key] = built[0]
        sources = Path(script).resolve().parent / ".ci" / "sources"
        try:
            nothing, pipe = subprocess.DEVNULL, subprocess.PIPE
            done = subprocess.run([sources, "planar"], stdin=nothing, stdout=pipe, stderr=nothing, check=True)
        except (OSError, subprocess.CalledProcessError):
            return built[0]
        current = [it for it in built if _sources_of(it) == done.stdout.decode().strip()]
        if current:
            _chosen[key] = current[0]
        else:
            warnings.warn(
                f"{built[0]} was built from other sources than those that are there now: "
                f"run {script}, which builds it anew",
                PlanarWarning,
                stacklevel=2,
            )
    return _chosen[key]


def _sources_of(built: Path) -> str | None:
    """The checksum of the sources that a program was built from, as it was noted beside it; None where it was not."""
    noted, listed = Path(f"{built}.sources"), built.parent / "MANIFEST"
    if noted.is_file():
        return noted.read_text().strip()
    lines = listed.read_text().splitlines() if listed.is_file() else []
    return next((words[2] for words in map(str.split, lines) if len(words) == 3 and words[0] == "planar"), None)


#: The libraries that were found, by what the program and they are looked for by.
_libraries: dict[tuple[str | None, ...], Library] = {}


class Program:
    """One program `planar`; a call of `run` is one process, which does not outlive this one. `replay` and `check` are
    judged in this process where the library `libfezdrok.so` is there, and else by a process too.

    It is looked for at the first call, so scripts can be written where no program is.
    """

    def __init__(self, program: PathLike | None = None):
        self._wanted = program
        self._path: str | None = None

    def __repr__(self) -> str:
        return f"<Program: {self._path or self._wanted or 'not looked for yet'}>"

    @property
    def path(self) -> str:
        """Where the program was found."""
        if self._path is None:
            self._path = find_program(self._wanted)
        return self._path

    @property
    def library(self) -> Library | None:
        """The library that the environment variable FEZDROK_LIBRARY names, or else the one that lies beside the
        program, or in `../lib`; None where there is none that this system loads. One that was found is looked for
        no more."""
        wanted = None if self._wanted is None else os.fspath(self._wanted)
        place = (wanted, *map(os.environ.get, (VARIABLE, LIBRARY_VARIABLE, "PATH")))
        found = _libraries.get(place)
        if found is None:
            found = named_library() or library_of(self.path)
            if found is not None:
                _libraries[place] = found
        return found

    def run(self, script: Text) -> str:
        """The report of a script, one line of JSON."""
        return self._call("run", script)

    def replay(self, report: str) -> str:
        """The line `replayed N calls`, or the fault that the report is not true."""
        return self._judged("replay", report)

    def check(self, picture: str) -> str:
        """The line `lawful vertices=.. ..`, or the fault that the picture is not lawful."""
        return self._judged("check", picture)

    def _judged(self, verb: str, text: str) -> str:
        """The same in this process where there is a library."""
        library = self.library
        if library is None:
            return self._call(verb, text)
        status, line = library.judge(verb, text.encode())
        if status:
            raise failure(status, line)
        return line

    def _call(self, verb: str, text: Text) -> str:
        """What the program prints, or the exception that its status stands for."""
        path = self.path
        try:
            status, output, errors = run([path, verb], text.encode() if isinstance(text, str) else text)
        except OSError as refused:
            raise ProgramNotStarted(f"{path} cannot be run: {refused.strerror or refused}") from refused
        if status == 0:
            return output.decode(errors="replace")
        raise failure(status, errors.decode(errors="replace"))


def failure(status: int, text: str) -> Exception:
    """The exception for a status other than 0 and the text on standard error."""
    if status == 2:
        return UsageRefused(text.strip())
    lines = _FAULT_LINE.findall(text)
    if status not in (1, 3) or not lines:
        return ProgramFailed(status, text)
    number, name, value = lines[-1]
    kind = MemoryFault if status == 3 else Fault
    return kind(int(number), name, read_value(value or None))
