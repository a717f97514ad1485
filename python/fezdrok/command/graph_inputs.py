"""The inputs of the command: which files there are, what is read of them, and where the outputs go."""

from __future__ import annotations

import sys
import warnings
from collections.abc import Iterable
from pathlib import Path
from typing import Any

from ..engine.faults import PlanarWarning
from ..engine.results import SUFFIX, Planarization, planarization_of
from ..files.graph_files import FORMATS, format_of, graph_of

#: Stands for standard input, or standard output.
DASH = "-"
#: What is said of standard input.
STDIN = "standard input"


def name_of(path: str) -> str:
    """What an input is called in lines."""
    return STDIN if path == DASH else path


def inputs_of(paths: Iterable[str]) -> list[str]:
    """The files that are named; of a folder those whose suffix is one of a graph, by their names."""
    suffixes = {suffix for form in FORMATS.values() for suffix in form.suffixes}
    found: list[str] = []
    for path in paths:
        if path != DASH and Path(path).is_dir():
            files = sorted(it for it in Path(path).iterdir() if it.suffix.lower() in suffixes and it.is_file())
            found += [str(it) for it in files if not it.name.endswith(SUFFIX)]
        else:
            found.append(path)
    return found


def read_bytes(path: str) -> bytes:
    """What is in a file, or on standard input."""
    if path != DASH:
        return Path(path).read_bytes()
    if sys.stdin is None:
        raise OSError("standard input is closed")
    return sys.stdin.buffer.read()


def is_saved(path: str, form: str | None) -> bool:
    """Whether an input is a planarization that was saved."""
    return form == "planar" or (form is None and (path.endswith(SUFFIX) or path == DASH))


def read_graph(path: str, form: str | None) -> Any:
    """The graph of an input; GraphFileError where its format is not known."""
    return graph_of(read_bytes(path), format_of(path, form))


def read_saved(path: str) -> Planarization:
    """The planarization of an input."""
    return planarization_of(read_bytes(path))


def without_loops(graph: Any) -> Any:
    """The graph without its loops, of which a warning tells."""
    import networkx

    loops = list(networkx.selfloop_edges(graph, keys=True) if graph.is_multigraph() else networkx.selfloop_edges(graph))
    if loops:
        graph = graph.copy()
        graph.remove_edges_from(loops)
        warnings.warn(f"{len(loops)} loops are left out", PlanarWarning, stacklevel=2)
    return graph


def stem_of(path: str) -> str:
    """The name of an input without its folder and its suffix."""
    name = "graph" if path == DASH else Path(path).name
    return name[: -len(SUFFIX)] if name.endswith(SUFFIX) else Path(name).stem


class Outputs:
    """Where the output of each input goes: to a file or standard output, or into a folder, which is made."""

    def __init__(self, target: str | None, inputs: list[str], suffix: str):
        self._target = target
        self._suffix = suffix
        self._taken: dict[Path, str] = {}
        self.is_folder = target not in (None, DASH) and (
            len(inputs) != 1 or str(target).endswith("/") or Path(str(target)).is_dir()
        )

    def place_for(self, path: str) -> str:
        """The place of the output of an input; ValueError where it is that of another input, or the input itself."""
        if self._target is None or not self.is_folder:
            place = self._target or DASH
        else:
            folder = Path(self._target)
            folder.mkdir(parents=True, exist_ok=True)
            place = str(folder / (stem_of(path) + self._suffix))
        if place != DASH:
            if path != DASH and Path(place).exists() and Path(path).exists() and Path(place).samefile(path):
                raise ValueError(f"its output would be written over it: {place}")
            if (other := self._taken.setdefault(Path(place), path)) != path:
                raise ValueError(f"its output would be written over that of {other}: {place}")
        return place
