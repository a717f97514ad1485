"""A picture is edited on a page of the browser: what is opened, how it ends, and what is written then."""

from __future__ import annotations

import argparse
import asyncio
import gc
import signal
import tempfile
import warnings
import webbrowser
from itertools import count
from pathlib import Path
from threading import Thread
from typing import Any

from ..edit.editors import Editor
from ..edit.folders import Folder
from ..edit.servers import Server, aiohttp_web
from ..engine.faults import PlanarError, PlanarWarning
from ..engine.program import PathLike
from ..engine.results import SUFFIX, Planarization
from ..engine.whole_files import write_whole
from ..files.graph_files import GraphFileError
from ..search.planarization import planarize
from .graph_inputs import DASH, is_saved, name_of, read_graph, read_saved, stem_of, without_loops
from .streams import FAILED, NO_MEMORY, WELL, complain, say

#: How many seconds a graph is planarized before it is shown.
SECONDS = 5.0
#: How many objects are made before garbage is looked for: a drawing makes many, and hardly any of it.
NEW_OBJECTS = 20_000


def edit_file(words: argparse.Namespace) -> int:
    """Edits the picture of a file, or of two nodes, until Ctrl-C or SIGTERM, and gives the status."""
    name = "the picture" if words.file is None else name_of(words.file)
    try:
        aiohttp_web()
        with warnings.catch_warnings():
            warnings.simplefilter("always", PlanarWarning)
            warnings.showwarning = lambda message, *_: complain(f"{name}: warning: {message}")
            result = _opened(words)
            warnings.simplefilter("ignore", PlanarWarning)  # of drawings that begin anew, and of searches that ended
            return asyncio.run(_edit(words, result))
    except MemoryError as fault:
        complain(f"{name}: out of memory: {fault}")
        return NO_MEMORY
    except (GraphFileError, PlanarError, OSError, ValueError) as fault:
        complain(f"{name}: {fault}")
        return FAILED


def _opened(words: argparse.Namespace) -> Planarization:
    """The planarization that is edited; ValueError where it is of no graph that can be."""
    if words.record is not None and words.file not in (None, DASH):
        if Path(words.record).exists() and Path(words.record).samefile(words.file):
            raise ValueError("the report would be written over it")
    if words.file is None:
        return planarize([("0", "1")], program=words.program)
    return planarization_in(words.file, words.format, words.program)


def planarization_in(path: str, form: str | None, program: PathLike | None) -> Planarization:
    """The planarization of a file; ValueError where it is of no graph that can be edited."""
    if is_saved(path, form):
        result = read_saved(path)
        result.verify(program=program)
    else:
        graph = without_loops(read_graph(path, form))
        result = planarize(graph, seconds=SECONDS, program=program)
    if result.parts or not result.picture.edges:
        raise ValueError("a graph that is edited is connected, and has an edge")
    return result


async def _edit(words: argparse.Namespace, result: Planarization) -> int:
    """Edits a picture until a signal comes; then writes what is to be kept."""
    folder = Folder(Path(), lambda path: planarization_in(str(path), None, words.program))
    editor, is_over, loop = Editor(result, words.program, folder), asyncio.Event(), asyncio.get_running_loop()
    server = Server(editor)
    for number in (signal.SIGINT, signal.SIGTERM):
        loop.add_signal_handler(number, is_over.set)
    try:
        await server.begin(words.port)
        gc.freeze()  # what is there by now stays, so no collection of garbage has to look at it again
        gc.set_threshold(NEW_OBJECTS)
        say(f"{server.address}  (Ctrl-C ends it)\n")
        if not words.no_browser:
            Thread(target=webbrowser.open, args=[server.address], daemon=True).start()
        await is_over.wait()
    finally:
        await server.end()
        report, now = await editor.finish()
    return max(_record(words.record, report), _keep(words.file, now) if editor.saved < editor.number else WELL)


def _record(path: str | None, report: str | None) -> int:
    """Writes the report, if that is wished for, and gives the status."""
    if path is None:
        return WELL
    if report is None:
        complain(f"{path}: there is no report: the program has ended")
        return FAILED
    try:
        write_whole(path, report + "\n")
    except OSError as fault:
        complain(f"{path}: {fault.strerror or fault}")
        return FAILED
    return WELL


def _keep(path: str | None, result: Planarization) -> int:
    """Writes what was not saved beside the file that was opened, or where that cannot be elsewhere, and says where."""
    beside = [] if path is None or path == DASH else [Path(path).parent]
    failed: Any = None
    for folder in (*beside, Path(), Path(tempfile.gettempdir())):
        place = _free_place(folder, stem_of(path or DASH))
        try:
            result.save(place)
        except (OSError, ValueError) as fault:
            failed = fault
            continue
        say(f"what was not saved is in {place}\n")
        return WELL
    complain(f"what was not saved is lost: {failed}")
    return FAILED


def _free_place(folder: Path, stem: str) -> Path:
    """The path of a file that is not there."""
    names = (f"{stem}.edited{'' if it == 1 else f'-{it}'}{SUFFIX}" for it in count(1))
    return next(place for place in (folder / name for name in names) if not place.exists())
