"""What the tests share: where things are, what is left out, and counts made without the package."""

from __future__ import annotations

import os
import stat
import tempfile
import unittest
from importlib.util import find_spec
from pathlib import Path
from typing import Any
from unittest import mock

from fezdrok import Program, ProgramNotFound, Session, find_program
from fezdrok.engine import library, line_process

ROOT = Path(__file__).resolve().parent.parent.parent
EXAMPLES = ROOT / "crates" / "topo_examples" / "data"

needs_matplotlib = unittest.skipUnless(find_spec("matplotlib"), "left out: matplotlib is not there")


def has_program() -> bool:
    """Whether there is a program to call."""
    try:
        find_program()
    except ProgramNotFound:
        return False
    return True


needs_program = unittest.skipUnless(has_program(), "left out: there is no program planar")


def has_library() -> bool:
    """Whether there is a library beside the program."""
    return has_program() and Program().library is not None


def in_process() -> library.LibrarySession:
    """A session of the library, which is to be asked by lines."""
    found = Program().library
    assert found is not None
    return library.LibrarySession(found)


needs_library = unittest.skipUnless(has_library(), "left out: there is no library libfezdrok.so beside the program")


def on_a_curve(graph: Any) -> dict[Any, tuple[int, int]]:
    """Points for the nodes, of which no three lie on a line, in the order of a ring: each two edges whose ends alternate cross."""
    return {node: (number, number**3) for number, node in enumerate(graph)}


def stopped(*words: Any) -> Any:
    """Is interrupted."""
    raise KeyboardInterrupt


class Sessions:
    """Tests whose sessions are in this process where there is a library. A class below one of them has
    `process = True`, and so runs them over a process of the program."""

    process = False

    def session(self, *words: Any, **named: Any) -> Session:
        """A session with these words."""
        return Session(*words, process=self.process, **named)

    def interrupted(self, session: Session) -> Any:
        """Has each call of a session interrupted, as by Ctrl-C, when its line was carried out or is on its way."""
        if session.process_id:
            return mock.patch.object(line_process.os, "read", side_effect=KeyboardInterrupt)
        return mock.patch.object(library.LibrarySession, "_expect", side_effect=KeyboardInterrupt)

    def interrupted_before(self, session: Session) -> Any:
        """The same before the line is sent or carried out."""
        if session.process_id:
            return mock.patch.object(line_process.os, "write", side_effect=KeyboardInterrupt)
        return mock.patch.multiple(library.LibrarySession, answer=stopped, make=stopped)


def fake(test: unittest.TestCase, body: str) -> str:
    """The path of a shell script with this body, which goes when the test is over."""
    folder = tempfile.TemporaryDirectory()
    test.addCleanup(folder.cleanup)
    path = Path(folder.name) / "planar"
    path.write_text("#!/bin/sh\n" + body + "\n")
    path.chmod(path.stat().st_mode | stat.S_IXUSR)
    return os.fspath(path)


def report_files() -> list[Path]:
    """All reports among the examples, also one that is only for readers and that no script leads to."""
    return sorted(EXAMPLES.glob("*.report.json"))


def example_reports() -> list[Path]:
    """The reports of the example scripts."""
    return [path for path in report_files() if path.name != "each_field.report.json"]


def example_scripts() -> list[Path]:
    """The scripts among the examples."""
    return [path.with_name(path.name.replace(".report", "")) for path in example_reports()]


def example_rows() -> list[tuple[str, str, str]]:
    """The rows of the examples: what is done, with which text, and what is told then."""
    found = []
    for file in sorted(EXAMPLES.glob("*.rows")):
        for row in file.read_text().splitlines():
            verb, *words = row.split(" | ")
            if row.startswith("#") or len(words) < 2:
                continue
            text, *changes, told = words
            if text.endswith(".json"):
                text = (EXAMPLES / text).read_text(errors="replace")
            for old, new in zip(changes[::2], changes[1::2]):
                text = text.replace(old, new, 1)
            found.append((verb, text, told))
    return found


# ---- Counts made from a networkx embedding alone


def straight(embedding: Any, before: Any, node: Any) -> Any:
    """The neighbour of a dummy node that lies opposite to the one we come from."""
    around = list(embedding.neighbors_cw_order(node))
    return around[(around.index(before) + len(around) // 2) % len(around)]


def traced(embedding: Any) -> list[tuple[Any, ...]]:
    """The edges of a graph, read off its planarization: each is walked from a node that is no dummy straight through
    the dummies to the next that is none. Each edge stands there once from either end, with the dummies on it."""
    walks = []
    for node in embedding:
        if embedding.nodes[node]["dummy"]:
            continue
        for following in embedding.neighbors_cw_order(node):
            walk = [node, following]
            while embedding.nodes[walk[-1]]["dummy"]:
                walk.append(straight(embedding, walk[-2], walk[-1]))
            walks.append(tuple(walk))
    return walks


def pairs_of(walks: list[tuple[Any, ...]]) -> dict[frozenset, int]:
    """How often each pair of nodes is joined, when every edge is walked from both ends."""
    counts: dict[frozenset, int] = {}
    for walk in walks:
        pair = frozenset((walk[0], walk[-1]))
        counts[pair] = counts.get(pair, 0) + 1
    return {pair: count // 2 for pair, count in counts.items()}


def graph_pairs(graph: Any) -> dict[frozenset, int]:
    """How often each pair of nodes is joined in a graph."""
    counts: dict[frozenset, int] = {}
    for edge in graph.edges():
        counts[frozenset(edge)] = counts.get(frozenset(edge), 0) + 1
    return counts


def crossings_of(embedding: Any) -> int:
    """How many dummies have four neighbours."""
    return sum(1 for node in embedding if embedding.nodes[node]["dummy"] and embedding.degree(node) == 8)


def euler(embedding: Any) -> int:
    """Nodes - edges + faces of an embedding, by walks round its faces that networkx makes."""
    seen: set = set()
    faces = 0
    for u, v in embedding.edges():
        if (u, v) not in seen:
            embedding.traverse_face(u, v, mark_half_edges=seen)
            faces += 1
    return len(embedding) - embedding.number_of_edges() // 2 + faces
