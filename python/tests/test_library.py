"""The library: where it is found, and that texts and sessions have the same answers in this process as over one of the
program."""

import os
import random
import shutil
import subprocess
import sys
import tempfile
import unittest
from pathlib import Path
from unittest import mock

from fezdrok import (
    Fault, MemoryFault, PlanarError, Program, ProgramNotFound, Session, SessionClosed, SessionInUse, find_program,
)
from fezdrok.engine import library, program as program_module
from fezdrok.engine.library import VARIABLE
from fezdrok.engine.pictures import json_text

from .support import example_rows, fake, in_process, needs_library, needs_program
from .test_session import some_calls

#: A session that has room for little more than it has, then for more again.
LITTLE_ROOM = """
import resource
from fezdrok import MemoryFault, Session
from fezdrok.engine.pictures import json_text
with Session(prices=[3]) as session:
    for vertex in range(9000):
        session.grow(vertex)
    line = json_text({"open": {"version": 1, "start": session.picture().to_json()}})
    session.open(prices=[5])
    session.grow(0)
    size = int(open("/proc/self/statm").read().split()[0]) * resource.getpagesize()
    least, most = resource.getrlimit(resource.RLIMIT_AS)
    resource.setrlimit(resource.RLIMIT_AS, (size + 2_000_000, most))
    try:
        session.answers([line])
    except MemoryFault as fault:
        print(fault)
    print(session.grow(1), session.undo(), session.edge(1).price)
    resource.setrlimit(resource.RLIMIT_AS, (least, most))
    print(session.answers([line])[0][-16:], session.is_closed)
"""


def answered(session: Session, call: str, words: list[int]) -> object:
    """What a call of a session is answered, or the words of its fault."""
    try:
        return getattr(session, call)(*words)
    except Fault as fault:
        return fault.words


class Finding(unittest.TestCase):
    def setUp(self):
        folder = tempfile.TemporaryDirectory()
        self.addCleanup(folder.cleanup)
        self.top = Path(folder.name)
        self.program = self.top / "bin" / "planar"
        self.program.parent.mkdir()
        self.program.write_text("#!/bin/sh\n")
        self.program.chmod(0o755)
        patch = mock.patch.dict(os.environ, {VARIABLE: ""})
        patch.start()
        self.addCleanup(patch.stop)

    def put(self, place: str) -> str:
        """A copy of the library in this place."""
        path = self.top / place / library.NAME
        path.parent.mkdir(exist_ok=True)
        shutil.copy(in_process().path, path)
        return os.fspath(path)

    def found(self) -> str | None:
        program_module._libraries.clear()
        library = Program(self.program).library
        return library and library.path

    @needs_library
    def test_each_place_in_order(self):
        self.assertIsNone(self.found())
        for place in ("lib", "bin", "elsewhere"):
            path = self.put(place)
            os.environ[VARIABLE] = path if place == "elsewhere" else ""
            self.assertEqual(self.found(), path)
            self.assertEqual(Program("/nowhere/planar").library, Program().library) if place == "elsewhere" else None

    def test_what_is_no_library(self):
        """Beside the program it is passed over, and the session is a process; where it is named, it is an error."""
        for text in (None, b"", b"no library"):
            path = self.program.parent / library.NAME
            if text is not None:
                path.write_bytes(text)
            self.assertIsNone(self.found())
            with mock.patch.dict(os.environ, {VARIABLE: os.fspath(path)}):
                with self.assertRaisesRegex(ProgramNotFound, f"{VARIABLE} \\({path}\\)"):
                    Session(program=self.program)
        with self.assertRaises(PlanarError):
            Session(program=fake(self, "exit 0"))

    @unittest.skipUnless(shutil.which("cc"), "left out: there is no C compiler")
    def test_a_library_without_a_function(self):
        path = self.program.parent / library.NAME
        subprocess.run(
            ["cc", "-shared", "-x", "c", "-", "-o", path], input=b"int fezdrok_open(void) { return 0; }", check=True
        )
        self.assertIsNone(self.found())

    @needs_library
    def test_a_process_where_it_is_wanted(self):
        with Session(process=True) as session, Session() as other:
            self.assertIsNone(other.process_id)
            self.assertIsNotNone(session.process_id)
            self.assertEqual(session.counts(), other.counts())


@needs_library
class SameAnswers(unittest.TestCase):
    def test_a_long_session(self):
        """2,000 calls and questions, byte for byte."""
        lines = []
        for call in some_calls(2000, 5):
            lines.append(json_text(call))
        for place in range(100, 2000, 100):
            lines[place] = ('"counts"', '"picture"', '["undo",3]', '["vertex",1]', '["edge",0]', '["route",0,1]')[
                place // 100 % 6
            ]
        lines[1500], lines[-1] = '"forget"', '"report"'
        with Session() as here, Session(process=True) as there:
            self.assertEqual((here.process_id, len(lines)), (None, 2000))
            self.assertEqual(here.answers(lines), there.answers(lines))
            self.assertGreater(there.counts().crossings, 10)

    def test_calls_by_methods(self):
        """2,000 random calls and questions have the same answers, here without a text; and numbers of no form the same
        faults."""
        chance = random.Random(6)
        with Session(prices=[2, None]) as here, Session(prices=[2, None], process=True) as there:
            for place, (name, *numbers) in enumerate(some_calls(2000, 6)):
                asked = chance.choice((("route", 12, 12), ("edge", 900), ("vertex", 13), ("counts",), ("undo", 3)))
                some = asked[0], *(chance.randrange(bound) for bound in asked[1:])
                for call, *words in ((name, *numbers), some, ("edge", -place), ("undo", 2**32 + place))[: 2 + place % 3]:
                    here.caller = there.caller = place % 17
                    self.assertEqual(answered(here, call, words), answered(there, call, words), (call, words))
            self.assertEqual(here.report(), there.report())
            self.assertGreater(here.counts().crossings, 0)

    def test_judgements(self):
        """Each example of a picture and of a report, and faults whose line is long."""
        with tempfile.TemporaryDirectory() as folder:
            alone = Path(folder) / "planar"
            alone.symlink_to(os.path.abspath(find_program()))
            here, there = Program(), Program(alone)
            self.assertIsNone(there.library)
            texts = [(verb, text) for verb, text, _ in example_rows() if verb in ("check", "replay")][::3]
            deep = '{"crossings":[' * 40 + "]}" * 40
            for verb, text in [*texts, ("check", deep), ("check", ""), ("replay", "é\0"), ("check", " " * 500_000)]:
                told = []
                for program in (here, there):
                    try:
                        told.append(getattr(program, verb)(text))
                    except Fault as fault:
                        told.append(fault.words)
                self.assertEqual(told[0], told[1], text[:200])
        self.assertGreater(len(texts), 50)

    def test_a_line_that_needs_more_room(self):
        """It is tried again where there is none, as for a fault at a deep path."""
        judge = Program().library.judge
        with mock.patch.object(library, "_ROOM", 1):
            self.assertEqual(judge("check", b"{}")[0], 1)
            self.assertTrue(judge("check", b"{}")[1].startswith("planar: 52 BadShape"))


@needs_library
class OutOfMemory(unittest.TestCase):
    def test_a_judgement(self):
        with mock.patch.object(library.Library, "judge", return_value=(3, "planar: 8 Memory\n")):
            with self.assertRaises(MemoryFault):
                Program().check("{}")

    @unittest.skipUnless(sys.platform == "linux", "left out: there is no /proc")
    def test_the_session_goes_on(self):
        words = {**os.environ, "PYTHONPATH": os.pathsep.join(sys.path)}
        done = subprocess.run([sys.executable, "-c", LITTLE_ROOM], env=words, capture_output=True, text=True)
        undone = "Undone(undone=1, vertices=3, next_edge=2, next_crossing=0)"
        due = f'8 Memory\nGrown(vertex=3, edge=2) {undone} 5\n"vertices":9002}} False\n'
        self.assertEqual((done.stdout, done.stderr), (due, ""))

    def test_limits_and_prices_are_those_of_the_report(self):
        """Where the answer to an opening is lost, it may have been carried out."""
        with Session(prices=[3]) as session:
            for is_done, due in ((False, (3,)), (True, (5, 7))):
                answer = session._answerer.answer

                def lost(line, is_done=is_done, answer=answer):
                    _ = answer(line) if is_done else None
                    raise MemoryFault(8, "Memory")

                with mock.patch.object(session._answerer, "answer", lost), self.assertRaises(MemoryFault):
                    session.open(prices=[5, 7])
                self.assertEqual(session.prices, due)


@needs_program
class Statuses(unittest.TestCase):
    def test_wrong_use(self):
        """What the library says of a session that is over or in use becomes an exception."""
        for status, kind in ((3, MemoryFault), (5, SessionClosed), (6, SessionInUse)):
            self.assertIs(type(library._failure(status)), kind)


if __name__ == "__main__":
    unittest.main()
