"""Signals in the middle of long runs: what is found so far is given, and no process outlives the one that began it.

Each test has a Python in a session of its own, and sends signals to that one alone, or to its group. Programs are shell
scripts that go on for longer than a test waits.
"""

import os
import signal
import subprocess
import sys
import tempfile
import time
import unittest
from pathlib import Path

from fezdrok import find_program
from fezdrok.engine import processes

from .support import ROOT, fake, needs_program

#: How many seconds a test waits for what takes a moment where processors are free.
LIMIT = 120.0
LAWFUL = "lawful vertices=2 crossings=0 edges=1 segments=1 faces=1"
KINDS = (signal.SIGINT, signal.SIGTERM, signal.SIGKILL)

#: What each Python does first: Ctrl-C is there, also where the tests run without it, as behind `&` in a shell.
BEGIN = """
import signal, sys
signal.signal(signal.SIGINT, signal.default_int_handler)
program = sys.argv[1]
"""
ONE = """
import networkx as nx
from fezdrok import planarize
planarize(nx.complete_graph(4), program=program)
"""
MANY = """
import multiprocessing
import networkx as nx
from fezdrok import planarize_many
if __name__ == "__main__":
    multiprocessing.set_start_method(sys.argv[2])
    planarize_many([nx.path_graph(2)] * 40, processes=2, program=program)
"""
SESSION = """
from pathlib import Path
from fezdrok import Session
with Session(program=program, process=True) as session:
    Path(sys.argv[2]).write_text(f"{session.process_id}\\n")
    while True:
        session.insert(0, 0)
"""
KEPT = """
import networkx as nx
from fezdrok import planarize
print(planarize(nx.petersen_graph(), tries=100, program=program).crossings >= 2)
"""
SOME = """
import networkx as nx
from fezdrok import planarize_many
if __name__ == "__main__":
    outcomes = planarize_many([nx.path_graph(3)] * 20, processes=1, program=program)
    print(len(outcomes), type(outcomes[0]).__name__, type(outcomes[-1]).__name__)
"""


def fields(process: int) -> list[str]:
    """The state of a process, the numbers of its parent, its group and its session, and more; of none that it has
    ended."""
    try:
        return Path(f"/proc/{process}/stat").read_text().rpartition(")")[2].split()
    except OSError:
        return ["X"] * 4


def has_ended(process: int) -> bool:
    """Whether a process has ended, whoever is to wait for it."""
    return fields(process)[0] in "ZX"


def session_of(leader: int) -> list[int]:
    """The processes of a session that have not ended."""
    numbers = [int(name) for name in os.listdir("/proc") if name.isdigit()]
    return [it for it in numbers if fields(it)[3] == str(leader) and not has_ended(it)]


@unittest.skipUnless(sys.platform == "linux", "left out: only Linux ends a process with its parent")
class Signals(unittest.TestCase):
    def setUp(self):
        folder = tempfile.TemporaryDirectory()
        self.addCleanup(folder.cleanup)
        self.folder = Path(folder.name)
        self.noted = self.folder / "noted"

    def sleeping(self, calls: int = 0) -> str:
        """A program that hands on so many calls, and then reads a line, notes its number and sleeps. It accepts every
        picture. If there is no line, since what began it has ended, then it ends, as `planar` does."""
        count = self.folder / "count"
        count.write_text("0")
        hand_on = f'exec {os.path.abspath(find_program())} "$@"' if calls else ":"
        lines = (
            f'[ "$1" != check ] || {{ echo "{LAWFUL}"; exit 0; }}',
            f"n=$(($(cat {count}) + 1)); echo $n > {count}",
            f"[ $n -gt {calls} ] || {hand_on}",
            'read -r line; [ -n "$line" ] || exit 1',
            f"echo $$ >> {self.noted}",
            "exec sleep 600",
        )
        return fake(self, "\n".join(lines))

    def wait_until(self, is_so, why: str):
        end = time.monotonic() + LIMIT
        while not is_so():
            self.assertLess(time.monotonic(), end, why)
            time.sleep(0.02)

    def noted_numbers(self) -> list[int]:
        return [int(line) for line in self.noted.read_text().splitlines()] if self.noted.exists() else []

    def begin(self, text: str, *words: str, count: int = 1) -> "subprocess.Popen[str]":
        """A Python that carries out a text, as soon as so many programs noted their numbers."""
        self.noted.unlink(missing_ok=True)
        file = self.folder / "text.py"
        file.write_text(BEGIN + text)
        environment = {**os.environ, "PYTHONPATH": os.pathsep.join([os.fspath(ROOT / "python"), *sys.path])}
        python = subprocess.Popen(
            [sys.executable, file, *words],
            env=environment,
            stdout=subprocess.PIPE,
            stderr=subprocess.PIPE,
            text=True,
            start_new_session=True,
        )
        self.addCleanup(self.put_away, python)
        self.wait_until(lambda: len(self.noted_numbers()) >= count or has_ended(python.pid), "no program was begun")
        self.assertFalse(has_ended(python.pid), "it ended by itself")
        return python

    def put_away(self, python: "subprocess.Popen[str]"):
        """Ends what is left of a Python and its session. Until it is waited for, nobody else has its number."""
        if python.returncode is None:
            for process in session_of(python.pid):
                os.kill(process, signal.SIGKILL)
        python.communicate()

    def assert_ends(self, python: "subprocess.Popen[str]", status: int) -> str:
        """All that a Python began has ended with it, and it has this status. What it printed."""
        self.wait_until(
            lambda: not session_of(python.pid) and all(map(has_ended, self.noted_numbers())), "a process was left"
        )
        printed, told = python.communicate(timeout=LIMIT)
        self.assertEqual(python.returncode, status, told)
        return printed + told

    def test_one_run(self):
        for number in KINDS:
            with self.subTest(number):
                python = self.begin(ONE, self.sleeping())
                python.send_signal(number)
                self.assert_ends(python, -number)

    def test_a_pool(self):
        """With 40 graphs in the queue, each of which would sleep."""
        for method in ("fork", "spawn", "forkserver"):
            for number in KINDS:
                with self.subTest(method, number=number):
                    python = self.begin(MANY, self.sleeping(), method, count=2)
                    python.send_signal(number)
                    self.assert_ends(python, -number)

    def test_ctrl_c_on_a_terminal(self):
        """It comes to the whole group."""
        for text, words, count in ((ONE, (), 1), (MANY, ("fork",), 2)):
            python = self.begin(text, self.sleeping(), *words, count=count)
            os.killpg(python.pid, signal.SIGINT)
            self.assert_ends(python, -signal.SIGINT)

    @needs_program
    def test_a_session(self):
        for number in KINDS:
            with self.subTest(number):
                python = self.begin(SESSION, os.path.abspath(find_program()), os.fspath(self.noted))
                python.send_signal(number)
                self.assert_ends(python, -number)

    @needs_program
    def test_what_is_found_is_given(self):
        for text, calls, printed, why in (
            (KEPT, 3, "True\n", "PlanarWarning: .*best picture so far is given.*KeyboardInterrupt"),
            (SOME, 6, "20 Planarization Unfinished\n", "PlanarWarning: interrupted when [0-9]+ graphs were done"),
        ):
            with self.subTest(text):
                python = self.begin(text, self.sleeping(calls))
                python.send_signal(signal.SIGINT)
                told = self.assert_ends(python, 0)
                self.assertEqual(told[: len(printed)], printed)
                self.assertRegex(told, why)


class Runs(unittest.TestCase):
    def test_status_and_streams(self):
        for command, due in (("cat; echo told >&2; exit 7", (7, b"text", b"told\n")), ("kill -9 $$", (-9, b"", b""))):
            self.assertEqual(processes.run(["/bin/sh", "-c", command], b"text"), due)

    def test_no_pipe_is_left_open(self):
        before = os.listdir("/dev/fd")
        processes.run(["true"], b"")
        with self.assertRaises(OSError):
            processes.run(["/nowhere/planar"], b"")
        self.assertEqual(os.listdir("/dev/fd"), before)


if __name__ == "__main__":
    unittest.main()
