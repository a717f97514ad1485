"""The program as a process: what it does with streams that are closed, full or broken, and with words that are no
text."""

import json
import os
import resource
import subprocess
import unittest
from typing import Any

from fezdrok import find_program

from .support import EXAMPLES, needs_program

SCRIPT = (EXAMPLES / "across_the_cheap_side.json").read_bytes()


@needs_program
class Streams(unittest.TestCase):
    def ended(self, words: tuple[Any, ...], **streams: Any) -> tuple[int, str]:
        """The status of a run, and what is on standard error. A run that does not end within a minute fails."""
        done = subprocess.run([find_program(), *words], stderr=subprocess.PIPE, timeout=60, **streams)
        return done.returncode, done.stderr.decode()

    def test_output_that_nobody_reads(self):
        reading, writing = os.pipe()
        os.close(reading)
        with os.fdopen(writing, "wb") as output:
            self.assertEqual(self.ended(("run",), input=SCRIPT, stdout=output), (1, "planar: 56 WriteFault\n"))

    @unittest.skipUnless(os.path.exists("/dev/full"), "left out: there is no /dev/full")
    def test_full_device(self):
        with open("/dev/full", "wb") as output:
            self.assertEqual(self.ended(("run",), input=SCRIPT, stdout=output), (1, "planar: 56 WriteFault\n"))

    def test_empty_input(self):
        self.assertEqual(
            self.ended(("run",), stdin=subprocess.DEVNULL, stdout=subprocess.PIPE), (1, "planar: 50 NotJson\n")
        )

    def test_closed_input(self):
        status, told = self.ended(("run",), stdout=subprocess.PIPE, preexec_fn=lambda: os.close(0))
        self.assertEqual((status, told), (1, "planar: 55 ReadFault\n"))

    def test_closed_output(self):
        self.assertEqual(
            self.ended(("run",), input=SCRIPT, preexec_fn=lambda: os.close(1)), (1, "planar: 56 WriteFault\n")
        )

    def test_little_memory(self):
        """With less and less memory a run has its report or none, and then says why; its output is never a part."""
        workers = [[["grow", place % 2, 0, 0] for place in range(2000)] for _ in range(4)]
        script = json.dumps({"version": 1, "workers": workers}).encode()
        ends = set()
        for kibibytes in range(200_000, 4_000, -4_000):
            limit = kibibytes * 1024
            done = subprocess.run(
                [find_program(), "run"],
                input=script,
                stdout=subprocess.PIPE,
                stderr=subprocess.PIPE,
                timeout=60,
                preexec_fn=lambda: resource.setrlimit(resource.RLIMIT_AS, (limit, limit)),
            )
            ends.add(done.returncode)
            if done.returncode == 0:
                self.assertEqual(len(json.loads(done.stdout)["history"]), 8000)
            elif done.returncode == 3:
                self.assertEqual((done.stdout, done.stderr), (b"", b"planar: 8 Memory\n"))
            else:
                self.assertEqual((done.returncode in (127, -11, -9, -6), done.stdout), (True, b""))   # it was not begun
        self.assertTrue({0, 3} <= ends, ends)

    def test_input_that_is_a_folder(self):
        folder = os.open("/", os.O_RDONLY)
        self.addCleanup(os.close, folder)
        self.assertEqual(self.ended(("check",), stdin=folder, stdout=subprocess.PIPE), (1, "planar: 55 ReadFault\n"))

    def test_words_that_are_no_text(self):
        status, told = self.ended((b"\xff",), stdin=subprocess.DEVNULL, stdout=subprocess.PIPE)
        self.assertEqual((status, told), (2, "planar: the words of the command line are not UTF-8\n"))

    def test_words_that_are_refused(self):
        for words in ((), ("walk",), ("run", "--fast"), ("run", "file.json")):
            status, told = self.ended(words, stdin=subprocess.DEVNULL, stdout=subprocess.PIPE)
            self.assertEqual(status, 2, words)
            self.assertIn("Usage: planar", told)


if __name__ == "__main__":
    unittest.main()
