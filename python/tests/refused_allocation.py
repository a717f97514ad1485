"""Runs of the program of which one allocation is refused."""

import os
import shutil
import subprocess
import tempfile
import unittest
from pathlib import Path

from fezdrok import find_program

from .support import ROOT, needs_program

REFUSED = b"an allocation was refused\n"


@needs_program
@unittest.skipUnless(shutil.which("cc"), "left out: there is no C compiler")
class RefusedAllocationTest(unittest.TestCase):
    """A test with such runs. What refuses the allocation is a library that is loaded before that of C."""

    @classmethod
    def setUpClass(cls) -> None:
        folder = tempfile.TemporaryDirectory()
        cls.addClassCleanup(folder.cleanup)
        cls.library = os.fspath(Path(folder.name) / "refuse_allocation.so")
        subprocess.run(
            ["cc", "-shared", "-fPIC", "-O2", "-o", cls.library, ROOT / ".ci" / "refuse_allocation.c"], check=True
        )

    def run_refusing(self, verb: str, text: bytes, number: int) -> tuple[int, bytes, bytes, bool]:
        """Runs a command that is refused its allocation of this number, or none where that is 0. Returns its status and
        output, what it told, and whether it came to that allocation."""
        environment = {"LD_PRELOAD": self.library, "REFUSED_ALLOCATION": str(number)}
        done = subprocess.run([find_program(), verb], input=text, capture_output=True, timeout=60, env=environment)
        is_refused = done.stderr.startswith(REFUSED)
        return done.returncode, done.stdout, done.stderr[len(REFUSED) if is_refused else 0 :], is_refused
