"""The types of the package, which mypy judges where it is installed."""

import shutil
import subprocess
import tempfile
import unittest
from pathlib import Path

PACKAGE = Path(__file__).resolve().parent.parent / "fezdrok"


@unittest.skipUnless(shutil.which("mypy"), "left out: mypy is not there")
class Types(unittest.TestCase):
    def test_strictly(self):
        with tempfile.TemporaryDirectory() as cache:
            options = ["--strict", "--ignore-missing-imports", "--python-version", "3.10", "--cache-dir", cache]
            done = subprocess.run(["mypy", *options, PACKAGE], capture_output=True, text=True)
        self.assertEqual((done.returncode, done.stderr), (0, ""), done.stdout)
        self.assertRegex(done.stdout, r"\ASuccess: no issues found in \d+ source files\n\Z")


if __name__ == "__main__":
    unittest.main()
