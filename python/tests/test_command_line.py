"""`fezdrok lines`: a line of answer for each line."""

import io
import json
import os
import subprocess
import sys
import unittest
from pathlib import Path
from unittest import mock

from fezdrok import Planarizer
from fezdrok.__main__ import main

from .support import EXAMPLES, fake, needs_program


ENVIRONMENT = {**os.environ, "PYTHONPATH": str(Path(__file__).resolve().parent.parent)}


class CommandLine(unittest.TestCase):
    def answers(self, text, *words):
        target = io.StringIO()
        status = main(["lines", *words], io.BytesIO(text if isinstance(text, bytes) else text.encode()), target)
        return status, target.getvalue().splitlines()

    def test_failures_have_a_line_too(self):
        status, lines = self.answers(
            "{}\n{}\n", "--program", fake(self, "echo 'planar: 52 BadShape $/version' >&2; exit 1")
        )
        self.assertEqual((status, lines), (1, ['{"fault":[52,"BadShape","$/version"]}'] * 2))
        _, lines = self.answers("{}\n", "--program", fake(self, "echo 'planar: 40 Mismatch 2 15' >&2; exit 1"))
        self.assertEqual(lines, ['{"fault":[40,"Mismatch",2,15]}'])
        status, lines = self.answers("{}\n", "--program", fake(self, "exit 70"))
        self.assertEqual((status, [list(json.loads(line)) for line in lines]), (1, [["failed"]]))

    def test_every_report_counts_as_one(self):
        status, lines = self.answers("{}\n", "--program", fake(self, "cat > /dev/null; echo '{\"version\":1}'"))
        self.assertEqual((status, lines), (0, ['{"version":1}']))

    def test_no_program(self):
        with mock.patch("sys.stderr", io.StringIO()) as stream, self.assertRaises(SystemExit) as caught:
            self.answers("", "--program", "/nowhere/planar")
        self.assertEqual(caught.exception.code, 2)
        self.assertIn("/nowhere/planar", stream.getvalue())

    @needs_program
    def test_reports_in_order(self):
        report = Planarizer().run()
        first = (EXAMPLES / "first_run.json").read_text().strip()
        status, lines = self.answers(first + "\n\n" + Planarizer().script_text() + "\n")
        expected = (EXAMPLES / "first_run.report.json").read_text().strip()
        self.assertEqual(lines, [expected, '{"fault":[50,"NotJson"]}', report.to_text()])
        self.assertEqual(status, 1)

    @needs_program
    def test_a_line_that_is_no_utf8(self):
        script = Planarizer().script_text().encode()
        status, lines = self.answers(script + b"\n\xff\xfe{}\n" + script + b"\r\n\x00\n" + script)
        report = Planarizer().run().to_text()
        self.assertEqual(lines, [report, '{"fault":[50,"NotJson"]}', report, '{"fault":[50,"NotJson"]}', report])
        self.assertEqual(status, 1)

    @needs_program
    def test_as_a_program(self):
        text = Planarizer().script_text() + "\n"
        done = subprocess.run(
            [sys.executable, "-m", "fezdrok", "lines"], input=text * 2, capture_output=True, text=True, env=ENVIRONMENT
        )
        self.assertEqual((done.returncode, done.stdout), (0, (Planarizer().run().to_text() + "\n") * 2))

    def test_a_closed_pipe_ends_it_quietly(self):
        words = [sys.executable, "-m", "fezdrok", "lines", "--program", fake(self, "cat > /dev/null; echo '{\"history\":[]}'")]
        reader, writer = os.pipe()
        os.close(reader)
        with os.fdopen(writer, "wb") as closed:
            done = subprocess.run(words, input=b"{}\n" * 3, stdout=closed, stderr=subprocess.PIPE, env=ENVIRONMENT)
        self.assertEqual((done.returncode, done.stderr), (141, b""))


if __name__ == "__main__":
    unittest.main()
