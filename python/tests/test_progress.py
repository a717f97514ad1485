"""The line on the terminal, and the time that is given."""

import io
import unittest

from fezdrok import Progress
from fezdrok.search.progress import Clock, ProgressLine, line_ended, progress_function


class ProgressLines(unittest.TestCase):
    def test_a_line(self):
        times = iter([0.0, 0.0, 0.0, 0.05, 0.2, 0.2, 0.21, 0.21])
        stream = io.StringIO()
        line = ProgressLine(stream, clock=lambda: next(times))
        line(Progress("round 12", 1, 4, 123, None, 0.5))
        line(Progress("round 13", 1, 4, 120, None, 0.6))
        line(Progress("shakes", 4, 4, 7, 8, 0.7))
        line(Progress("done", 4, 4, 7, 7, 0.8))
        written = stream.getvalue().split("\r")
        self.assertEqual(written[1:2], ["search 1 of 4, round 12: 123 crossings, best none yet, 0.5 s"])
        self.assertEqual(len(written[2]), len(written[1]))
        self.assertEqual(written[2].rstrip(), "search 4 of 4, shakes: 7 crossings, best 8, 0.7 s")
        self.assertEqual(len(written), 4)
        self.assertTrue(written[3].endswith("\n"))

    def test_a_line_ends_once(self):
        stream = io.StringIO()
        line = ProgressLine(stream, clock=lambda: 0.0)
        with self.assertRaises(KeyboardInterrupt), line_ended(line):
            line(Progress("round 12", 1, 4, 123, None, 0.5))
            raise KeyboardInterrupt
        self.assertEqual(stream.getvalue().count("\n"), 1)
        line(Progress("done", 4, 4, 7, 7, 0.8))
        with line_ended(line), line_ended(print):
            pass
        self.assertEqual(stream.getvalue().count("\n"), 2)

    def test_what_is_told(self):
        self.assertIs(progress_function(print), print)
        self.assertIsNone(progress_function(None)(Progress("done", 1, 1, 0, 0, 0.0)))
        self.assertIsInstance(progress_function(True), ProgressLine)
        with self.assertRaisesRegex(ValueError, "progress is 'yes'"):
            progress_function("yes")


class Clocks(unittest.TestCase):
    def test_time(self):
        self.assertFalse(Clock().is_over or Clock(1000).is_over)
        self.assertTrue(Clock(0).is_over and Clock(0).is_late)
        self.assertFalse(Clock().is_late or Clock(1000).is_late)
        self.assertGreaterEqual(Clock().spent, 0)


if __name__ == "__main__":
    unittest.main()
