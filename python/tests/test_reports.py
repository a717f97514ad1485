"""Reports: read and written byte for byte as the program writes them."""

import json
import unittest

from fezdrok import Dart, Deleted, Grow, Grown, Inserted, Limits, Picture, Refused, Report

from .support import EXAMPLES, example_reports, report_files


def read(name: str) -> Report:
    return Report.from_text((EXAMPLES / f"{name}.report.json").read_text())


class Reports(unittest.TestCase):
    def test_every_example_is_written_as_it_was(self):
        self.assertGreater(len(report_files()), 20)
        for path in report_files():
            with self.subTest(path.name):
                self.assertEqual(Report.from_text(path.read_text()).to_text() + "\n", path.read_text())

    def test_replies_have_their_form(self):
        replies = [reply for path in example_reports() for reply in Report.from_text(path.read_text()).replies]
        self.assertEqual({type(reply) for reply in replies}, {Grown, Inserted, Deleted, Refused})

    def test_a_growth(self):
        report = read("first_run")
        self.assertEqual(report.history[0].call, Grow(1, 0, 0))
        self.assertEqual(report.replies, (Grown(2, 1), Grown(3, 2)))
        self.assertEqual(report.limits, Limits())

    def test_a_route(self):
        (reply,) = read("round_an_edge_that_must_not_be_crossed").replies
        self.assertEqual(reply, Inserted(9, (Dart(0, 0, True),), 1, 0, 5))

    def test_a_cut_has_its_segment(self):
        refused = read("an_edge_that_holds_the_picture_together").refused
        self.assertTrue(refused)
        self.assertTrue(all(entry.reply.name == "Cut" and entry.reply.segment is not None for entry in refused))

    def test_pictures_are_written_as_they_were(self):
        text = (EXAMPLES / "bipyramid.json").read_text()
        self.assertEqual(json.loads(Picture.from_json(json.loads(text)).to_text()), json.loads(text))


if __name__ == "__main__":
    unittest.main()
