"""Commands run by the program: reports, refusals, replays, checks and faults."""

import json
import unittest
from dataclasses import replace

from fezdrok import Counts, Deleted, Fault, Grown, Inserted, Limits, Picture, Planarizer, Program, Refused, Report

from .support import EXAMPLES, example_reports, example_scripts, fake, needs_program


class Scripts(unittest.TestCase):
    """What is sent to the program, without the program."""

    def test_nothing_but_commands(self):
        planarizer = Planarizer()
        self.assertEqual(
            [planarizer.grow(1), planarizer.insert(0, 2), planarizer.planned(0, 2, 3), planarizer.delete(0)],
            [0, 1, 2, 3],
        )
        expected = '{"version":1,"workers":[[["grow",1,0,0],["insert",0,2,0],["planned",0,2,3],["delete",0]]]}'
        self.assertEqual(planarizer.script_text(), expected)

    def test_a_price_that_forbids_asks_for_version_2(self):
        self.assertEqual(Planarizer(prices=[1, None]).script()["version"], 2)
        self.assertEqual(Planarizer(prices=[1, 2]).script()["version"], 1)

    def test_limits_and_start(self):
        script = Planarizer(start=Picture.seed(), limits=Limits(3, 4, 5)).script()
        self.assertEqual(script["limits"], {"vertices": 3, "edges": 4, "crossings": 5})
        self.assertEqual(Picture.from_json(script["start"]), Picture.seed())

    def test_a_number_that_is_not_whole_is_no_command(self):
        with self.assertRaises(TypeError):
            Planarizer().grow(1.5)

    def test_an_answer_in_another_form_is_a_failure(self):
        with self.assertRaisesRegex(Exception, "hello"):
            Planarizer(program=fake(self, "echo hello")).check(Picture.seed())


@needs_program
class Runs(unittest.TestCase):
    def test_growth_insertion_deletion(self):
        planarizer = Planarizer()
        for call in (lambda: planarizer.grow(1), lambda: planarizer.insert(0, 2, 3), lambda: planarizer.delete(0)):
            call()
        report = planarizer.run()
        self.assertEqual([type(reply) for reply in report.replies], [Grown, Inserted, Deleted])
        self.assertEqual(report.picture.counts, Counts(3, 0, 2, 2, 1))
        self.assertEqual(planarizer.run(), report)

    def test_refused_calls_are_replies(self):
        planarizer = Planarizer()
        planarizer.insert(0, 0)
        planarizer.delete(0)
        planarizer.grow(7)
        report = planarizer.run()
        self.assertEqual(report.replies, (Refused(2, "SameEnds"), Refused(6, "Cut", 0), Refused(1, "NoVertex")))
        self.assertEqual(len(report.refused), 3)
        self.assertEqual(report.picture, Picture.seed())

    def test_a_price_that_forbids(self):
        start = Picture.from_json(json.loads((EXAMPLES / "bipyramid.json").read_text()))
        planarizer = Planarizer(start=start, prices=[1, None, None, None])
        planarizer.insert(3, 4)
        self.assertEqual(planarizer.run().replies, (Refused(9, "NoRoute"),))

    def test_every_example(self):
        program = Program()
        for path in example_scripts():
            with self.subTest(path.name):
                self.assertEqual(program.run(path.read_text()), path.with_suffix(".report.json").read_text())

    def test_replays(self):
        for path in example_reports():
            with self.subTest(path.name):
                report = Report.from_text(path.read_text())
                self.assertEqual(Planarizer().replay(report), len(report.history))

    def test_a_report_that_is_not_true(self):
        planarizer = Planarizer()
        planarizer.grow(0)
        report = planarizer.run()
        entry = replace(report.history[0], reply=Grown(2, 5))
        with self.assertRaises(Fault) as caught:
            planarizer.replay(replace(report, history=(entry,)))
        self.assertEqual(
            (caught.exception.number, caught.exception.name, caught.exception.value), (60, "WrongReply", 0)
        )
        with self.assertRaisesRegex(Fault, "61 WrongPicture"):
            planarizer.replay(replace(report, picture=Picture.seed()))

    def test_checks_count_as_python_does(self):
        for path in example_reports():
            picture = Report.from_text(path.read_text()).picture
            with self.subTest(path.name):
                self.assertEqual(Planarizer().check(picture), picture.counts)

    def test_a_picture_that_is_not_lawful(self):
        mirrored = Picture.from_json(json.loads((EXAMPLES / "bipyramid.json").read_text()))
        first = mirrored.rotations[0]
        mirrored = replace(mirrored, rotations=((first[0], *reversed(first[1:])), *mirrored.rotations[1:]))
        self.assertNotEqual(mirrored.counts.euler, 2)
        with self.assertRaises(Fault) as caught:
            Planarizer().check(mirrored)
        self.assertEqual((caught.exception.number, caught.exception.name), (25, "NotPlanar"))

    def test_faults_of_scripts(self):
        for prices, limits, fault in (
            ([0], None, "10 BadPrice 0"),
            (None, Limits(1, 1, 1), "11 BadLimits"),
            ([-1], None, r"54 BadNumber \$/prices/0"),
        ):
            with self.subTest(fault), self.assertRaisesRegex(Fault, fault):
                Planarizer(prices=prices, limits=limits).run()

    def test_a_script_that_is_too_long(self):
        planarizer = Planarizer()
        for _ in range(80_000):
            planarizer.grow(0)
        with self.assertRaisesRegex(Fault, "51 TooLong"):
            planarizer.run()


if __name__ == "__main__":
    unittest.main()
