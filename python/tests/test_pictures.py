"""Pictures: darts, turns, faces and counts by the definitions, without the program."""

import json
import unittest
from dataclasses import replace

from fezdrok import Crossing, Dart, Edge, Picture, Point, Report
from fezdrok.engine.pictures import json_text

from .support import EXAMPLES, example_reports


def bipyramid() -> Picture:
    return Picture.from_json(json.loads((EXAMPLES / "bipyramid.json").read_text()))


def cross() -> Picture:
    """Two edges that only their crossing joins."""
    edges = (Edge(0, 0, 1, 0, (0,)), Edge(1, 2, 3, 0, (0,)))
    return Picture(((0,), (0,), (1,), (1,)), edges, (Crossing(0, 0, 1, "ltr"),), 2, 1)


def joined_apexes(sign: str) -> Picture:
    """The bipyramid with an edge between its apexes across the edge 2."""
    start = bipyramid()
    edges = [replace(row, crossings=(0,)) if row.id == 2 else row for row in start.edges]
    rotations = ((0, 3, 2, 6), (0, 7, 1, 4), (1, 8, 2, 5), (3, 4, 5, 9), (6, 9, 8, 7))
    return Picture(rotations, (*edges, Edge(9, 3, 4, 0, (0,))), (Crossing(0, 2, 9, sign),), 10, 1)


class Texts(unittest.TestCase):
    def test_the_form(self):
        """Also of rows that are of no picture, which the program is to judge."""
        pictures = [Report.from_text(it.read_text()).picture for it in example_reports()]
        pictures += [cross(), joined_apexes("rtl")]
        for value in (1023, 1024, -1, 2**70, 1.5, None, "x\n", [1]):
            for name in ("id", "a", "b", "kind"):
                row = replace(Edge(0, 0, 1, 0, (0,)), **{name: value})
                pictures.append(replace(cross(), edges=(row,)))
            pictures += [replace(cross(), next_edge=value), replace(cross(), next_crossing=value)]
            pictures += [replace(cross(), rotations=((value,),)), replace(cross(), rotations=((), (value,) * 40))]
            pictures.append(replace(cross(), crossings=(Crossing(0, 0, 1, value),)))
        wide = Edge(1999, 1024, 1500, 2000, (1024, 1999))
        pictures.append(replace(cross(), edges=(wide,), rotations=((1999,) * 40,), next_edge=2000, next_crossing=2000))
        for picture in pictures:
            self.assertEqual(picture.to_text(), json_text(picture.to_json()))


class Darts(unittest.TestCase):
    def test_order_is_by_edge_segment_and_way(self):
        self.assertEqual(list(cross().darts), sorted(cross().darts))
        self.assertLess(Dart(0, 1, False), Dart(0, 1, True))
        self.assertLess(Dart(0, 1, True), Dart(1, 0, False))

    def test_twins(self):
        self.assertEqual(Dart(3, 1).twin, Dart(3, 1, True))
        self.assertEqual(Dart.from_json([3, 1, "back"]), Dart(3, 1, True))
        self.assertEqual(Dart(3, 1, True).to_json(), [3, 1, "back"])

    def test_starts_and_ends(self):
        picture = cross()
        self.assertEqual(picture.start(Dart(0, 0)), Point(False, 0))
        self.assertEqual(picture.end(Dart(0, 0)), Point(True, 0))
        self.assertEqual(picture.start(Dart(0, 1)), Point(True, 0))
        self.assertEqual(picture.start(Dart(0, 1, True)), Point(False, 1))

    def test_round_a_crossing_by_its_sign(self):
        forward, newcomer, back, newcomer_back = cross().around(Point(True, 0))
        self.assertEqual(
            (forward, newcomer, back, newcomer_back), (Dart(0, 1), Dart(1, 1), Dart(0, 0, True), Dart(1, 0, True))
        )
        mirrored = replace(cross(), crossings=(Crossing(0, 0, 1, "rtl"),))
        self.assertEqual(mirrored.around(Point(True, 0)), (forward, newcomer_back, back, newcomer))


class Faces(unittest.TestCase):
    def test_seed(self):
        self.assertEqual(Picture.seed().faces, ((Dart(0, 0), Dart(0, 0, True)),))
        self.assertEqual(Picture.seed().counts, (2, 0, 1, 1, 1))

    def test_bipyramid(self):
        self.assertEqual(bipyramid().counts, (5, 0, 9, 9, 6))
        self.assertEqual({len(face) for face in bipyramid().faces}, {3})

    def test_joined_apexes(self):
        self.assertEqual(sorted(joined_apexes(sign).counts.faces for sign in ("ltr", "rtl")), [6, 8])
        lawful = max((joined_apexes(sign) for sign in ("ltr", "rtl")), key=lambda picture: picture.counts.faces)
        self.assertEqual(lawful.counts, (5, 1, 10, 12, 8))
        self.assertEqual(lawful.counts.euler, 2)

    def test_corner_lies_in_the_face_of_its_dart(self):
        picture = bipyramid()
        self.assertEqual(picture.corner(3, 0), Dart(3, 0))
        self.assertIn(Dart(3, 0), picture.face(picture.corner(3, 0)))

    def test_pictures_of_the_examples(self):
        for path in example_reports():
            report = Report.from_text(path.read_text())
            for picture in (report.start, report.picture):
                with self.subTest(path.name):
                    self.judge(picture)

    def judge(self, picture: Picture):
        darts = list(picture.darts)
        self.assertEqual(sorted(picture.turn(dart) for dart in darts), darts)
        self.assertEqual(sorted(dart for face in picture.faces for dart in face), darts)
        self.assertEqual(picture.counts.euler, 2)
        for dart in darts:
            self.assertEqual(picture.start(picture.turn(dart)), picture.start(dart))
            self.assertEqual(picture.start(picture.face_step(dart)), picture.end(dart))


if __name__ == "__main__":
    unittest.main()
