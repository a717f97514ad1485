"""While a drawing is made no garbage is looked for, and then it is as it was before."""

import gc
import unittest
from threading import Thread
from unittest import mock

import networkx as nx

from fezdrok import drawing_of
from fezdrok.drawing.uncollected import uncollected

from .drawing_support import planar_result


class Uncollected(unittest.TestCase):
    def setUp(self):
        self.addCleanup(gc.enable if gc.isenabled() else gc.disable)
        gc.enable()

    def test_within_one_another(self):
        with uncollected():
            with uncollected():
                self.assertFalse(gc.isenabled())
            self.assertFalse(gc.isenabled())
        self.assertTrue(gc.isenabled())

    def test_one_after_the_other_began(self):
        """As in two threads, of which the first ends first, or last."""
        for first in (0, 1):
            both = [uncollected(), uncollected()]
            for it in both:
                it.__enter__()
            both[first].__exit__(None, None, None)
            both[1 - first].__exit__(None, None, None)
            self.assertTrue(gc.isenabled())

    def test_drawings_in_threads(self):
        result = planar_result(nx.grid_2d_graph(4, 4))
        threads = [Thread(target=drawing_of, args=[result]) for _ in range(4)]
        for thread in threads:
            thread.start()
        for thread in threads:
            thread.join()
        self.assertTrue(gc.isenabled())

    def test_where_a_drawing_fails(self):
        seen = []
        fails = mock.Mock(side_effect=lambda *words, **more: seen.append(gc.isenabled()) or 1 / 0)
        with mock.patch("fezdrok.drawing.drawings.positions", fails), self.assertRaises(ZeroDivisionError):
            drawing_of(planar_result(nx.path_graph(3)))
        self.assertEqual(seen, [False])
        self.assertTrue(gc.isenabled())

    def test_whoever_has_switched_it_off_finds_it_off(self):
        gc.disable()
        drawing_of(planar_result(nx.path_graph(3)))
        self.assertFalse(gc.isenabled())


if __name__ == "__main__":
    unittest.main()
