"""Tests of arcs as chords: rows by hand."""
import math
import unittest

from camtool import arcs

UNIT = 10_000


def arc_of(start, end, offsets, plane=17, turn=arcs.COUNTERCLOCKWISE):
    """The Arc between two places; all lengths are in units of 10,000 nanometres."""
    start, end = ([round(it * UNIT) for it in (*place, *[0] * (3 - len(place)))] for place in (start, end))
    return arcs.Arc(start, end, [round(it * UNIT) for it in offsets], arcs.PLANES[plane], turn)


class Chords(unittest.TestCase):
    def test_how_many_a_whole_turn_has(self):
        for unit in (1_000, 10_000):
            for radius, wanted in ((1, 4), (4, 4), (5, 8), (100, 32), (1_000, 128), (10_000, 256), (100_000, 1_024)):
                place = (radius * unit, 0, 0)
                for turn in (arcs.COUNTERCLOCKWISE, arcs.CLOCKWISE):
                    arc = arcs.Arc(place, place, (-radius * unit, 0), arcs.PLANES[17], turn)
                    self.assertEqual(len(arc.places(unit)), wanted, (unit, radius))

    def test_a_whole_turn_of_four_chords(self):
        self.assertEqual(arc_of((4, 0), (4, 0), (-4, 0)).places(UNIT), [(0, 4, 0), (-4, 0, 0), (0, -4, 0), (4, 0, 0)])
        back = arc_of((4, 0), (4, 0), (-4, 0), turn=arcs.CLOCKWISE)
        self.assertEqual(back.places(UNIT), [(0, -4, 0), (-4, 0, 0), (0, 4, 0), (4, 0, 0)])

    def test_three_quarters_and_half_a_turn(self):
        # (the middle of three quarters is opposite the middle of the two ends: 4 / sqrt 2 is 2.83)
        self.assertEqual(arc_of((4, 0), (0, -4), (-4, 0)).places(UNIT), [(2, 4, 0), (-3, 3, 0), (-4, -2, 0), (0, -4, 0)])
        self.assertEqual(arc_of((4, 0), (-4, 0), (-4, 0)).places(UNIT), [(0, 4, 0), (-4, 0, 0)])

    def test_planes(self):
        # (from the plane's first axis to its second)
        for plane, start, end in ((17, (4, 0, 0), (0, 4, 0)), (18, (0, 0, 4), (4, 0, 0)), (19, (0, 4, 0), (0, 0, 4))):
            arc = arc_of(start, end, (-4, 0), plane)
            self.assertEqual(arc.places(UNIT), [end])
            self.assertEqual(len(arc_of(start, end, (-4, 0), plane, arcs.CLOCKWISE).places(UNIT)), 4)

    def test_a_helix_goes_evenly(self):
        self.assertEqual([it[2] for it in arc_of((4, 0, 10), (4, 0, 0), (-4, 0)).places(UNIT)], [8, 5, 3, 0])
        self.assertEqual([it[2] for it in arc_of((4, 0, -10), (4, 0, 0), (-4, 0)).places(UNIT)], [-8, -5, -3, 0])

    def test_radii_that_differ(self):
        arc = arc_of((100, 0), (0, 101), (-100, 0))
        middles = [node for node, _, _ in arc.parts(UNIT)][:-1]
        self.assertEqual(len(middles), 7)
        for node in middles:
            self.assertLess(abs(math.hypot(*node.vector) - 1_005_000), 1)
        self.assertEqual(arc.places(UNIT)[-1], (0, 101, 0))

    def test_what_is_no_arc(self):
        for end, offsets, tolerance, wanted in (
                ((100, 0), (-100, 0), 0, None), ((0, 101), (-100, 0), 1, None), ((0, 101), (-100, 0), 0.9999, "its end 1.0100 mm"),
                ((100, 0), (-0.1, 0), 1, None), ((100, 0), (-0.0999, 0), 1, "under a micrometre"), ((97.5, 0), (-1, 0), 1, None),
                ((97, 0), (-1, 0), 100, None), ((96.9999, 0), (-1, 0), 100, "its end"),
                ((100, 0.05), (-100, 0), 1, None), ((100, 0.0499), (-100, 0), 1, "next to each other"), ((100, -0.0499), (-100, 0), 1, "next to each other")):
            flaw = arc_of((100, 0), end, offsets).flaw(round(tolerance * UNIT))
            self.assertEqual(flaw if wanted is None else wanted in (flaw or ""), None if wanted is None else True, (end, offsets, flaw))

    def test_nearest(self):
        for top, bottom, wanted in ((5, 10, 1), (4, 10, 0), (-5, 10, -1), (-4, 10, 0), (15, 10, 2), (0, 3, 0)):
            self.assertEqual(arcs.nearest(top, bottom), wanted)


if __name__ == "__main__":
    unittest.main()
