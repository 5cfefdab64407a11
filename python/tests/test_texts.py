"""Tests of the readers of jobs, lists, parts and programs."""
import unittest
from unittest import mock

from camtool import texts

JOB = b'unit = "thousandth"\nhome = [1, # 3\n -2]\nclear = 3_000\narea = [0, 0, 0x10, +10] # mm\n'
MACHINE = b"keep_out = [[0, 0, 1, 1, -5], # a clamp\n [2, 2, 3, 3, 4]]\nlevels = []\nrapids = 'axes'\nstart = 'anywhere'\nspindle = true\n"


class Lengths(unittest.TestCase):
    def test_in_both_units(self):
        fine, usual = texts.Grid({"unit": "thousandth"}), texts.Grid({})
        self.assertEqual((fine.units("1.5"), usual.units("1.5")), (1500, 150))
        self.assertEqual((fine.millimetres(-1500), usual.millimetres(-150)), ("-1.500", "-1.50"))
        self.assertEqual(usual.millimetres(-0.1), "-0.001")
        self.assertEqual(usual.millimetres(-0.001), "0.00")
        self.assertEqual(usual.point((0, 100, -250)), "X0.00 Y1.00 Z-2.50")


class Documents(unittest.TestCase):
    def test_with_and_without_a_reader_of_toml(self):
        wanted = {"unit": "thousandth", "home": [1, -2], "clear": 3000, "area": [0, 0, 16, 10]}
        usual = texts.tomllib
        try:
            for texts.tomllib in (usual, None):
                self.assertEqual(texts.job_of(JOB), wanted)
                self.assertEqual(texts.job_of(b"\xef\xbb\xbf" + JOB), wanted)
        finally:
            texts.tomllib = usual
        self.assertEqual(texts.start_of(wanted), (1, -2, 3000))

    def test_fixtures_and_truth_values(self):
        wanted = {"keep_out": [[0, 0, 1, 1, -5], [2, 2, 3, 3, 4]], "levels": [], "rapids": "axes", "start": "anywhere", "spindle": True}
        for reader in (texts.tomllib, None):
            with mock.patch.object(texts, "tomllib", reader):
                self.assertEqual(texts.job_of(MACHINE), wanted)
                self.assertEqual(texts.job_of(texts.job_text(wanted).encode()), wanted)

    def test_rapids_that_may_bend(self):
        move = lambda kind, *end: texts.Move(1, kind, (0, 0, 0), end)
        for keys, one, wanted in (
                ({"rapids": "axes"}, move("rapid", 1, 2, 0), True), ({"rapids": "axes"}, move("rapid", 1, 0, 3), True),
                ({"rapids": "axes"}, move("rapid", 0, 0, 3), False), ({"rapids": "axes"}, move("rapid", 0, 0, 0), False),
                ({"rapids": "axes"}, move("feed", 1, 2, 3), False), ({"rapids": "straight"}, move("rapid", 1, 2, 3), False), ({}, move("rapid", 1, 2, 3), False)):
            self.assertEqual(texts.bends(keys, one), wanted, (keys, one))

    def test_lists(self):
        text = b'[[steps]]\nprogram = "a.ngc"\nradius = 3\n[[steps]]\nprogram = \'b.ngc\'\nradius = 4\n'
        usual = texts.tomllib
        try:
            for texts.tomllib in (usual, None):
                self.assertEqual([(it["program"], it["radius"]) for it in texts.steps_of(text)], [("a.ngc", 3), ("b.ngc", 4)])
        finally:
            texts.tomllib = usual


class Programs(unittest.TestCase):
    def moves(self, text):
        return texts.moves_of(text, (0, 0, 500), texts.Grid({}))

    def test_modes_last_and_comments_dont_move(self):
        moves = self.moves(b"%\nN10 G21 G90 (G1 X9)\ng0 x 1.5 ; Y2\nZ2\nG01 y-1.00\nM2\nX3\n")
        self.assertEqual([(it.line, it.kind, it.end) for it in moves],
                         [(3, "rapid", (150, 0, 500)), (4, "rapid", (150, 0, 200)), (5, "feed", (150, -100, 200))])

    def test_a_start_from_anywhere(self):
        self.assertIsNone(texts.start_of({"home": [0, 0], "clear": 9, "start": "anywhere"}))
        moves = texts.moves_of(b"G21 G90 G0 Z5\nX1 Y2\nG1 Z3\nM2\n", None, texts.Grid({}))
        place = (100, 200, 500)
        self.assertEqual([(it.line, it.start, it.end) for it in moves], [(1, place, place), (2, place, place), (3, place, (100, 200, 300))])
        self.assertEqual(texts.moves_of(b"G21 G90 G0 Z5\nM2\n", None, texts.Grid({})), [])

    def test_the_upper_face_of_a_box(self):
        self.assertEqual(texts.faces_of([1, 2, 3, 4, 5]), [((1, 2, 5), (3, 2, 5), (3, 4, 5)), ((1, 2, 5), (3, 4, 5), (1, 4, 5))])

    def test_g80_ends_the_mode(self):
        self.assertEqual(len(self.moves(b"G1 X1\nG80\nX2\n")), 1)

    def test_a_frame_ends_at_the_next_percent(self):
        self.assertEqual(len(self.moves(b"%\nG1 X1\n%\nG1 X2\n")), 1)


class Parts(unittest.TestCase):
    def test_triangles_are_rounded(self):
        text = b"solid\nfacet\nvertex 0 0 0.005\nvertex 1 0 -0.005\nvertex 0 1e0 0\n"
        self.assertEqual(texts.triangles_of(text, texts.Grid({})), [((0, 0, 1), (100, 0, -1), (0, 100, 0))])


if __name__ == "__main__":
    unittest.main()
