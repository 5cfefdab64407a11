"""Tests of tool tables, of what comments tell of a tool, and of the cutter that a job has of it."""
import json
import math
import os
import tempfile
import unittest
from decimal import Decimal
from unittest import mock

from camtool import cutters, texts

OWN = """# our tools
[[tools]]
number = 1
name = "6 mm endmill"
kind = "flat"
diameter = 6.0
stickout = 30
holder = 32
[[tools]]
number = 2
kind = "drill"
diameter = 5
[[tools]]
kind = "cone"
name = 'deburr'
diameter = "0.25 in"
angle = 90
tip = 0.5
"""
TABLE = """T1 P1 D6.0 Z-10.2 ;6 mm endmill
T2 P2 D5.000 Z0 ;5mm drill
T3 P3 D+0.25 Z0 ;1/4 inch end mill
T4 P4 D10 ;60 deg V-bit
T5 P5 D3
T6 P6 D6 ;6mm ball nose
; a comment
"""


def bit(shape, name="a bit", **parameters):
    """Returns the text of a FreeCAD tool bit."""
    return json.dumps({"version": 2, "name": name, "shape": f"{shape}.fcstd", "parameter": parameters, "attribute": {}})


class InAFolder(unittest.TestCase):
    def setUp(self):
        folder = tempfile.TemporaryDirectory()
        self.addCleanup(folder.cleanup)
        self.folder = folder.name

    def stored(self, name, text):
        """Returns the name of a file with this text."""
        name = os.path.join(self.folder, name)
        os.makedirs(os.path.dirname(name), exist_ok=True)
        with open(name, "w", encoding="utf-8") as file:
            file.write(text)
        return name


class Tables(InAFolder):
    def check_own(self):
        one, two, three = cutters.table_of(self.stored("tools.toml", OWN))
        self.assertEqual((one.number, one.name, one.kind, one.diameter, one.stickout, one.holder), (1, "6 mm endmill", "flat", 6, 30, 32))
        self.assertEqual((two.kind, two.diameter, two.angle), ("drill", 5, 118))
        self.assertIn("guessed", two.doubts[0])
        self.assertEqual((three.number, three.kind, three.diameter, three.angle, three.tip), (None, "cone", Decimal("6.35"), 90, Decimal("0.5")))

    def test_our_own(self):
        self.check_own()

    def test_our_own_where_python_has_no_reader_of_toml(self):
        with mock.patch.object(texts, "tomllib", None):
            self.check_own()

    def test_linuxcnc(self):
        found = {it.number: it for it in cutters.table_of(self.stored("tool.tbl", TABLE))}
        wanted = {1: ("flat", 6), 2: ("drill", 5), 3: ("flat", Decimal("6.35")), 4: ("cone", 10), 5: ("flat", 3), 6: ("ball", 6)}
        self.assertEqual({number: (it.kind, it.diameter) for number, it in found.items()}, wanted)
        self.assertEqual(found[4].angle, 60)
        self.assertEqual([number for number, it in found.items() if it.doubts], [2, 3, 5])

    def test_freecad(self):
        self.stored("Bit/a.fctb", bit("endmill", Diameter="6.0000 mm", ShankDiameter="8.0000 mm", CuttingEdgeHeight="20.0000 mm"))
        self.stored("Bit/b.fctb", bit("drill", Diameter="5.0000 mm", TipAngle="119.0000 \u00b0"))
        self.stored("Bit/c.fctb", bit("v-bit", Diameter="0.5 in", CuttingEdgeAngle="60.0000 \u00b0", TipDiameter="1.0 mm"))
        self.stored("Bit/d.fctb", bit("bullnose", Diameter="6 mm", FlatRadius="1.5 mm"))
        self.stored("Bit/e.fctb", bit("probe", Diameter="6 mm"))
        rows = [{"nr": number, "path": f"{it}.fctb"} for number, it in enumerate("abcde", 1)]
        library = self.stored("Library/all.fctl", json.dumps({"tools": rows, "version": 1}))
        for name in (library, os.path.join(self.folder, "Bit")):
            flat, drill, cone, bull, probe = cutters.table_of(name)
            self.assertEqual((flat.kind, flat.diameter, cutters.holder_of(flat)), ("flat", 6, (8, 20)))
            self.assertEqual((drill.kind, drill.angle), ("drill", 119))
            self.assertEqual((cone.kind, cone.diameter, cone.angle, cone.tip), ("cone", Decimal("12.7"), 60, 1))
            self.assertTrue(bull.kind == "flat" and bull.doubts)
            self.assertRaises(cutters.Wrong, cutters.form_of, probe)
        self.assertEqual([it.number for it in cutters.table_of(library)], [1, 2, 3, 4, 5])

    def test_wrong_ones(self):
        for name, text in (
            ("a.toml", "[[tools]\n"), ("b.toml", ""), ("c.toml", "[[tools]]\ndiameter = 6\nlenght = 3\n"), ("d.toml", "[[tools]]\nkind = 'bull'\ndiameter = 6\n"),
            ("e.toml", "[[tools]]\nkind = 'flat'\n"), ("f.toml", "[[tools]]\ndiameter = -6\n"), ("g.toml", "[[tools]]\ndiameter = 6\nnumber = 'a'\n"),
            ("h.toml", "tools = 3\n"), ("a.fctb", "{}"), ("b.fctb", bit("endmill", Diameter="wide")), ("a.fctl", '{"tools": [{"nr": 1, "path": "none.fctb"}]}'), ("a.tbl", "none"),
        ):
            with self.subTest(name=name):
                self.assertRaises(cutters.Wrong, cutters.table_of, self.stored(name, text))
        os.mkdir(os.path.join(self.folder, "empty"))
        self.assertRaises(cutters.Wrong, cutters.table_of, os.path.join(self.folder, "empty"))
        self.assertRaises(OSError, cutters.table_of, os.path.join(self.folder, "none.toml"))


class Comments(unittest.TestCase):
    def test_what_they_tell(self):
        for text, wanted in (
            ("T1 6 mm endmill", (1, "flat", 6, 0)),
            ("T3 D=6. CR=0. - ZMIN=2. - FLAT END MILL", (3, "flat", 6, 0)),
            (" T2 | 6. FLAT ENDMILL | H2 ", (2, "flat", 6, 0)),
            ("Mill, 3 mm diameter", (None, "flat", 3, 0)),
            ("T2=T2_5_mm_drill", (2, "drill", 5, 0)),
            ("T4 90 degree chamfer", (4, "cone", 0, 90)),
            ("Compensated Tool Path. Diameter: 8.0", (None, None, 8, 0)),
            ("TC: 6mm Endmill", (None, "flat", 6, 0)),
            ("1/4 inch ball end mill", (None, "ball", Decimal("6.35"), 0)),
            ("60\u00b0 V-Bit 12.7 mm", (None, "cone", Decimal("12.7"), 60)),
            ("the corners, with a tool of 3 mm, by hand", (None, None, 3, 0)),
            ("TC: Default Tool", None), ("Drill5001", None), ("machine units: mm/min", None), ("Stock 60 x 40 mm", None), ("M6 T1", None), ("Feed: 600 mm/min", None),
        ):
            with self.subTest(text=text):
                tool = cutters.told(text)
                self.assertEqual(tool and (tool.number, tool.kind, tool.diameter, tool.angle), wanted)


class Slopes(unittest.TestCase):
    def test_those_that_the_docs_name(self):
        for angle, wanted in ((30, (97, 26)), (45, (70, 29)), (60, (71, 41)), (90, (1, 1)), (118, (3, 5)), (120, (56, 97)), (1, (16, 1)), (178, (1, 58))):
            self.assertEqual(cutters.slope_of(Decimal(angle)), wanted, angle)

    def test_the_judged_cone_encloses_the_tool(self):
        for angle in range(5, 178):
            rise, run = cutters.slope_of(Decimal(angle))
            steep = 1 / math.tan(math.radians(angle) / 2)
            self.assertTrue(1 <= rise <= 100 and 1 <= run <= 100 and rise <= 16 * run, angle)
            self.assertLessEqual(rise / run, steep + 1e-9, angle)
            if 20 <= angle <= 150:
                self.assertLess(steep - rise / run, 0.02 * steep, angle)

    def test_those_that_are_none(self):
        for angle in (0, 180, "179.9"):
            self.assertRaises(cutters.Wrong, cutters.slope_of, Decimal(angle))


class Choices(unittest.TestCase):
    six, drill, ball = (cutters.made(1, "six", "flat", 6), cutters.made(2, "drill", "drill", 5, 118), cutters.made(3, "ball", "ball", 6))

    def chosen(self, tools, wanted=None, words=(), comments=()):
        """Returns the number, kind and diameter of the tool that is chosen, and whether that is a guess."""
        tool, why = cutters.chosen(list(tools), wanted, list(words), [cutters.told(it) for it in comments])
        return tool.number, tool.kind, tool.diameter, bool(why)

    def test_by_what_it_is_chosen(self):
        every = (self.six, self.drill, self.ball)
        for arguments, wanted in (
            (dict(tools=every, words=[2]), (2, "drill", 5, False)),
            (dict(tools=every, wanted="3", words=[2]), (3, "ball", 6, False)),
            (dict(tools=every, wanted="T3"), (3, "ball", 6, False)),
            (dict(tools=every, wanted="flat 2.5"), (None, "flat", Decimal("2.5"), False)),
            (dict(tools=[self.six]), (1, "flat", 6, False)),
            (dict(tools=[self.six], words=[1]), (1, "flat", 6, False)),
            (dict(tools=[self.six], words=[7]), (1, "flat", 6, True)),
            (dict(tools=every, comments=["TC: 5mm drill"]), (2, "drill", 5, True)),
            (dict(tools=every, words=[9], comments=["T9 6 mm ball end"]), (3, "ball", 6, True)),
            (dict(tools=[], words=[1], comments=["T1 8 mm endmill"]), (1, "flat", 8, True)),
            (dict(tools=[], comments=["T1 3.3 mm drill"]), (1, "drill", Decimal("3.3"), True)),
        ):
            with self.subTest(arguments):
                self.assertEqual(self.chosen(**arguments), wanted)

    def test_it_asks_with_the_options(self):
        for arguments in (dict(tools=(self.six, self.ball), words=[7]), dict(tools=(self.six, self.ball)), dict(tools=(self.six,), wanted="5")):
            with self.assertRaises(cutters.Wrong) as caught:
                self.chosen(**arguments)
            self.assertIn("--tool", str(caught.exception))
            self.assertIn("T1, a flat cutter of 6 mm", str(caught.exception))
        self.assertRaisesRegex(cutters.Wrong, "--tools=TABLE", self.chosen, [], None, [1])


if __name__ == "__main__":
    unittest.main()
