"""Tests of camtool.picture: what stands on a picture of camtool-where."""
import re
import unittest
import xml.etree.ElementTree as tree

import made
from camtool import picture
from camtool.places import Files, Marks

NAMES = ["job.toml", "part.stl", "program.ngc"]


class Picture(made.Folder):
    def drawn(self, marks=None, lines=("one line",), program=None):
        """Returns the picture as a tree, and its text."""
        self.store("program.ngc", program or made.program())
        text = picture.picture_of(Files(NAMES, [{"program": NAMES[2]}]), list(lines), marks or Marks())
        return tree.fromstring(text), text

    def texts_of(self, root):
        return [it.text for it in root.iter("{http://www.w3.org/2000/svg}text")]

    def test_axes_zero_and_scale(self):
        root, _ = self.drawn()
        said = self.texts_of(root)
        for wanted in ("X0", "X4", "X10", "Y0", "Y8", "2 mm", "X0 Y0", "one line"):
            self.assertIn(wanted, said)

    def test_it_is_as_wide_as_its_place(self):
        root, _ = self.drawn(lines=["a word " * 60])
        self.assertEqual(root.get("width"), "100%")
        _, _, width, height = map(float, root.get("viewBox").split())
        self.assertEqual(width, 800)
        self.assertGreater(height, 400)
        self.assertLess(max(len(it) for it in self.texts_of(root)), picture.CHARACTERS + 1)

    def test_triangles_have_no_outlines_and_upright_ones_are_not_drawn(self):
        _, text = self.drawn()
        part = text.split('<g shape-rendering="crispEdges">')[1].split("</g>")[0]
        self.assertEqual(part.count("<polygon"), 4)
        self.assertFalse("stroke" in part)

    def test_feeds_are_coloured_by_height_and_named_in_the_legend(self):
        root, text = self.drawn()
        said = " ".join(self.texts_of(root))
        for wanted in ("the part", "the area", "feeds, the lowest at Z2.00", "rapids"):
            self.assertIn(wanted, said)
        self.assertIn(f'stroke="{picture.color_of(0)}"', text)
        self.assertEqual([picture.color_of(it) for it in (0, 1)], ["rgb(35,34,107)", "rgb(125,211,192)"])

    def test_an_arc_is_one_line_along_its_chords(self):
        self.store("job.toml", made.JOB + 'words = "machine"\nstart = "anywhere"\nslack = 3\n')
        _, text = self.drawn(program="G21 G90\nG0 Z6\nX2 Y4\nG1 Z5 F100\nG3 I2\nX2 Z4 I2\nM2\n")
        lines = [it.count(",") for it in re.findall('<polyline points="([^"]*)"', text)]
        # (each chord of a helix has its own height, and its own colour)
        self.assertEqual((max(lines), lines.count(33), lines.count(2)), (33, 1, 3 + 32))

    def test_columns_are_squares_of_a_pitch(self):
        marks = Marks()
        marks.columns = [(100, 100), (150, 100)]
        root, text = self.drawn(marks)
        squares = [it for it in root.iter("{http://www.w3.org/2000/svg}rect") if it.get("fill") == "purple" and it.get("x")]
        self.assertEqual(len(squares), 2)
        one, other = (float(it.get("x")) for it in squares)
        self.assertAlmostEqual(other - one, float(squares[0].get("width")), 1)
        self.assertIn("left too high", " ".join(self.texts_of(root)))
        self.assertEqual(len(re.findall("<circle[^>]*purple", text)), 1)

    def test_boxes_are_drawn_and_the_picture_is_no_wider_than_it_takes(self):
        usual = self.drawn()[0].get("viewBox")
        self.store("job.toml", made.JOB + "keep_out = [[-300, 0, -150, 800, 450], [9000, 0, 9900, 800, 100]]\n")
        marks = Marks()
        marks.boxes = [0]
        root, text = self.drawn(marks)
        boxes = [it.get("stroke") for it in root.iter("{http://www.w3.org/2000/svg}polygon") if it.get("fill") == "#b9935a"]
        self.assertEqual(boxes, ["#c5161d", "#6b4a1f"])
        self.assertIn("what stands on the machine (keep_out)", " ".join(self.texts_of(root)))
        self.assertNotEqual(root.get("viewBox"), usual)
        self.assertIn(">X12<", text)
        self.assertNotIn(">X20<", text)

    def test_numbers_on_the_axes(self):
        for number, wanted in ((0, "0"), (-0.0, "0"), (2.5, "2.5"), (10, "10"), (0.05, "0.05")):
            self.assertEqual(picture.number_of(number), wanted)
        self.assertEqual(picture.ticks(-7, 11, 5), [-5, 0, 5, 10])


if __name__ == "__main__":
    unittest.main()
