"""Tests of what passes with one thing changed. What camtool would say is written by hand."""
import os
import pathlib
import re
import tempfile
import unittest
from unittest import mock

from camtool import again

JOB = b'cutter = "flat"\nradius = 300 # of 6 mm\nallowance = 5\ntop = 800\nclear = 2000\nhome = [0, 0]\narea = [0, 0, 5000, 3400]\n'
LIST = b'[[steps]]\nprogram = "a"\ncutter = "flat"\nradius = 150\n[[steps]]\nprogram = "b"\ncutter = "flat"\n radius = 300\n'


class Changes(unittest.TestCase):
    def test_of_a_key(self):
        self.assertEqual(again.changed(JOB, "radius", 295), JOB.replace(b"300", b"295"))
        self.assertEqual(again.changed(LIST, "radius", 7, 1), LIST.replace(b"300", b"7"))
        self.assertIsNone(again.changed(LIST, "radius", 7, 2))
        self.assertIsNone(again.changed(JOB, "rad", 7))

    def test_of_a_key_that_may_be_left_out(self):
        self.assertEqual(again.with_key(JOB, "overcut", 4), JOB + b"\novercut = 4\n")
        self.assertEqual(again.with_key(JOB + b"overcut = 2 # mm", "overcut", 4), JOB + b"overcut = 4 # mm")

    def test_what_is_past_a_fault(self):
        at = "rejected gouge move 5 triangle 0 leaf 8 0"
        for line, wanted in (("accepted moves 9", True), (at, False), (at.replace("5", "4"), False), (at.replace("move 5", "move 6"), True),
                             ("rejected left row 0 column 0 top 1.00", True), ("", False), ("refused job range radius", False)):
            self.assertEqual(again.is_past(line, at), wanted, line)
        self.assertTrue(again.is_past("rejected file 1 gouge move 0", "rejected file 0 gouge move 5"))


class Judgements(unittest.TestCase):
    def told(self, verdict, answer, text=None, program=b"M2\n", job_text=JOB):
        """What is told where camtool answers by the radii of the job or of the list, and by the job's overcut."""

        def said(judging, job=None, steps=None):
            numbers = lambda key, it: [int(it) for it in re.findall(rb"%s = (\d+)" % key, it)]
            asked = (steps or judging.texts[1]) if judging.is_list else job or judging.texts[0]
            return answer(numbers(b"radius", asked), sum(numbers(b"overcut", job or judging.texts[0])))

        with tempfile.TemporaryDirectory() as folder:
            names = [os.path.join(folder, it) for it in ("job.toml", "part.stl", "list.toml" if text else "a.ngc")]
            for name, content in zip(names, (job_text, b"", text or program)):
                with open(name, "wb") as file:
                    file.write(content)
            before = [pathlib.Path(it).read_bytes() for it in (names[0], names[2])]
            with mock.patch.object(again.Judging, "verdict", said):
                found = again.tell_again(names, verdict)
            self.assertEqual(before, [pathlib.Path(it).read_bytes() for it in (names[0], names[2])])
            return found

    def test_a_touch(self):
        gouge = "rejected gouge move 5 triangle 0 leaf 8 0"
        # (a lesser radius passes too)
        by = lambda least, line: lambda radii, overcut: line if 200 < radii[0] <= 295 or overcut >= least else gouge
        told = "it is only a touch: with `overcut = {}`, by which the part may be cut {} mm deep, the whole program passes"
        self.assertEqual(self.told(gouge, by(4, "accepted moves 9")), [told.format(4, "0.04")])
        self.assertEqual(self.told(gouge, by(11, "accepted moves 9"), job_text=JOB + b"overcut = 8\n"), [told.format(11, "0.11")])
        self.assertEqual(self.told(gouge, by(14, "accepted moves 9"), job_text=JOB + b"overcut = 8\n"), [])
        said = self.told(gouge, by(1, "rejected left row 0 column 0 top 1.00"))
        self.assertIn("this move passes, and then the answer is: rejected left", said[0])
        fine = b'unit = "thousandth"\n' + JOB
        self.assertEqual(self.told(gouge, lambda radii, overcut: by(12, "accepted moves 9")([radii[0] + 10], overcut), job_text=fine), [told.format(15, "0.015")])
        file = gouge.replace("gouge", "file 1 gouge")
        said = self.told(file, lambda radii, overcut: "accepted files 2" if radii == [150, 295] or overcut >= 3 else file, LIST)
        self.assertEqual(said, [told.format(3, "0.03")])
        # (a holder has no overcut)
        self.assertEqual(self.told(gouge.replace("gouge", "holder"), lambda radii, overcut: "accepted moves 9" if overcut and radii[0] == 300 else gouge), [])

    def test_what_is_too_deep_is_no_touch(self):
        gouge = "rejected gouge move 5 triangle 0 leaf 8 0"
        answer = lambda radii, overcut: "accepted moves 9" if radii[0] != 150 and overcut >= 3 else gouge
        self.assertEqual(self.told(gouge, answer), [])
        cone = JOB.replace(b"flat", b"cone") + b"rise = 1\nrun = 1\n"
        self.assertIn("it is only a touch: with `overcut = 3`", self.told(gouge, answer, job_text=cone)[0])

    def test_a_diameter(self):
        gouge = "rejected gouge move 5 triangle 0 leaf 8 0"
        for least, touch in ((0, ""), (1, " and `overcut = 2`,"), (5, " and `overcut = 5`,")):
            said = self.told(gouge, lambda radii, overcut: "accepted moves 9" if radii[0] == 150 and overcut >= least else gouge)
            self.assertEqual(said, [f"with half the radius, `radius = 150`,{touch} the whole program passes: is 3.00 mm the cutter's diameter?"])
        self.assertEqual(self.told(gouge, lambda *numbers: gouge), [])

    def test_inches(self):
        gouge = "rejected gouge move 5 triangle 0 leaf 8 0"
        for program, wanted in ((b"G21 G90\nG0 Z0.5\nG1 X1.1 Y0.7\nG1 Z0.2\nM2\n", "are its numbers inches?"), (b"G21 G90\nG0 Z5\nG1 X20 Y7\nG1 Z2\nM2\n", "")):
            self.assertIn(wanted, "".join(self.told(gouge, lambda *numbers: gouge, program=program)))
        self.assertEqual(self.told(gouge, lambda *numbers: gouge, program=program), [])

    def test_ten_times(self):
        left = "rejected left row 0 column 0 top 1.00"
        said = self.told(left, lambda radii, _: "accepted moves 9" if radii[0] == 3000 else left)
        self.assertEqual(said, ["with ten times the radius, `radius = 3000`, the whole program passes: this one is 3.00 mm"])

    def test_swapped_tools(self):
        said = self.told("rejected file 1 gouge move 5", lambda radii, _: "accepted files 2" if radii == [300, 150] else "rejected file 0 gouge move 0", LIST)
        self.assertEqual(said, ["with the radii of steps 0 and 1 swapped (counted from 0), all programs pass: are their tools swapped?"])

    def test_nothing(self):
        self.assertEqual(self.told("accepted moves 5", None), [])
        self.assertEqual(again.tell_again(["/none", "/none", "/none"], "rejected gouge move 1"), [])


if __name__ == "__main__":
    unittest.main()
