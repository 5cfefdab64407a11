"""Tests of camtool-job: what it tells of a job, of a program's words, and of a part and a program that don't go together."""
import os
import re
import unittest
from decimal import Decimal
from unittest import mock

import test_cutters
from test_command import ended
from test_new import EXAMPLES, TWO, block

from camtool import fit, job, parts, programs, texts
from camtool.facts import Facts

FREECAD = os.path.join(EXAMPLES, "freecad")


def text_of(*names):
    with open(os.path.join(EXAMPLES, *names), "rb") as file:
        return file.read()


class Words(unittest.TestCase):
    """What is read of a program's words."""

    def test_a_freecad_program(self):
        facts = Facts(text_of("freecad", "pocket.ngc"))
        self.assertEqual((facts.moves, facts.feeds, facts.decimals, facts.unit), (23, 18, 2, "mm"))
        self.assertEqual((facts.low, facts.high), ([11, 11, 4], [29, 19, 13]))
        self.assertEqual((facts.first, facts.level, facts.numbers), ([11, Decimal("16.4"), 13], 6, [1]))
        self.assertEqual((facts.spindle_line, facts.still, facts.unfed, facts.speeds), (12, None, None, [6000]))
        self.assertEqual((min(facts.rates), max(facts.rates), facts.ends, facts.is_freecad), (200, 600, True, True))

    def test_what_posts_write(self):
        for text, wanted in (
            (b"G20 G90 G0 X1 Z.5\nG1 Z-.1 F10\n", dict(unit="inch", low=[Decimal("25.4"), None, Decimal("-2.54")], rates=[254])),
            (b"G21 G90\nG0 X5\nG91\nG0 X-2\nG90\nG0 X1\n", dict(low=[1, None, None], high=[5, None, None], words={"G91"})),
            (b"g01 x1 y2 (a) z3 ; c\n", dict(moves=1, feeds=1, high=[1, 2, 3])),
            (b"G0 X1 Y1\nG2 X3 I1\nG81 R2 Z-1\n", dict(moves=3, feeds=2, words={"arcs", "cycles"}, cut_low=[1, 1, -1])),
            (b"G0 X1 Y1\nG2 I1\n", dict(moves=2, feeds=1, words={"arcs"}, cut_high=[1, 1, None])),
            (b"G91 G28 Z0\nG53 G0 Z0\nG90 G0 Z5\n", dict(moves=1, low=[None, None, 5])),
            (b"G0 G80 X1\nY2\nG80\nX3\n", dict(moves=2, high=[1, 2, None])),
            (b"( M6 T3 )\nG0 X1\nT0 M6\n", dict(numbers=[3])),
            (b"G0 X1\nM2\nG0 X9\n", dict(moves=1, ends=True)),
            (b"", dict(moves=0, low=[None] * 3, numbers=[], ends=False)),
        ):
            facts = Facts(text)
            with self.subTest(text):
                self.assertEqual({it: getattr(facts, it) for it in wanted}, wanted)


class Told(test_cutters.InAFolder):
    def told(self, program, keys="", part=None, job_text=None):
        """Returns the rows, as a dict, and the notes of the freecad example with this program, and these keys put into its job."""
        text = job_text or text_of("freecad", "job.toml").decode()
        for key, value in re.findall(r"(\w+) = (\S[^;]*)", keys):
            text = re.sub(rf"(?m)^{key} = [^#\n]*", f"{key} = {value} ", text)
        names = [self.stored("job.toml", text), part or os.path.join(FREECAD, "part.stl"), self.stored("run.ngc", program)]
        status, printed, errors = ended(job.main, names)
        self.assertEqual((status, errors), (None, ""))
        lines = printed.split("\n")[:-1]
        return {it[:10].strip(): it[10:] for it in lines if not it.startswith("note")}, [it for it in lines if it.startswith("note") and "isn't built" not in it]

    def test_the_programs_rows(self):
        rows, notes = self.told(text_of("freecad", "pocket.ngc").decode())
        self.assertEqual(notes, ["note: overcut: what is thinner than 0.02 mm of the part may be cut away whole"])
        self.assertEqual(rows["program"], "23 lines that move, from X11.00 Y11.00 Z4.00 to X29.00 Y19.00 Z13.00; 2 decimals")
        self.assertEqual(rows["feeds"], "18, down to Z4.00, F200 to F600")
        self.assertEqual((rows["tool"], rows["spindle"]), ("T1", "M3 in line 12, S6000; the first feed is in line 20"))

    def test_what_passed_in_silence(self):
        """Nine mistakes that camtool accepts by its rules: each has its note."""
        pocket = text_of("freecad", "pocket.ngc").decode().replace("(TC: Default Tool)", "(T1 6 mm endmill)")
        higher = re.sub(r"Z([0-9.]+)", lambda it: f"Z{float(it[1]) + 6:.2f}", pocket)
        low = self.stored("low.stl", block((0, 0, -13), (40, 30, -1)))
        for name, program, keys, part, wanted in (
            ("no M3", pocket.replace("M3 S6000", "S6000"), "", None, "the spindle stands still in line 20"),
            ("M5 for M3", pocket.replace("M3 S6000", "M5 S6000"), "", None, "the spindle stands still in line 20"),
            ("M5 behind M3", pocket.replace("M3 S6000", "M3 S6000\nM5"), "", None, "in line 21, where it cuts, behind the stop in line 13"),
            ("no F", re.sub(r" F[0-9.]+", "", pocket), "", None, "it has no F before line 20"),
            ("T7 for T1", pocket.replace("M6 T1", "M6 T7"), "", None, "it calls T7"),
            ("a small area", pocket, "area = [0, 0, 2000, 1500]", None, "part: it reaches out of area"),
            ("pitch of 5 mm", pocket, "pitch = 500", None, "the cutter fits between four columns"),
            ("another tool", pocket, "radius = 250; allowance = 10000", None, '"T1 6 mm endmill", 6 mm across, and the job\'s radius is 2.50 mm, 5.00 mm across'),
            ("the diameter", pocket, "radius = 600", None, "radius is 6.00 mm, 12.00 mm across; is that the diameter?"),
            ("a little less", pocket, "radius = 298; overcut = 0", None, "the job's radius is 0.02 mm less than half of that: is it as measured?"),
            ("only air", higher, "allowance = 10000", None, "it cuts nothing"),
            ("the part too low", pocket, "allowance = 10000", low, "part: it lies under floor"),
        ):
            with self.subTest(name):
                _, notes = self.told(program, keys, part)
                self.assertTrue(any(wanted in it for it in notes), notes)

    def test_what_stands_on_the_machine(self):
        keys = 'keep_out = [[900, 0, 990, 90, 300], [900, 0, 990, 90, -5]]\nrapids = "axes"\nstart = "anywhere"\nspindle = true\n'
        rows = dict(job.rows_of(job.Job(texts.job_of(text_of("plate", "job.toml") + keys.encode()))))
        self.assertEqual(rows["fixtures"], "2 to keep out of, the highest up to Z3.00")
        self.assertEqual(rows["start"], "from anywhere, up or down to Z4.00 or over it, and then across")
        self.assertEqual(rows["rapids"], "each axis at its own speed: along two axes or more any way in the box of the ends")
        self.assertEqual(rows["program"][:12], "has to start")
        usual = dict(job.rows_of(job.Job(texts.job_of(text_of("plate", "job.toml")))))
        notes = list(job.notes_on_stock(job.Job(texts.job_of(text_of("plate", "job.toml") + b"keep_out = [[900, 9, 910, 10, 0], [150, 0, 990, 90, 300]]\n"))))
        told = [it.split(";")[0] for it in notes if it.startswith("keep_out")]
        self.assertEqual(told, ["keep_out: box 1 stands in area", "keep_out: box 0 isn't over floor, so nothing ever comes into it", "keep_out: with no holder_radius and stickout the holder may come into a box unseen"])
        self.assertEqual((usual["start"], {"fixtures", "rapids", "program"} & set(usual)), ("X1.00 Y1.00 Z4.00", set()))

    def test_slack_and_overcut(self):
        text = text_of("slack", "job.toml").decode()
        rows, notes = self.told(text_of("slack", "program.ngc").decode(), part=os.path.join(EXAMPLES, "slack", "part.stl"), job_text=text)
        self.assertEqual(rows["machine"], "the tip is at most 0.03 mm off; the part may be cut by 0.08 mm, and stock shaved by 0.11 mm")
        self.assertIn("note: overcut: what is thinner than 0.08 mm of the part may be cut away whole", notes)
        changed = text.replace("overcut = 8", "overcut = 0").replace("allowance = 3", "allowance = 0")
        _, notes = self.told(text_of("slack", "program.ngc").decode(), part=os.path.join(EXAMPLES, "slack", "part.stl"), job_text=changed)
        self.assertIn("note: overcut: with a slack and without it a program that is cut to size is rejected", notes)
        self.assertIn("note: allowance: it is under slack, by which the tip may be too high", notes)

    def test_a_part_that_is_too_large(self):
        with mock.patch.object(parts, "MOST", 11):
            self.assertIn("note: part: it has over 11 triangles, and is refused; export it with a coarser tolerance", self.told(TWO, part=self.stored("a.stl", block((0, 0, 0), (40, 30, 8))))[1])

    def test_the_tool_of_the_jobs_comment(self):
        text = text_of("freecad", "job.toml").decode().replace('cutter = "flat"', 'cutter = "flat"   # T3, a flat cutter of 6 mm')
        self.assertIn("note: program: it calls T1, and the job is for T3", self.told(TWO, job_text=text)[1])

    def test_other_words(self):
        for program, keys, wanted in (
            (TWO.replace("M6 T1", "M6 T1 (8 mm ball nose)"), "", "the job's cutter is flat"),
            (TWO.replace("M5\n", "T2 M6\n"), "", "it has the tools T1, T2"),
            (TWO.replace("4.00 F200", "4.000 F200"), "", "it has 3 decimals, and the job is in hundredths"),
            (TWO.replace("Z4.00", "Z-1.00"), "", "is under floor"),
            (TWO.replace("Z13.00", "Z7.00"), "", "its first Z, 7.00, is under top"),
            (TWO.replace("X20.00", "X90.00"), "", "far out of area"),
            (TWO.replace(" S8000", ""), "", "no S over 0"),
            ("G21 G90\nM2\n", "", "no line that moves"),
        ):
            with self.subTest(wanted):
                self.assertTrue(any(wanted in it for it in self.told(program, keys)[1]), self.told(program, keys)[1])

    def test_a_list(self):
        folder = os.getcwd()
        os.chdir(FREECAD)
        self.addCleanup(os.chdir, folder)
        status, printed, _ = ended(job.main, ["no-band.toml", "part.stl", "list.toml"])
        self.assertEqual(status, None)
        self.assertIn("step      corners.ngc, flat, 3.00 mm across", printed)
        self.assertNotIn("note: corners.ngc", printed)
        sizes = (("pocket.ngc", 6, 150), ("corners.ngc", 3, 300))
        files = {name: self.stored(name, f"({size} mm endmill)\n" + text_of("freecad", name).decode()) for name, size, _ in sizes}
        steps = "".join(f"[[steps]]\nprogram = '{files[name]}'\ncutter = 'flat'\nradius = {radius}\n" for name, _, radius in sizes)
        status, printed, _ = ended(job.main, ["no-band.toml", "part.stl", self.stored("list.toml", steps)])
        self.assertEqual(status, None)
        self.assertIn("note: list: the radius of step 1 is that of the tool that the program of step 0 names, counted from 0: are the tools swapped?", printed)

    def test_refusals(self):
        text = self.stored("a", "nothing")
        names = [os.path.join(FREECAD, it) for it in ("job.toml", "part.stl")]
        for words, wanted in (([text], "isn't a job"), ([names[0], text], "no triangle"), ([*names, "none.ngc"], "No such file"), ([*names, text + ".toml"], "No such file")):
            status, _, errors = ended(job.main, words)
            self.assertEqual(status, 2)
            self.assertIn(wanted, errors)


class Boxes(unittest.TestCase):
    def test_by_boxes_alone(self):
        part = ((0, 0, 0), (40, 30, 8))
        feeds = "G21 G90\nG0 X{0} Y{1} Z{2}\nG1 Z{3} F200\nG1 X{4}\nG1 Y{5}\nM2\n"
        usual = (2, 2, 10, 4, 38, 28)
        for name, box, places, wanted in (
            ("nothing", part, usual, None),
            ("inches", ((0, 0, 0), (1.57, 1.18, 0.31)), usual, "is the part in inches?"),
            ("metres", ((0, 0, 0), (0.04, 0.03, 0.008)), usual, "is the part in metres?"),
            ("inches in the program", part, tuple(round(it / 25.4, 4) for it in usual), "are the program's numbers inches?"),
            ("swapped", part, (2, 2, 10, 4, 28, 38), "are X and Y swapped"),
            ("Z0 on the part's top", ((0, 0, -8), (40, 30, 0)), usual, "isn't under the part's top"),
            ("Z0 on the stock's top", part, (2, 2, 2, -4, 38, 28), "under the part's underside"),
            ("centred", ((-20, -15, 0), (20, 15, 8)), usual, "is one zero in the middle"),
            ("apart", ((100, 0, 0), (140, 30, 8)), usual, "don't meet the part"),
        ):
            with self.subTest(name):
                said = fit.by_box(*box, [Facts(feeds.format(*places).encode())])
                self.assertTrue(wanted in said[0] if wanted else not said, said)

    def test_heights(self):
        tris = parts.triangles_of(block((0, 0, 0), (2, 2, 1)).encode())
        self.assertEqual(fit.heights_of(tris, [(1.0, 1.0), (2.0, 0.0), (2.5, 1.0)], -1), {(1.0, 1.0): 1, (2.0, 0.0): 1, (2.5, 1.0): -1})

    def test_verdicts(self):
        for line, wanted in (
            ("accepted moves 23 columns 4 left 0.00 band 1.00 allowance 0.05", (3, 23)), ("accepted files 2 moves 39 columns 4 left 0.00", (3, 39)),
            ("rejected gouge move 4 triangle 5 leaf 9 0", (1, 4)), ("rejected file 1 rapid move 2 row 0 column 0 leaf 1 0", (1, 1_000_002)), ("refused part-top 8.00 top 7.50", (0, -1)),
        ):
            self.assertEqual(fit.verdict_of(line)[1:], wanted)
        self.assertEqual(fit.verdict_of("rejected left row 0 column 0 top 3.00").stage, 2)


@unittest.skipUnless(programs.is_built("camtool"), "camtool isn't built")
class Suspects(test_cutters.InAFolder):
    """The mistakes of unit, zero and side: on a block with a pocket, and its own program."""

    def setUp(self):
        super().setUp()
        self.tris = parts.triangles_of(text_of("freecad", "part.stl"))
        self.program = os.path.join(FREECAD, "pocket.ngc")

    def said(self, change=None, program=None):
        """Returns what is said of the example with its part changed by a call on places, or with a changed program."""
        text = "solid a\n" + "".join(
            "facet normal 0 0 1\nouter loop\n" + "".join("vertex {} {} {}\n".format(*(change or tuple)(it)) for it in tri) + "endloop\nendfacet\n" for tri in self.tris
        ) + "endsolid a\n"
        part = self.stored("part.stl", text)
        program = self.stored("run.ngc", program) if program else self.program
        return "; ".join(job.suspects(os.path.join(FREECAD, "job.toml"), part, program))

    def test_what_is_accepted(self):
        self.assertEqual(self.said(), "")

    def test_the_part(self):
        for name, change, wanted in (
            ("inches", lambda it: tuple(round(v / 25.4, 6) for v in it), "25.4 times as large the program is accepted: it seems to be in inches"),
            ("metres", lambda it: tuple(v / 1000 for v in it), "1000 times as large the program is accepted: it seems to be in metres"),
            ("Z0 on its top", lambda it: (it[0], it[1], it[2] - 8), "moved by Z+8.00 the program is accepted"),
            ("centred", lambda it: (it[0] - 20, it[1] - 15, it[2]), "moved by X+20.00 Y+15.00 the program is accepted"),
            ("centred, Z0 on its top", lambda it: (it[0] - 20, it[1] - 15, it[2] - 8), "moved by X+20.00 Y+15.00 Z+8.00 the program is accepted"),
            ("mirrored", lambda it: (-it[0], it[1], it[2]), "the program is accepted"),
            ("turned", lambda it: (-it[1], it[0], it[2]), "turned by 90 degrees clockwise the program is accepted"),
            ("upside down", lambda it: (it[0], 30 - it[1], 8 - it[2]), "the program is accepted"),
        ):
            with self.subTest(name):
                self.assertIn(wanted, self.said(change))

    def test_the_program(self):
        pocket = text_of("freecad", "pocket.ngc").decode()
        number = lambda letters, to: re.sub(rf"([{letters}])(-?[0-9.]+)", lambda it: f"{it[1]}{to(float(it[2])):.2f}", re.sub(r"\([^)]*\)", "", pocket))
        for name, program, wanted in (
            ("Z0 on its top", re.sub(r"Z(-?[0-9.]+)", lambda it: f"Z{float(it[1]) - 8:.2f}", pocket), "with part and job moved by Z-8.00 the program is accepted"),
            ("inch numbers", number("XYZ", lambda it: it / 25.4), "inches"),
            ("X and Y swapped", re.sub(r"X(\S+) Y(\S+)", r"X\2 Y\1", pocket), "X and Y swapped"),
        ):
            with self.subTest(name):
                self.assertIn(wanted, self.said(program=program))

    def test_a_part_of_many_triangles(self):
        with mock.patch.object(fit, "TRIANGLES", len(self.tris) - 1):
            self.assertEqual(self.said(), "")
            wanted = f"the part has over {len(self.tris) - 1} triangles, so no changed copy of it was tried"
            self.assertIn(wanted, self.said(lambda it: (it[0], 30 - it[1], 8 - it[2])))
            self.assertRegex(self.said(lambda it: (it[0], it[1], it[2] - 8)), f"isn't under the part's top.*; {wanted}")

    def test_a_fault_of_another_kind(self):
        for name in ("other-tool.ngc", "shallow.ngc"):
            self.assertEqual(self.said(program=text_of("freecad", name).decode()), "", name)


if __name__ == "__main__":
    unittest.main()
