"""Tests of camtool-where, on lines that camtool printed: it needs no built program."""
import contextlib
import io
import os
import sys
import tempfile
import unittest
from unittest import mock

from camtool import texts, where

ROOT = os.path.dirname(os.path.dirname(os.path.dirname(os.path.abspath(__file__))))
PLATE = os.path.join(ROOT, "examples", "plate")


def text_of_plate(name):
    """The bytes of one of the plate's files."""
    with open(os.path.join(PLATE, name), "rb") as file:
        return file.read()


class Shown(unittest.TestCase):
    def setUp(self):
        made = tempfile.TemporaryDirectory()
        self.addCleanup(made.cleanup)
        self.folder = made.name

    def names(self, **others):
        """The names of the plate's files, with others' bytes in the place of some: `job`, `part`, `program`, `list`."""
        names = [os.path.join(PLATE, it) for it in ("job.toml", "part.stl", "program.ngc")]
        for kind, text in others.items():
            at = {"job": 0, "part": 1}.get(kind, 2)
            names[at] = os.path.join(self.folder, f"{kind}.toml" if kind in ("job", "list") else kind)
            with open(names[at], "wb") as file:
                file.write(text)
        return names

    def shown(self, line, names, *words):
        """The status, and the lines that are printed for a line on standard input."""
        printed = io.StringIO()
        usual, sys.stdin = sys.stdin, io.TextIOWrapper(io.BytesIO(line.encode() + b"\n"))
        self.picture = os.path.join(self.folder, "where.svg")
        try:
            with contextlib.redirect_stdout(printed), contextlib.redirect_stderr(printed):
                status = where.main([*names, "-", f"--picture={self.picture}", *words])
        except SystemExit as end:
            status = end.code
        finally:
            sys.stdin = usual
        return status, printed.getvalue().split("\n")[:-1]

    def last(self, line, names):
        """The last line of what is shown, which is the sentence of a refusal."""
        status, said = self.shown(line, names)
        self.assertEqual((status, said[0]), (0, line))
        return said[-1]

    def test_an_acceptance(self):
        status, said = self.shown("accepted moves 2 columns 9 left 0.00 band 0.00 allowance 0.00", self.names())
        self.assertEqual(status, 0)
        self.assertEqual(said[1], "the path goes from X1.00 Y1.00 Z2.00 to X1.00 Y1.00 Z4.00, and feeds down to Z2.00")
        self.assertIn("stands at most 0.00 mm over the part (it at its place)", said[2])
        self.assertTrue(os.path.getsize(self.picture) > 500)

    def test_an_acceptance_that_says_nothing(self):
        with open(os.path.join(PLATE, "job.toml"), "rb") as file:
            job = file.read().replace(b"allowance = 0", b"allowance = 10000").replace(b"band = 0", b"band = 100")
        self.assertIn(b"10000", job)
        status, said = self.shown("accepted moves 2 columns 9 left 1.00 band 1.00 allowance 100.00", self.names(job=job))
        text = "\n".join(said)
        self.assertEqual(status, 0)
        for wanted in ("`allowance` is as high as the whole stock of 3.00 mm", "`allowance = 10` for 0.1 mm", "1.00 mm of 3.00 mm of stock are left somewhere", "points less than 1.00 mm away"):
            self.assertIn(wanted, text)

    def test_an_acceptance_with_margins(self):
        with open(os.path.join(PLATE, "job.toml"), "rb") as file:
            job = file.read() + b"slack = 3\novercut = 8\n"
        _, said = self.shown("accepted moves 2 columns 9 left 0.03 band 0.00 allowance 0.03 overcut 0.08 slack 0.03", self.names(job=job))
        self.assertIn("the tip may be 0.03 mm off its place\nthe part may be cut by 0.08 mm", "\n".join(said))

    def test_boxes(self):
        with open(os.path.join(PLATE, "job.toml"), "rb") as file:
            job = file.read() + b"keep_out = [[300, 0, 400, 200, 250], [0, 0, 100, 100, 300]]\nstart = 'anywhere'\nspindle = true\n"
        for test, tool in (("fixture", "the tool"), ("holder-fixture", "the holder")):
            status, said = self.shown(f"rejected {test} move 1 box 1 leaf 1 1", self.names(job=job, program=b"G21 G90\nG0 Z4\nX1 Y1\nM2\n"))
            self.assertEqual(status, 0, said)
            text = "\n".join(said)
            self.assertIn("X0.00 Y0.00 to X1.00 Y1.00, from below up to Z3.00", text)
            self.assertIn(f"lift the move until {tool} is over that height", text)
        self.assertEqual(self.shown("rejected fixture move 1 box 2 leaf 1 1", self.names(job=job, program=b"G21 G90\nG0 Z4\nX1 Y1\nM2\n"))[0], 2)
        _, said = self.shown("accepted moves 2 columns 9 left 0.00 band 0.00 allowance 0.00", self.names(job=job, program=b"G21 G90\nG0 Z4\nX1 Y1\nM2\n"))
        for wanted in ("the cutter comes into none of the 2 boxes of `keep_out`", "it may start from anywhere", "no line feeds before M3 or M4"):
            self.assertIn(wanted, "\n".join(said))

    def test_a_rapid_that_may_bend(self):
        with open(os.path.join(PLATE, "job.toml"), "rb") as file:
            job = file.read() + b"keep_out = [[300, 0, 400, 200, 250]]\nrapids = 'axes'\n"
        names = self.names(job=job, program=b"G21 G90\nG0 X5 Y5 Z2\nG0 Z4\nM2\n")
        _, said = self.shown("rejected fixture move 0 box 0 leaf 0 0", names)
        self.assertIn("it may go any way in the box of its two ends", "\n".join(said))
        self.assertIn("up first with Z alone, and then across", "\n".join(said))
        _, said = self.shown("rejected fixture move 1 box 0 leaf 1 0", names)
        self.assertIn("the piece from X5.00 Y5.00 Z2.00 to X5.00 Y5.00 Z3.00 of it fails", "\n".join(said))
        _, said = self.shown("accepted moves 2 columns 9 left 0.00 band 0.00 allowance 0.00", names)
        self.assertIn("each axis may run at its own speed on a rapid", "\n".join(said))

    def test_a_chord_of_an_arc(self):
        job = text_of_plate("job.toml") + b'words = "machine"\nstart = "anywhere"\nslack = 3\n'
        program = b"G21 G90\nG0 Z4\nX1 Y1\nG1 Z2\nG3 I2\nM2\n"
        status, said = self.shown("rejected gouge move 5 triangle 0 leaf 0 0", self.names(job=job, program=program))
        self.assertEqual(status, 0)
        self.assertIn("move 5, a feed along chord 3 of its arc's 32 from X1.15 Y0.23 Z2.00 to", "\n".join(said))
        _, said = self.shown("rejected gouge move 2 triangle 0 leaf 0 0", self.names(job=job, program=program))
        self.assertNotIn("chord", "\n".join(said))
        status, said = self.shown("refused program line 5 arc", self.names(job=job, program=program.replace(b"I2", b"R2")))
        self.assertIn("the arc isn't taken (it tells a radius: its centre is told by I and J): an arc needs", "\n".join(said))

    def test_refusals_of_the_new_keys(self):
        for line, wanted in (
                ("refused job missing feed", "plan by a copy of the job without `spindle`"), ("refused job range keep_out", "at most 64"),
                ("refused job range rapids", '"straight" or "axes"'),
                ("refused job kind spindle", "true or false, without quotes"), ("refused job range arc_tol", "hundredths of a millimetre from 1 to 100"),
                ("refused job relation arc_tol slack", "a lesser `arc_tol`"), ("refused job relation keep_out clear", "raise `clear` over clamps and vice"),
                ("refused program line 2 start", "G0 with Z alone"), ("refused program line 2 no-spindle", "the spindle doesn't turn"), ("refused program line 2 no-feed", "an F over 0")):
            self.assertIn(wanted, self.last(line, self.names()))

    def test_an_acceptance_of_a_list(self):
        steps = f"[[steps]]\nprogram = '{PLATE}/program.ngc'\nradius = 150\ncutter = 'flat'\n".encode()
        status, said = self.shown("accepted files 1 moves 2 columns 9 left 0.00", self.names(list=steps))
        self.assertEqual((status, "the path goes from" in said[1]), (0, True), said)

    def test_encodings(self):
        for encoding, wanted in (("utf-8-sig", "byte order mark"), ("utf-16", "UTF-16")):
            for kind, line in (("program", "refused program line 1 word"), ("part", "refused part line 1 expected"), ("job", "refused job syntax")):
                # (camtool takes the mark before a job, and refuses something else)
                self.assertEqual(wanted in self.last(line, self.names(**{kind: "G21 G90\nM2\n".encode(encoding)})), (kind, encoding) != ("job", "utf-8-sig"))

    def test_commas(self):
        self.assertIn("a number has a point, `X1.5`", self.last("refused program line 2 word", self.names(program=b"G21 G90\nG1 X1,5\n")))
        self.assertIn("`radius = 298`", self.last("refused job syntax", self.names(job=b"floor = 0\nradius = 2,98\n")))
        self.assertIn("comma", self.last("refused part line 3 spelling", self.names(part=b"solid\nfacet\nvertex 0,5 0 0\n")))
        self.assertIn("no comma", self.last("refused word x spelling", self.names()))

    def test_a_text_without_quotes(self):
        for reader in (texts.tomllib, None):
            with mock.patch.object(texts, "tomllib", reader):
                said = "\n".join(self.shown("refused job syntax", self.names(job=b"floor = 0\ncutter = flat\n"))[1])
                self.assertIn("job.toml line 2: cutter = flat", said)
                self.assertIn("in quotes", said)

    def test_files_in_another_order(self):
        job, part, program = self.names()
        self.assertTrue(self.last("refused job syntax", [part, job, program]).endswith(f"`camtool verify {job} {part} {program}`"))
        self.assertTrue(self.last("refused part line 1 expected", [job, program, part]).endswith(f"`camtool verify {job} {part} {program}`"))
        self.assertIn("in the place of the list", self.last("refused list unknown floor", [job, part, job]))

    def test_a_list_in_another_folder(self):
        names = self.names(list=b"[[steps]]\nprogram = 'a.ngc'\nradius = 150\ncutter = 'flat'\n")
        with open(os.path.join(self.folder, "a.ngc"), "wb"):
            pass
        status, said = self.shown("read fault program 0", names)
        self.assertEqual(status, 0)
        self.assertIn(f"{os.path.join(self.folder, 'a.ngc')} is there", said[2])

    def test_a_number_that_is_taken_for_an_option(self):
        self.assertIn("`--x=-1.5`", self.last("error: unexpected argument '-1,5' found", self.names()))

    def test_a_job_in_whole_millimetres(self):
        job = b'cutter = "flat"\nradius = 3\nfloor = 0\ntop = 3\nclear = 4\narea = [0, 0, 2, 2]\n'
        _, said = self.shown("refused part-top 2.00 top 0.03", self.names(job=job))
        self.assertIn("`top = 3` is 0.03 mm: lengths are whole hundredths of a millimetre, so 3 mm is 300", said)

    def test_a_part_in_other_units(self):
        job = b'radius = 3\ntop = 8\nclear = 9\narea = [0, 0, 8, 8]\n'
        _, said = self.shown("refused part-top 2.00 top 0.08", self.names(job=job))
        self.assertIn("25.4 times smaller the part fits the stock: were its millimetres taken for inches? Export it in millimetres", said)

    def test_words(self):
        for words in (["a"], ["--all"], ["--all", "a", "b"], ["a", "b", "c", "d"], ["a", "b", "--what"]):
            printed = io.StringIO()
            with contextlib.redirect_stderr(printed), self.assertRaises(SystemExit) as end:
                where.main(words)
            self.assertEqual((end.exception.code, printed.getvalue().split("\n")[0][:14]), (2, "camtool-where "), words)

    def test_all_in_both_orders(self):
        with mock.patch.object(where, "show_all", lambda asked: (asked.all, asked.names)):
            for words in (["--all", "p.ngc", "j.toml", "p.stl"], ["--all", "j.toml", "p.stl", "p.ngc"]):
                self.assertEqual(where.main(words), ("p.ngc", ["j.toml", "p.stl"]))
            self.assertEqual(where.main(["--all", "l.toml"]), ("l.toml", []))


if __name__ == "__main__":
    unittest.main()
