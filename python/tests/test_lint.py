"""Tests of the search for all that is refused. What camtool refuses stands in for camtool here, in a few rules; the built
program is asked too, where it is built."""
import os
import tempfile
import unittest
from unittest import mock

from camtool import lint, machine_words, programs, texts, words
from camtool.sentences import Refusal


def refused(text, job):
    """The first fault of a program, by a few of camtool's rules: its line and its code, or None."""
    grid, has = texts.Grid(job), set()
    lines = text.split(b"\n")
    for number, line in enumerate(lines, 1):
        found, fault = words.scan(line)
        names = [words.name_of(it.text) for it in found]
        has |= set(names)
        has -= {"G0", "G1"} if "G80" in names else set()
        is_move = any(it in ("X", "Y", "Z") for it in names)
        for code, is_fault in (
            ("long-line", len(line) > 256),
            ("word", fault and line.strip() != b"%"),
            ("not-in-profile", words.fault_of("not-in-profile", line, grid)),
            ("twice", words.fault_of("twice", line, grid)),
            ("no-units", is_move and "G21" not in has),
            ("no-motion", is_move and not has & {"G0", "G1"}),
            ("off-grid", is_move and words.fault_of("off-grid", line, grid)),
        ):
            if is_fault:
                return number, code
        if "M2" in names:
            return None
    return len(lines), "no-end"


def told(text, unit=None):
    """What is found of a program: line, code, what is at fault, and from what it may follow; and whether it is taken."""

    def answer(asking, copy):
        found = refused(copy, asking.job)
        return found and Refusal("program", *found, "")

    with mock.patch.object(lint.Asking, "refusal", answer):
        found, is_taken, its_unit = lint.all_refused("a.ngc", text, unit)
    return [(it.line, it.code, it.told, it.after) for it in found], is_taken, its_unit


class Habits(unittest.TestCase):
    def test_the_job_that_is_asked_with(self):
        with tempfile.TemporaryDirectory() as folder:
            asking = lint.Asking(folder, "hundredth", {"start": "anywhere", "clear": 900, "spindle": True})
            job = texts.job_of(asking_job(folder))
            self.assertEqual((job["start"], job["clear"], job["spindle"]), ("anywhere", 900, True))
            asking.start_at_home()
            job = texts.job_of(asking_job(folder))
            self.assertEqual((job.get("start"), job["clear"], job["spindle"]), (None, 131_071, True))

    def test_the_start_is_told_once_and_what_a_feed_lacks_is_put_in(self):
        def answer(asking, copy):
            if asking.habits.get("start") == "anywhere":
                return Refusal("program", 2, "start", "")
            if b"M3" not in copy:
                return Refusal("program", 2, "no-spindle", "")
            return None if b"F" in copy else Refusal("program", 2, "no-feed", "")

        with mock.patch.object(lint.Asking, "refusal", answer):
            found, is_taken, _ = lint.all_refused("a.ngc", b"G21 G90\nG1 X1\nM2\n", None, {"start": "anywhere", "clear": 9, "spindle": True})
        self.assertEqual(([it.code for it in found], is_taken), (["start", "no-spindle", "no-feed"], True))


def asking_job(folder):
    """The bytes of the job that camtool is asked with."""
    with open(os.path.join(folder, "job.toml"), "rb") as file:
        return file.read()


class Searching(unittest.TestCase):
    def test_nothing(self):
        self.assertEqual(told(b"G21 G90\nG1 X1\nM2\n"), ([], True, "hundredth"))

    def test_an_arc_and_what_follows_from_it(self):
        found, is_taken, _ = told(b"G21\nG2 X1 I2 J3\nX2\nM2\n")
        self.assertEqual(found, [(2, "not-in-profile", "`G2`", None), (2, "not-in-profile", "`I2`", "`G2`"), (2, "not-in-profile", "`J3`", "`G2`")])
        self.assertTrue(is_taken)

    def test_a_cycle_leaves_no_motion(self):
        found, is_taken, _ = told(b"G21\nG81 X1 R2\nX2\nM2\n")
        self.assertEqual(found[-1], (2, "no-motion", None, "`G81`"))
        self.assertTrue(is_taken)

    def test_inches_and_no_units(self):
        self.assertEqual(told(b"G20\nG1 X1\nM2\n")[0], [(1, "not-in-profile", "`G20`", None)])
        self.assertEqual(told(b"N10 G1 X1\nM2\n")[0], [(1, "no-units", None, None)])

    def test_words_that_are_none(self):
        found, is_taken, _ = told(b"G21\nG1 X#1 Y2\nG1 X(a\n'by hand: X\nG1 X1,5\nM2\n")
        self.assertEqual([it[:2] for it in found], [(2, "word"), (3, "word"), (3, "word"), (4, "word"), (5, "word")])
        self.assertEqual(found[2][3], found[1][2])
        self.assertTrue(is_taken)

    def test_long_lines_and_no_end(self):
        found, is_taken, _ = told(b"G21 (%s)\n%s\n" % (b"a" * 300, b"X1" * 200))
        self.assertEqual([it[:2] for it in found], [(1, "long-line"), (2, "long-line"), (3, "no-end")])
        self.assertTrue(is_taken)

    def test_the_unit_is_found(self):
        text = b"G21\nG1 X1.234 Y1.2345\nM2\n"
        self.assertEqual(told(text), ([(2, "off-grid", "`Y1.2345`", None)], True, "thousandth"))
        self.assertEqual(len(told(text, "hundredth")[0]), 2)

    def test_arcs_that_are_not_taken(self):
        def answer(asking, copy):
            fault = machine_words.read(copy, {**asking.job, "slack": 3}).fault
            return fault and Refusal("program", fault.line, fault.code, "")

        text = b"G21 G90\nG0 Z9\nX1 Y1\nG2 X3 R1\nG2 X1 I-1\nX3 I1.5\nX1 I-1\nM2\n"
        with mock.patch.object(lint.Asking, "refusal", answer):
            found, is_taken, _ = lint.all_refused("a.ngc", text, "hundredth", {"words": "machine", "start": "anywhere", "clear": 400, "slack": 3})
        self.assertEqual([(it.line, it.code, it.told, it.after) for it in found], [
            (4, "arc", "`R1`", None), (6, "arc", None, None), (7, "not-in-profile", "`I-1`", "the arc of line 6")])
        self.assertIn("its centre is told by I and J", found[0].sentence)
        self.assertIn("its start is 1.5000 mm from its centre, and its end 0.5000 mm", found[1].sentence)
        self.assertTrue(is_taken)

    def test_arcs_are_made_straight(self):
        for line, wanted in ((b"N5 G02 X1 I2 J3", b"N5 G1 X1  "), (b"x1 r5", b"G1 x1 "), (b"(a) I1", b"(a) G1 "), (b"G2 K1 Z2", b"G1  Z2")):
            self.assertEqual(lint.straightened(line), wanted)

    def test_encodings(self):
        for encoding in ("utf-8-sig", "utf-16"):
            found, is_taken, _ = told("G20\nM2\n".encode(encoding))
            self.assertEqual([it[:2] for it in found], [(1, "encoding"), (1, "not-in-profile")])
            self.assertTrue(is_taken)

    def test_it_ends(self):
        with mock.patch.object(lint, "MOST", 20):
            found, is_taken, _ = told(b"G2\n" * 30 + b"M2\n")
        self.assertEqual((len(found), is_taken), (20, False))
        for text in (b"\0\xff()[]\n(((\n))\n", b"XX1XX\n/\n//G1\n%\n%\n%%\n", bytes(range(256))):
            self.assertTrue(told(text)[1], text)


class Telling(unittest.TestCase):
    def told(self, found, is_taken=True, unit=""):
        return lint.tell_all("a.ngc", [lint.Refused(*it) for it in found], is_taken, unit)

    def test_alike_ones_are_told_once(self):
        said = self.told([(line, "G43 H1", "not-in-profile", "`G43`", "`G43` isn't in the profile; it takes G0 G1 G17", None) for line in range(1, 12)])
        self.assertEqual(said, ["a.ngc line 1: G43 H1", "`G43` isn't in the profile; it takes G0 G1 G17",
                                "the same on lines 2, 3, 4, 5, 6, 7, 8, 9 and 2 more",
                                "a.ngc: 11 refusals; without them camtool takes the text, and hasn't judged it"])

    def test_what_may_follow(self):
        said = self.told([(1, "I1", "not-in-profile", "`I1`", "no", "`G2`")], unit="thousandth")
        self.assertIn("no; it may follow from what was struck before it: `G2`", said)
        self.assertIn("`unit = \"thousandth\"`", "".join(said))

    def test_the_ends(self):
        self.assertEqual(self.told([]), ["a.ngc: camtool refuses nothing of it"])
        self.assertIn("there may be more", self.told([(1, "a", "word", "`a`", "no", None)] * lint.MOST, False)[-1])


class Built(unittest.TestCase):
    @unittest.skipUnless(programs.is_built("camtool"), "camtool isn't built")
    def test_of_the_program_itself(self):
        text = b"G17 G21 G90\nG43 H1\nG64 P0.01\nG0 X1 X2\nT1 M6\nG2 X5 I2 J0\nG1\nG1 X1.23\nG4 P1\n"
        found, is_taken, unit = lint.all_refused("a.ngc", text)
        self.assertTrue(is_taken)
        self.assertEqual(unit, "hundredth")
        at_fault = {(it.line, it.told) for it in found}
        for wanted in ((2, "`G43`"), (2, "`H1`"), (3, "`G64`"), (4, "`X1` and `X2`"), (6, "`G2`"), (7, "`G1`"), (9, "`G4`"), (10, None)):
            self.assertIn(wanted, at_fault)
        self.assertTrue(all(it.sentence for it in found))

    @unittest.skipUnless(programs.is_built("camtool"), "camtool isn't built")
    def test_its_job_is_taken(self):
        for unit in ("hundredth", "thousandth"):
            with tempfile.TemporaryDirectory() as folder:
                self.assertIsNone(lint.Asking(folder, unit, {}).refusal(b"G21 G90\nG0 X1\nM2\n"))
                self.assertEqual(sorted(os.listdir(folder)), ["job.toml", "part.stl", "program.ngc"])


if __name__ == "__main__":
    unittest.main()
