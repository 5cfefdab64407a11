"""Tests of the reader of programs in machine words."""
import unittest

from camtool import job, lint, machine_words, sentences, texts, words

KEYS = {"clear": 400, "start": "anywhere", "words": "machine"}
HEAD = "G21 G90 G54\nG0 Z9\nG0 X1 Y1\n"
# (a job that takes arcs)
ARCS = {"slack": 3}


def read(text, **keys):
    """How a program is read: the kinds and ends of its moves, or the line and the code of its first fault."""
    reading = machine_words.read(text.encode(), {**KEYS, **keys})
    if reading.fault:
        return f"{reading.fault.line} {reading.fault.code}"
    return [(it.kind, *it.end) for it in reading.moves]


def told(text, **keys):
    """What a program takes for granted, in one text."""
    step = {**KEYS, **keys, "cutter": "flat", "radius": 100, "floor": 0, "top": 300, "area": [0, 0, 1, 1], "home": [0, 0], "pitch": 1, "sample": 1, "allowance": 0, "band": 0}
    return "\n".join(job.premises_of(job.Job(step), machine_words.read(text.encode(), step).premises))


class Reading(unittest.TestCase):
    def test_the_first_whole_place(self):
        start = [("rapid", 100, 100, 900)] * 2
        self.assertEqual(read(f"{HEAD}G1 Z3\nM2\n"), [*start, ("feed", 100, 100, 300)])
        self.assertEqual(read("M30\n"), [])
        self.assertEqual(read("G21 G90\nG0 Z9\nM2\n"), [])
        # (up to the machine's place before any Z: the list is at `clear`, and goes up from there)
        high = [("rapid", 100, 100, 400)] * 2
        self.assertEqual(read("G21\nG28 G91 Z0\nG90 G0 X1 Y1\nZ5\nM2\n"), [*high, ("rapid", 100, 100, 500)])

    def test_inches_and_numbers_finer_than_a_unit(self):
        self.assertEqual(read("G20 G90\nG0 Z.4\nX.1 Y-.1\nM2\n", slack=3)[1], ("rapid", 254, -254, 1016))
        self.assertEqual(read(f"{HEAD}X2.005 Y-2.005\nM2\n", slack=3)[-1], ("rapid", 201, -201, 900))
        self.assertEqual(read(f"{HEAD}X2.005\nM2\n", slack=2), "4 off-grid")

    def test_what_is_known_of_the_place(self):
        for text, wanted in (
                ("G21 G90 G0 X1 Y1\n", "1 start"), ("G21 G90 G0 Z3.99\n", "1 start"), (f"{HEAD}G53 Z0\nG1 Z3\n", "5 start"),
                (f"{HEAD}G55\nX2\n", "5 start"), (f"{HEAD}G53 X0 Y0\nX2\n", "5 start"), (f"{HEAD}Z3\nG53 X0\n", "5 start"),
                (f"{HEAD}G55\nZ9\n", "5 late-offset"), (f"{HEAD}G43 H1\nZ9\n", "5 late-offset"), (f"{HEAD}T1 M6\nZ9\n", "5 late-tool"),
                ("G21 G90 G0 Z9\nM6\nX1 Y1\n", "3 start")):
            self.assertEqual(read(text), wanted, text)
        self.assertEqual(read("G21 G90 G0 Z9\nM6\nX1 Y1\nM2\n", start="change"), [("rapid", 100, 100, 900)] * 2)
        self.assertEqual(read(f"{HEAD}G43 H1\nZ8\nM2\n", lengths="one")[-1], ("rapid", 100, 100, 800))

    def test_words_that_a_line_takes(self):
        for text, wanted in (
                ("G5\n", "1 not-in-profile"), ("G1 I1\n", "1 not-in-profile"), ("G2 Q1\n", "1 not-in-profile"), ("G2 G80\n", "1 group"), ("G17 G18\n", "1 group"), ("G49 H1\n", "1 not-in-profile"), ("P1\n", "1 not-in-profile"), ("M3 O1\n", "1 not-in-profile"),
                ("/\n", "1 not-in-profile"), ("G64\n", "1 path-control"), ("G21 G64 P0.01\n", "1 path-control"), ("G0 G81\n", "1 group"),
                ("G80 G0 G80\n", "1 group"), ("G21\nG0\nG4 X1\n", "3 group"), ("G43 H1 H1\n", "1 twice"), ("%\nG21 (\n", "2 word"), ("", "1 no-end")):
            self.assertEqual(read(text), wanted, text)
        self.assertEqual(read("O7\nG00 G80 G17 G21 G91.1\nG64 P0.02\nG4 P1\nG49 H0\nG53\nG2\nG3 G18\nM2\n", slack=5), [])

    def test_cycles(self):
        across, down, cut = ("rapid", 200, 100, 900), ("rapid", 200, 100, 500), ("feed", 200, 100, 300)
        self.assertEqual(read(f"{HEAD}G98 G81 X2 R5 Z3\nM2\n")[2:], [across, down, cut, across])
        self.assertEqual(read(f"{HEAD}G99 G82 X2 R5 Z3 P1\nM2\n")[2:], [across, down, cut, down])
        peck = [("feed", 200, 100, 400), down, ("rapid", 200, 100, 410)]
        self.assertEqual(read(f"{HEAD}G99 G83 X2 R5 Z3 Q1\nM2\n", peck_clearance=10)[2:], [across, down, *peck, cut, down])
        self.assertEqual(read(f"{HEAD}G99 G73 X2 R5 Z3 Q1\nM2\n")[2:], [across, down, peck[0], cut, down])
        for text in ("G81 X2 R5 Z3", "G99 G81 X2 Z3", "G99 G81 X2 R3 Z5", "G99 G83 X2 R5 Z3 Q0", "G99 G81 X2 R10 Z3", "G99 G81", "G99 G81 X1 R5 Z3\nG98 X2"):
            self.assertEqual(read(HEAD + text + "\n")[2:], "cycle", text)
        self.assertEqual(read(f"{HEAD}G99 G83 R5 Z3 Q.0000001\n", slack=3), "4 too-many-moves")

    def test_arcs(self):
        self.assertEqual(len(read(f"{HEAD}G2 I1\nM2\n", **ARCS)), 2 + 32)
        # (a quarter of radius 4 units is one chord, and in G18 G3 turns from Z to X)
        self.assertEqual(read(f"{HEAD}G3 X.96 Y1.04 I-.04\nM2\n", **ARCS)[2:], [("feed", 96, 104, 900)])
        self.assertEqual(read(f"{HEAD}G18 G3 X1.04 Z8.96 K-.04 J0\nM2\n", **ARCS)[2:], [("feed", 104, 100, 896)])
        self.assertEqual(read(f"{HEAD}G2 X.96 Y1.04 Z9.5 I-.04\nX1 Y1 I.04 J0\nM2\n", **ARCS)[-1], ("feed", 100, 100, 950))
        # (the mode stays)
        self.assertEqual(len(read(f"{HEAD}G2\nI1\nI1\nM2\n", **ARCS)), 2 + 64)
        for text in ("G2 I0", "G2 I1 K.0000000001", "G2 I1 R1", "G2 X2 K0", "G2 I2000", "G2 I.0000001", "G2 X1.0000001 I1", "X1.0000001 Y1\nG2 I1",
                     "G2 X3.02 I1", "G2 Y1.0004 I1", "G3 Y2", "G18 G3 X2 I.3 J1"):
            self.assertEqual(read(HEAD + text + "\n", **ARCS)[2:], "arc", text)
        self.assertEqual(read(f"{HEAD}G2 I1\n", slack=4, unit="thousandth", clear=4000), "4 arc")
        self.assertEqual(len(read(f"{HEAD}G2 X3.02 I1\nM2\n", slack=4, arc_tol=2)), 2 + 16)

    def test_the_order_of_an_arcs_checks(self):
        for text, wanted in (
                ("G43 H1\nG2 I1", "5 start"), ("G2 G28 Z0 I1", "4 not-in-profile"), ("G53 G2 I1", "4 not-in-profile"), ("G91 G2 I1", "4 no-absolute"),
                ("G64 P.02\nG2 I1 R1", "5 path-control"), ("G64 P.02\nG61\nG2 I1 R1", "6 arc"), ("G2 X2000 I1 R1", "4 arc"), ("G2 X2000 I1", "4 out-of-range"),
                ("G0 X1310 Y0\nG2 J1 X1310 Y1", "5 arc"), ("G0 X1310 Y0\nG2 J1 X1310 Y2", "6 no-end")):
            self.assertEqual(read(HEAD + text + "\n", slack=5, arc_tol=2), wanted, text)
        self.assertEqual(read(f"{HEAD}G0 X1310 Y0\nG3 J1 X1310 Y2\n", **ARCS), "5 out-of-range")

    def test_the_place_of_an_arc_is_as_the_text_names_it(self):
        # (rounded to units, the start would be 5 and the end 6 from the centre)
        self.assertEqual(read(f"{HEAD}G0 X1.0549 Y1\nG3 X.9451 I-.0549\nM2\n", **ARCS)[-1], ("feed", 95, 100, 900))
        # (behind a cycle Z is at R, or at the height where the series began, as these are named)
        ends = "G18 G2 Z9.0049 X1.2 K0 I.1\nM2\n"
        self.assertEqual(read(f"{HEAD}G0 Z9.0049\nG98 G81 X1 Y1 R9.003 Z3\n{ends}", **ARCS)[-1], ("feed", 120, 100, 900))
        self.assertEqual(read(f"{HEAD}G0 Z9.0049\nG99 G81 X1 Y1 R9.0000001 Z3\n{ends}", **ARCS), "6 arc")
        self.assertEqual(read(f"{HEAD}G18 G99 G81 X1 Y1 R5 Z3\n", **ARCS), "4 cycle")

    def test_spindle(self):
        self.assertEqual(read(f"{HEAD}M3 S1 F1\nM1\nG1 X2\n", spindle=True), "6 no-spindle")
        self.assertEqual(read(f"{HEAD}M3 S1\nG1 X2\n", spindle=True), "5 no-feed")


class Telling(unittest.TestCase):
    def test_premises(self):
        text = "G21 G90 G0 Z9\nT1 M6\nG54\nG43 H1\nZ8\nX1 Y1\nG99 G83 R5 Z3 Q1\nG0 G53 Z0\nM2\n"
        said = told(text, start="change")
        for wanted in ("G83", "late"):
            self.assertNotIn(wanted, said)
        for wanted in ("what is in force before the program (line 1)", "Z of line 1 stands before"):
            self.assertIn(wanted, told("G21 G90 G0 Z9\nT1 M6\nZ9\nX1 Y1\nM2\n"))
        whole = told("G21 G90\nM6\nG54 G43 H1\nG0 Z8\nX1 Y1\nG99 G83 X1 R5 Z3 Q1\nG0 G53 Z0\nM2\n", start="change")
        for wanted in ("G54 (line 4)", "G43 H1 (line 4)", "M6 leaves the tip at or over `clear`", "0.25 mm over the depth before or higher (line 6)", "G53 (line 7) goes up"):
            self.assertIn(wanted, whole)
        self.assertIn("leave a tip that was at or over `clear` there, with the new tool too (line 3)", told("G21 G90\nG53 G0 Z0\nT1 M6\nM2\n"))
        self.assertIn("I, J and K are offsets from an arc's start (line 4)", told(f"{HEAD}G2 I1\nM2\n", slack=4))
        self.assertNotIn("I, J and K", told(f"{HEAD}G2 I0\nM2\n", slack=4))
        self.assertIn("one tool length", told(f"{HEAD}M2\n", lengths="one"))

    def test_the_word_at_fault(self):
        for text, line, code, wanted in (
                (b"G21 G20\n", 1, "group", "`G21` and `G20`"), (b"G0 X1 G5\n", 1, "not-in-profile", "`G5`"), (b"G43 H1 H2\n", 1, "twice", "`H1` and `H2`"),
                (b"G21\nX1 G4\n", 2, "group", "`X1` and `G4`"), (b"G64\n", 1, "path-control", "`G64`"), (b"/M8\n", 1, "not-in-profile", "`/`"),
                (b"G28 X1\n", 1, "not-in-profile", "`G28`"), (b"G21 G90 G0 Z9.001\n", 1, "off-grid", "`Z9.001`"), (b"G21 G90 G0 Z9999\n", 1, "out-of-range", "`Z9999`")):
            self.assertEqual(machine_words.fault_of(text, line, code, KEYS).told, wanted)
        self.assertIsNone(machine_words.fault_of(b"G21\nG5\n", 1, "not-in-profile", KEYS))
        text = f"{HEAD}G2 I1 K1\n".encode()
        self.assertEqual(machine_words.fault_of(text, 4, "arc", {**KEYS, **ARCS}).told, "`K1`")
        self.assertEqual(machine_words.why_of(text, 4, "arc", {**KEYS, **ARCS}), " (K isn't 0 in the plane of I and J)")
        self.assertEqual(machine_words.why_of(text, 3, "arc", KEYS), "")

    def test_why_an_arc_is_not_taken(self):
        for text, wanted in (
                ("G2 I1 R1", "it tells a radius"), ("G2 X2", "neither I nor J"), ("G2 I2000", "farther off"), ("G2 I.0000001", "a number is finer"),
                ("G2 X3.02 I1", "its start is 1.0000 mm from its centre, and its end 1.0200 mm"), ("G2 Y1.0004 I1", "next to each other"), ("G2 I0", "under a micrometre")):
            self.assertIn(wanted, machine_words.why_of(f"{HEAD}{text}\n".encode(), 4, "arc", {**KEYS, **ARCS}), text)
        self.assertIn("needs a `slack` of at least 3", machine_words.why_of(f"{HEAD}G2 I1\n".encode(), 4, "arc", KEYS))

    def test_sentences(self):
        for code in ("not-in-profile", "path-control", "late-offset", "cycle", "arc", "start", "late-tool", "no-units"):
            self.assertTrue(sentences.sentence_of(sentences.Refusal("program", 1, code, ""), KEYS, "`X1`"), code)
        allowed = sentences.sentence_of(sentences.Refusal("program", 1, "path-control", ""), {**KEYS, "slack": 5}, "`G64`")
        self.assertIn("of at most 0.02 mm", allowed)
        arc = sentences.sentence_of(sentences.Refusal("program", 1, "path-control", ""), {**KEYS, "slack": 5, "arc_tol": 2})
        self.assertTrue(arc.startswith("the G64 that is in force asks") and "before arcs of at most 0.01 mm" in arc, arc)
        self.assertIn("a job with `words = \"machine\"` reads it", words.why_not("`G43`"))
        self.assertNotIn("reads it", words.why_not("`G41`"))
        self.assertIn("H stands with G43", words.why_not("`H1`", True))

    def test_moves_by_either_kind_of_words(self):
        self.assertEqual(len(machine_words.moves_of(f"{HEAD}M2\n".encode(), KEYS)), 2)
        strict = {"clear": 400, "home": [0, 0]}
        self.assertEqual(machine_words.moves_of(b"G21 G90 G0 X1\nM2\n", strict), texts.moves_of(b"G21 G90 G0 X1\nM2\n", (0, 0, 400), texts.Grid({})))

    def test_all_refusals_are_asked_by_the_jobs_own_words(self):
        self.assertLessEqual({"words", "slack", "lengths", "peck_clearance", "arc_tol"}, set(lint.HABITS))


if __name__ == "__main__":
    unittest.main()
