"""Tests of the words of a line, of which one is at fault, and of the sentences on refusals."""
import unittest

from camtool import sentences, texts, words

GRID = texts.Grid({})


class Scanning(unittest.TestCase):
    def scanned(self, line):
        found, fault = words.scan(line)
        return [(it.text, line[it.start:it.end]) for it in found], fault and line[fault.start:fault.end]

    def test_words_stand_where_they_stand(self):
        self.assertEqual(self.scanned(b"N10 g0 x - 1 . 5 (X9) Y2;Z3"), ([("G0", b"g0"), ("X-1.5", b"x - 1 . 5"), ("Y2", b"Y2")], None))
        self.assertEqual(self.scanned(b" / N5 G1"), ([("/", b"/"), ("G1", b"G1")], None))
        self.assertEqual(self.scanned(b""), ([], None))

    def test_faults_stand_where_they_stand(self):
        for line, at in ((b"G1 X#1", b"X"), (b"G1 (a", b"("), (b"G1 X1,5", b","), (b"G1 N5", b"N"), (b"\xff", b"\xff")):
            self.assertEqual(self.scanned(line)[1], at, line)
        self.assertEqual(self.scanned(b"X1234567890123456789")[1], b"X1234567890123456789")
        self.assertEqual(self.scanned(b"M8" * 33)[1], b"M8")

    def test_the_word_that_a_code_means(self):
        for code, line, told in (
            ("not-in-profile", b"G1 X1 G43 H1", "`G43`"),
            ("late-tool", b"M3 T2 M6", "`T2`"),
            ("group", b"G0 G01 X1", "`G0` and `G01`"),
            ("twice", b"X1 Y2 X3", "`X1` and `X3`"),
            ("off-grid", b"X1.5 Y0.001", "`Y0.001`"),
            ("out-of-range", b"X1.5 Y-2000", "`Y-2000`"),
            ("no-axis", b"G1 F100", "`G1`"),
            ("word", b"G1 X", "`X` has no number behind it"),
            ("no-end", b"", None),
        ):
            found = words.fault_of(code, line, GRID)
            self.assertEqual(found and found.told, told, code)

    def test_why_a_word_is_none(self):
        self.assertIn("inches", words.why_not("`G20`"))
        self.assertIn("rounds corners", words.why_not("`G064`"))
        self.assertEqual([words.why_not(it) for it in (None, "`E5`")], ["", ""])


class Sentences(unittest.TestCase):
    def sentence(self, line, job=None):
        return sentences.sentence_of(sentences.refusal_of(line), job or {})

    def test_the_units_are_those_of_the_job(self):
        self.assertIn("hundredths of a millimetre from 1 to 10,000; 3.0 mm is 300", self.sentence("refused job range radius"))
        self.assertIn("thousandths of a millimetre from 1 to 10,000; 3.0 mm is 3000", self.sentence("refused job range radius", {"unit": "thousandth"}))

    def test_a_key_that_is_nearly_right(self):
        self.assertIn("(`allowance`?)", self.sentence("refused job unknown allowence"))

    def test_lines_that_refuse_nothing(self):
        for line in ("accepted moves 1", "rejected left row 0 column 0 top 1.00", ""):
            self.assertIsNone(sentences.refusal_of(line))


if __name__ == "__main__":
    unittest.main()
