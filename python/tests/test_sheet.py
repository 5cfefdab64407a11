"""Tests of camtool.sheet: what it reads of a program, what it tells, and whether a file is the one that was judged."""
import unittest
from decimal import Decimal

import made
from camtool import parts, sheet, sheet_facts, texts
from camtool.facts import spelled

GRID = texts.Grid({})


def facts(text):
    """Returns what a program of a small job says, whose stock is 5 mm high."""
    return sheet_facts.facts_of(text.encode(), texts.moves_of(text.encode(), (0, 0, 600), GRID), 500)


class Facts(unittest.TestCase):
    def test_names_of_words(self):
        for word, wanted in ((("G", "01"), "G1"), (("G", "54.0"), "G54"), (("M", "3"), "M3"), (("G", "61.1"), "G61.1")):
            self.assertEqual(spelled(word[0], Decimal(word[1])), wanted)

    def test_the_head_of_a_program(self):
        found = facts(made.program())
        self.assertEqual((found.first, found.cut), (5, 8))
        self.assertEqual(found.words["G61"], [1])
        self.assertEqual(found.comments, ["T1 flat end mill 2 mm"])
        self.assertEqual((found.spindle, found.speeds), ((4, "M3"), [(4, 9000)]))
        self.assertEqual({float(value) for _, value in found.feeds}, {300, 600})
        self.assertEqual((found.behind, set(found.odd.values())), (0, {0}))

    def test_what_a_control_may_read_in_another_way(self):
        text = "%\r\nG21 G90 (why?)\nG1 Z1 ; down\nM2\n%\nG0 X9\n"
        found = facts(text)
        self.assertEqual(list(found.odd.values()), [1, 1, 1])
        self.assertEqual(found.behind, 1)
        self.assertIsNone(found.spindle)

    def test_the_spindle_before_the_first_cut(self):
        for head, wanted in (("M3 S5", (1, "M3")), ("M3 S5\nM5", (2, "M5")), ("S5", None), ("M04", (1, "M4"))):
            self.assertEqual(facts(f"{head}\nG21 G90\nG0 Z6\nG1 Z1\nM3\nM2\n").spindle, wanted)

    def test_rapids_that_go_sideways_under_the_top(self):
        moves = texts.moves_of(b"G21 G90 G0\nX1 Z6\nX2 Z5\nZ1\nX3\nZ9\n", (0, 0, 600), GRID)
        self.assertEqual(sheet_facts.low_rapids(moves, 500), [5])

    def test_open_edges(self):
        a, b, c, d = (0, 0, 0), (9, 0, 0), (0, 9, 0), (0, 0, 9)
        closed = [(a, b, c), (a, b, d), (b, c, d), (a, c, d)]
        self.assertEqual([parts.open_edges(closed[:it]) for it in (4, 3, 1, 0)], [0, 3, 3, 0])

    def test_numbers(self):
        for text, wanted in (("600.00", "600"), ("12.50", "12.5"), ("8000", "8000"), ("0.0", "0")):
            self.assertEqual(sheet.number(Decimal(text)), wanted)


class Sheet(made.Folder):
    def text_of(self, program):
        self.store("program.ngc", program)
        return self.call(sheet.main, "job.toml", "part.stl", "program.ngc", "--text")

    def test_of_an_accepted_program(self):
        status, said, errors = self.text_of(made.program())
        self.assertEqual((status, errors), (0, ""))
        for wanted in (
                "accepted moves", "T1: flat end mill, diameter 2.00 mm", "T1 flat end mill 2 mm", "(10.00 by 8.00 by 5.00 mm)", "Before line 5 the tip stands at X0.00 Y0.00 Z6.00",
                "M3 on line 4, S9000; the first cut is on line 8.", "Feeds from 300 to 600 mm/min.", "G61 (line 1) sets exact paths", "X-2.20 Y-1.00 to X5.90 Y9.00, down to Z2.00", "a stand-in"):
            self.assertTrue(wanted in said, (wanted, said))

    def test_what_a_shop_has_to_see_to_is_marked(self):
        changed = made.program().replace("M3 S9000\n", "M5\n").replace(" G61", "").replace(" F300", "").replace(" F600.0", "").replace("T1\n", "T7\n")
        _, said, _ = self.text_of(changed)
        for wanted in ("! The program has no G61", "! M5 on line 4 before the first cut", "! No F before the first cut", "T7: flat"):
            self.assertTrue(wanted in said, (wanted, said))

    def test_boxes_start_and_spindle_of_the_job(self):
        self.store("job.toml", made.JOB + 'keep_out = [[-900, 0, -500, 800, 450], [-900, -900, -500, -800, 650]]\nstart = "anywhere"\nspindle = true\n')
        _, said, _ = self.text_of(made.program())
        for wanted in (
                "All that stands on the table lies in these boxes", "Box 0: X-9.00 Y0.00 to X-5.00 Y8.00, up to Z4.50. Measured", "! The job has no holder",
                "rapids go sideways under the top of stock and boxes, the first on line", "From any place: line 5 brings the tip straight up or down to Z6.00", "Each feed was judged to have a spindle"):
            self.assertTrue(wanted in said, (wanted, said))

    def test_rapids_that_may_bend(self):
        self.store("job.toml", made.JOB + 'rapids = "axes"\n')
        _, said, _ = self.text_of(made.program())
        self.assertIn("Each rapid was judged as of a control that runs each axis at its own speed", said)
        self.assertNotIn("rapids go sideways", said)

    def test_a_page_for_each_program_of_a_list(self):
        rows = made.ROWS.split("G0 Z6.00\n")
        for name, some in (("one.ngc", rows[:6]), ("two.ngc", ["", *rows[6:]])):
            self.store(name, made.program(rows="G0 Z6.00\n".join(some)))
        self.store("list.toml", "".join(f'[[steps]]\nprogram = "{it}"\ncutter = "flat"\nradius = 100\n' for it in ("one.ngc", "two.ngc")))
        status, said, _ = self.call(sheet.main, "job.toml", "part.stl", "list.toml")
        page = self.read("sheet.html")
        self.assertEqual((status, page.count("<section>"), page.count("<h1>")), (0, 2, 2))
        self.assertTrue("two.ngc, 2 of 2" in page and "sheet: sheet.html" in said)
        self.assertEqual(self.call(sheet.main, "--check", "two.ngc", "list.toml")[0], 0)

    def test_no_sheet_is_made_of_a_program_that_is_not_accepted(self):
        for program, word in ((made.program("5.30"), "rejected"), ("G99\n", "refused")):
            self.store("program.ngc", program)
            status, said, errors = self.call(sheet.main, "job.toml", "part.stl", "program.ngc")
            self.assertEqual((status, said.split()[0]), (3, word))
            self.assertTrue("no setup sheet" in errors)
            self.assertRaises(FileNotFoundError, self.read, "sheet.html")

    def test_whether_a_file_is_the_one_that_was_judged(self):
        self.store("program.ngc", made.program())
        for words, name in (((), "sheet.html"), (("--text", "-o", "sheet.txt"), "sheet.txt")):
            self.assertEqual(self.call(sheet.main, "job.toml", "part.stl", "program.ngc", *words)[0], 0)
            self.assertEqual(self.call(sheet.main, "--check", "program.ngc", "job.toml", "part.stl", "-o", name)[0], 0)
        self.store("other.ngc", made.program() + "\n")
        status, said, _ = self.call(sheet.main, "--check", "program.ngc", "other.ngc")
        self.assertEqual((status, said.split("\n")[0]), (3, "program.ngc: the file that was judged"))
        self.assertTrue("other.ngc: not a file that" in said)
        self.assertEqual(self.call(sheet.main, "--check", "program.ngc", "-o", "other.ngc")[0], 2)

    def test_it_is_stored_over_none_of_its_files(self):
        self.store("program.ngc", made.program())
        self.assertEqual(self.call(sheet.main, "job.toml", "part.stl", "program.ngc", "-o", "program.ngc")[0], 2)
        self.assertEqual(self.read("program.ngc"), made.program())

    def test_words_that_it_does_not_know(self):
        for words in ((), ("job.toml", "part.stl"), ("a", "b", "c", "--html")):
            status, said, errors = self.call(sheet.main, *words)
            self.assertEqual((status, said), (2, ""))
            self.assertTrue("camtool-sheet JOB PART" in errors)


if __name__ == "__main__":
    unittest.main()
