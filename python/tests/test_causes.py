"""Tests of what may have gone wrong where a text is refused."""
import os
import tempfile
import unittest

from camtool import causes

JOB = b'cutter = "flat"\nradius = 300\nfloor = 0\n'
LIST = b'[[steps]]\nprogram = "a.ngc"\ncutter = "flat"\nradius = 300\n'
PART = b"solid Mesh\nfacet normal 0 0 1\n"
PROGRAM = b"%\n(a program)\nG21 G90\nG1 X1 F100\nM2\n"
BINARY = bytes(80) + (1).to_bytes(4, "little") + bytes(50)


class Encodings(unittest.TestCase):
    def test_of_each_kind(self):
        for name, encoded in (("UTF-16", "utf-16"), ("UTF-16", "utf-16-le"), ("UTF-16", "utf-16-be"), ("a byte order mark", "utf-8-sig"), (None, "utf-8")):
            text = PROGRAM.decode().encode(encoded)
            self.assertEqual(causes.decoded(text), (name, PROGRAM), encoded)
            self.assertEqual(causes.cause_of_encoding("a b.ngc", text) is None, name is None)
        self.assertIn("tail -c +4 'a b.ngc' >OTHER", causes.cause_of_encoding("a b.ngc", b"\xef\xbb\xbfM2\n"))

    def test_nothing_of_an_empty_text(self):
        self.assertEqual(causes.decoded(b""), (None, b""))


class Kinds(unittest.TestCase):
    def test_of_each_text(self):
        for kind, text in (("job", JOB), ("list", LIST), ("part", PART), ("part", BINARY), ("program", PROGRAM), (None, b"To whom it may concern\n"), (None, b"")):
            self.assertEqual(causes.kind_of(text), kind, text[:20])

    def test_in_another_encoding(self):
        self.assertEqual(causes.kind_of(PROGRAM.decode().encode("utf-16")), "program")


class Orders(unittest.TestCase):
    def test_all_three_are_there(self):
        said = causes.cause_of_order("job", ["a.stl", "b.toml", "c d.ngc"], [PART, JOB, PROGRAM])
        self.assertIn("a.stl is a part (STL), and stands in the place of the job", said)
        self.assertTrue(said.endswith("write `camtool verify b.toml a.stl 'c d.ngc'`"), said)

    def test_with_a_list(self):
        said = causes.cause_of_order("part", ["a", "b", "c"], [JOB, LIST, PART])
        self.assertTrue(said.endswith("write `camtool rest a c b`"), said)

    def test_one_twice(self):
        said = causes.cause_of_order("program", ["a", "b", "c"], [JOB, PART, PART])
        self.assertTrue(said.endswith("the words are JOB PART FILE, in this order"), said)

    def test_in_order(self):
        files = [JOB, PART, PROGRAM]
        self.assertEqual([causes.cause_of_order(kind, ["a", "b", "c"], files) for kind in ("job", "part", "program")], [None] * 3)
        self.assertIsNone(causes.cause_of_order("list", ["a", "b", "c"], [JOB, PART, LIST]))
        self.assertIsNone(causes.cause_of_order("job", ["a", "b", "c"], [b"?", PART, PROGRAM]))


class Commas(unittest.TestCase):
    def test_in_a_program(self):
        for line, start, right in ((b"G1 X1,5 Y2", 5, "`X1.5`"), (b"g1 x ,5", 5, "`X0.5`"), (b"N10 G1 X-12,25", 11, "`X-12.25`")):
            self.assertIn(right, causes.cause_of_comma(line, start) or "", line)
        self.assertIsNone(causes.cause_of_comma(b"J2,15.0,20.0", 2))
        self.assertIsNone(causes.cause_of_comma(b"G1 X1.5", 3))

    def test_in_a_job(self):
        for text, number, right in ((b"a = 1\nradius = 2,98 # mm\n", 2, "`radius = 298`"), (b'unit = "thousandth"\nradius = 2,5\n', 2, "`radius = 2500`"),
                                    (b"floor = -0,5\n", 1, "`floor = -50`")):
            found = causes.comma_of_job(text)
            self.assertEqual(found[0], number)
            self.assertIn(right, found[2])
        self.assertNotIn("mm is", causes.comma_of_job(b"radius = 2,9875\n")[2])
        self.assertIsNone(causes.comma_of_job(b"area = [0, 1, 2, 3]\n"))


class Starts(unittest.TestCase):
    def test_of_other_controls(self):
        self.assertIn("OpenSBP", causes.cause_of_word(b"'Exported", 0))
        self.assertIn("stands beside `%`", causes.cause_of_word(b"%prog1", 0))
        self.assertIsNone(causes.cause_of_word(b"%", 0))


class Folders(unittest.TestCase):
    def test_from_where_names_are_looked_for(self):
        with tempfile.TemporaryDirectory() as folder:
            file = os.path.join(folder, "a.ngc")
            self.assertIn("mend the name", causes.cause_of_folder("a.ngc", os.path.join(folder, "list.toml")))
            with open(file, "wb"):
                pass
            said = causes.cause_of_folder("a.ngc", os.path.join(folder, "list.toml"))
            self.assertIn(os.getcwd(), said)
            self.assertIn(f'`program = "{file}"`', said)
            self.assertIsNone(causes.cause_of_folder(file, "list.toml"))


if __name__ == "__main__":
    unittest.main()
