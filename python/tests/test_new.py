"""Tests of camtool-new: of the jobs and lists that it makes, of what it tells, and of parts as it reads and writes them."""
import os
import re
import shlex
import shutil
import struct
import unittest

import test_cutters
from test_command import ended

from camtool import keys as table, new, parts, programs, texts

ROOT = os.path.dirname(os.path.dirname(os.path.dirname(os.path.abspath(__file__))))
EXAMPLES = os.path.join(ROOT, "examples")
HEAD = "(Exported by FreeCAD)\nG17 G21 G90\nM6 T1\nM3 S8000\n"
POCKET = HEAD + "G0 Z{0}\nG0 X{1} Y{1}\nG0 Z12{2}\nG1 X{1} Y{1} Z4{2} F200\nG1 X20{2} Y{1} Z4{2} F600\nG0 Z{0}\nM5\nM2\n"
# Pockets of a plate of 40 by 30 by 8 mm, in two and in three decimals.
TWO, THREE = POCKET.format("13.00", "8.00", ".00"), POCKET.format("13.000", "8.125", ".000")
TOOLS = """[[tools]]
number = 1
diameter = 6
stickout = 30
holder = 18
[[tools]]
number = 2
kind = "drill"
diameter = 5
"""


def triangle(*corners):
    return "facet normal 0 0 1\nouter loop\n" + "".join(f"vertex {it[0]} {it[1]} {it[2]}\n" for it in corners) + "endloop\nendfacet\n"


def block(low, high):
    """Returns an ASCII STL of a closed block, its faces turned outwards."""
    at = lambda bits: tuple((high if bits >> axis & 1 else low)[axis] for axis in range(3))
    faces = ((0, 2, 3, 1), (4, 5, 7, 6), (0, 1, 5, 4), (2, 6, 7, 3), (0, 4, 6, 2), (1, 3, 7, 5))
    tris = [triangle(at(face[0]), at(face[it]), at(face[it + 1])) for face in faces for it in (1, 2)]
    return "solid block\n" + "".join(tris) + "endsolid block\n"


def binary(tris):
    """Returns a binary STL of triangles."""
    return bytes(80) + struct.pack("<I", len(tris)) + b"".join(struct.pack("<12fH", 0, 0, 1, *sum(it, ()), 0) for it in tris)


class Parts(unittest.TestCase):
    def test_a_binary_one_is_written_exactly(self):
        values = [0.1, 1 / 3, -2.5, 1e-7, 16777216.0, 123.456, 0.0, 40.0, 1e10]
        tris = [tuple(zip(*[iter(struct.unpack("<9f", struct.pack("<9f", *values)))] * 3))]
        written = parts.ascii_of(binary(tris))
        self.assertEqual(parts.triangles_of(written.encode()), [tuple(tuple(float(parts.shortest(it)) for it in corner) for corner in tri) for tri in tris])
        again = [tuple(struct.unpack("<3f", struct.pack("<3f", *corner)) for corner in tri) for tri in parts.triangles_of(written.encode())]
        self.assertEqual(again, tris)
        self.assertIn("vertex 0.1 0.33333334 -2.5\n", written)

    def test_which_is_which(self):
        with open(os.path.join(EXAMPLES, "freecad", "binary.stl"), "rb") as one, open(os.path.join(EXAMPLES, "freecad", "part.stl"), "rb") as two:
            one, two = one.read(), two.read()
        self.assertEqual((parts.count_of(one), parts.count_of(two)), (28, None))
        self.assertEqual(parts.box_of(parts.triangles_of(one)), parts.box_of(parts.triangles_of(two)))
        self.assertRaises(ValueError, parts.triangles_of, b"vertex 1,5 0 0 vertex 0 0 0 vertex 0 0 0")
        self.assertRaises(ValueError, parts.triangles_of, binary([((float("nan"),) * 3,) * 3]))

    def test_inner_corners(self):
        for folder, wanted in (("freecad", True), ("hill", False), ("plate", False)):
            with open(os.path.join(EXAMPLES, folder, "part.stl"), "rb") as file:
                self.assertEqual(parts.has_corners(parts.triangles_of(file.read())), wanted, folder)
        self.assertFalse(parts.has_corners(parts.triangles_of(block((0, 0, 0), (1, 1, 1)).encode())))


class Jobs(test_cutters.InAFolder):
    def setUp(self):
        super().setUp()
        self.part = self.stored("part.stl", block((0, 0, 0), (40, 30, 8)))
        self.tools = self.stored("tools.toml", TOOLS)

    def made(self, *words, programs_=(), part=None):
        """Returns the keys of the job that is made, the text of the file, and what is printed."""
        names = [self.stored(f"{at}.ngc", text) for at, text in enumerate(programs_, 1)]
        folder = os.path.join(self.folder, "out")
        status, printed, errors = ended(new.main, [part or self.part, *names, f"--tools={self.tools}", "-o", folder, "--force", *words])
        self.assertEqual((status, errors), (None, ""))
        with open(os.path.join(folder, "job.toml"), "rb") as file:
            text = file.read()
        return texts.job_of(text), text.decode(), printed

    def test_the_numbers(self):
        for name, programs_, words, wanted in (
            ("hundredths", [TWO], [], dict(radius=300, overcut=5, floor=0, top=801, clear=1300, area=[0, 0, 4000, 3000], home=[800, 800], allowance=10, band=10, holder_radius=900, stickout=3000)),
            ("thousandths", [THREE], [], dict(unit="thousandth", radius=3000, overcut=15, floor=0, top=8010, clear=13000, area=[0, 0, 40000, 30000], home=[8125, 8125], allowance=100, band=100, holder_radius=9000)),
            ("margin", [TWO], ["--stock=1"], dict(top=901, area=[-100, -100, 4100, 3100])),
            ("sides", [TWO], ["--stock=44,32,10"], dict(top=1001, area=[-200, -100, 4200, 3100])),
            ("corners", [TWO], ["--stock=-1,-2,0,41,32,9.5"], dict(top=951, area=[-100, -200, 4100, 3200])),
            ("asked", [TWO], ["--allowance=0.05", "--band=0.3"], dict(allowance=5, band=30)),
            ("a drill", [HEAD.replace("T1", "T2") + "G0 Z13.00\nG0 X8.00 Y8.00\nG1 Z-1.60 F100\nG0 Z13.00\nM2\n"], [], dict(cutter="cone", radius=250, overcut=5, rise=3, run=5, floor=-160, allowance=10)),
            ("a ball", [TWO], ["--tool=ball 3"], dict(cutter="ball", radius=150, overcut=5, band=50)),
            ("half a unit", [TWO], ["--tool=flat 40.015"], dict(unit=None, radius=2001, overcut=5)),
            ("its own overcut", [TWO], ["--overcut=0.029"], dict(radius=300, overcut=2)),
            ("no overcut", [TWO], ["--overcut=0"], dict(radius=300, overcut=None)),
            ("a vice", [TWO], ["--keep-out=-20.001,-5,-2,35,6.5", "--keep-out=42,-5,60,35,6.501", "--rapids=axes", "--start=anywhere", "--spindle"], dict(
                keep_out=[[-2001, -500, -200, 3500, 650], [4200, -500, 6000, 3500, 651]], rapids="axes", start="anywhere", spindle=True, clear=1300)),
            ("machine words", [TWO], ["--words=machine"], dict(words="machine", start="anywhere", slack=3, overcut=8, clear=1300)),
            ("arcs", [TWO + "G2 I1\n"], ["--words=machine"], dict(words="machine", slack=3, overcut=8, arc_tol=None)),
            ("arcs in thousandths", [THREE.replace("M2", "G2 I1\nM2")], ["--words=machine"], dict(words="machine", slack=5, overcut=20, arc_tol=None)),
            ("arcs in inches", [THREE.replace("G21", "G20").replace("M2", "G2 I1\nM2")], ["--words=machine", "--tool=flat 6"], dict(words="machine", slack=10, overcut=25, arc_tol=8)),
            ("arcs that aren't read", [THREE.replace("M2", "G2 I1\nM2")], [], dict(slack=None, overcut=15)),
            ("machine words and a changer", [TWO], ["--words=machine", "--start=change", "--overcut=0.1"], dict(words="machine", start="change", overcut=10)),
            ("a plan in a vice", [], ["--tool=1", "--keep-out=-20,-5,-2,35,12"], dict(keep_out=[[-2000, -500, -200, 3500, 1200]], clear=1700, rapids=None, start=None, spindle=None)),
            ("a plan", [], ["--tool=1", "--layer=1"], dict(radius=300, overcut=None, area=[-300, -300, 4300, 3300], layer=100, rough_stock=30, max_cut=130, raster=50, lift=5, home=[0, 0], clear=1301)),
        ):
            with self.subTest(name):
                keys, _, _ = self.made(*words, programs_=programs_)
                self.assertEqual({it: keys.get(it) for it in wanted}, wanted)
                self.check_columns(keys)

    def test_a_box_over_the_programs(self):
        _, _, printed = self.made("--keep-out=-20,-5,-2,35,13.5", programs_=[TWO])
        self.assertIn("guessed: clear = 1850: 18.50 mm, 5 mm over the stock and what stands on the table; no Z of the programs is over it", printed)
        for words in (["--keep-out=1,2,3,4"], ["--keep-out=3,2,1,4,5"], ["--spindle"], ["--words=machine", "--start=home"]):
            status, _, errors = ended(new.main, [self.part, "--tool=flat 6", *words])
            self.assertEqual((status, errors != ""), (2, True))

    def check_columns(self, keys):
        x0, y0, x1, y1 = keys["area"]
        self.assertFalse((x1 - x0) % keys["pitch"] or (y1 - y0) % keys["pitch"])
        columns = ((x1 - x0) // keys["pitch"] + 1) * ((y1 - y0) // keys["pitch"] + 1)
        self.assertLessEqual(columns, 4_000_000)
        self.assertLessEqual(4 * keys["pitch"], keys["radius"])
        self.assertTrue(keys["floor"] <= keys["top"] <= keys["clear"] and keys["band"] <= keys["radius"])
        self.assertLess(keys["allowance"], keys["top"] - keys["floor"])

    def test_the_overcut_is_under_the_radius(self):
        for across, wanted in (("0.06", (3, 2)), ("0.02", (1, None)), ("0.01", (5, 4))):
            keys, _, _ = self.made(f"--tool=flat {across}", programs_=[TWO])
            self.assertEqual((keys["radius"], keys.get("overcut")), wanted)

    def test_large_parts_have_a_wider_pitch(self):
        part = self.stored("large.stl", block((0, 0, 0), (900, 800, 20)))
        keys, text, printed = self.made(programs_=[THREE], part=part)
        self.assertEqual((keys.get("unit"), keys["pitch"]), (None, 50))
        self.assertIn("over 524.287 mm", printed.replace("no coordinate is over", "over"))
        self.assertLessEqual((90000 // 50 + 1) * (80000 // 50 + 1), 4_000_000)

    def test_each_number_has_its_length_and_each_guess_is_told(self):
        for programs_, words in (([TWO], []), ([THREE], ["--stock=1"]), ([], ["--tool=ball 3", "--layer=0.5"]), ([TWO, THREE], ["--tool=1"])):
            keys, text, printed = self.made(*words, programs_=programs_)
            for line in text.split("\n")[2:-1]:
                name, comment = line.split(" = ")[0], line.split(" # ")[1]
                self.assertTrue(name in ("unit", "cutter", "rise", "run") or " mm: " in comment, line)
                if comment.startswith("guessed: ") and name != "cutter":
                    self.assertRegex(printed, rf"(?m)^guessed: {name} = ")
            self.assertEqual(printed.count("\nguessed: "), len(re.findall(r"# guessed: ", text)))

    def test_the_keys_are_those_of_a_job(self):
        with open(os.path.join(ROOT, "docs", "FORMATS.md"), encoding="utf-8") as file:
            named = re.findall(r"^\| ([a-z_, ]+) \|", file.read(), re.M)
        known = {key for row in named for key in row.split(", ")}
        self.assertLessEqual({it.name for it in table.KEYS}, known)
        self.assertEqual([it for it in table.KEYS if not hasattr(table.Setup, it.find)], [])

    def test_a_list(self):
        two = HEAD.replace("T1", "T2") + "G0 Z13.000\nG0 X8.000 Y8.125\nG1 Z-1.600 F100\nG0 Z13.000\nM2\n"
        keys, _, printed = self.made(programs_=[THREE, two])
        with open(os.path.join(self.folder, "out", "list.toml"), "rb") as file:
            steps = texts.steps_of(file.read())
        wanted = [("1.ngc", "flat", 3000, None), ("2.ngc", "cone", 2500, 3)]
        self.assertEqual([(os.path.basename(it["program"]), it["cutter"], it["radius"], it.get("rise")) for it in steps], wanted)
        self.assertEqual((keys["cutter"], keys["floor"], keys["allowance"], keys["overcut"]), ("flat", -1600, 100, 15))
        self.assertIn("next: camtool rest ", printed)

    def test_the_bracket(self):
        """The job and the list of examples/bracket are those that the command in its make.py makes."""
        bracket = os.path.join(EXAMPLES, "bracket")
        with open(os.path.join(bracket, "make.py"), encoding="utf-8") as file:
            words = shlex.split(re.search(r"(?m)^ +camtool-new (.*)$", file.read())[1])
        for name in (*words[:-2], "tools.toml"):
            shutil.copy(os.path.join(bracket, name), self.folder)
        self.addCleanup(os.chdir, os.getcwd())
        os.chdir(self.folder)
        self.assertEqual(ended(new.main, words)[0], None)
        for name in ("job.toml", "list.toml"):
            found = []
            for folder in (bracket, "."):
                with open(os.path.join(folder, name), "rb") as file:
                    found.append(file.read())
            self.assertEqual(*found, name)

    def test_the_freecad_stock(self):
        keys, text, printed = self.made(programs_=[THREE.replace("Z13.000", "Z14.000")])
        self.assertEqual((keys["top"], keys["area"]), (9010, [-1000, -1000, 41000, 31000]))
        self.assertIn("guessed: top = 9010", printed)
        keys, _, _ = self.made(programs_=[THREE.replace("(Exported by FreeCAD)", "").replace("Z13.000", "Z14.000")])
        self.assertEqual((keys["top"], keys["area"]), (8010, [0, 0, 40000, 30000]))

    def test_what_it_notes(self):
        for program, part, wanted in (
            (TWO.replace("M5\n", "M6 T2\n"), None, "it has the tools T1, T2"),
            (TWO, block((0, 0, 0), (40 / 25.4, 30 / 25.4, 8 / 25.4)), "is the part in inches?"),
            (TWO, block((0, 0, -8), (40, 30, 0)), "isn't under the part's top"),
            (TWO, block((100, 0, 0), (140, 30, 8)), "have they the same zero?"),
        ):
            part = part and self.stored("other.stl", part)
            self.assertIn(wanted, self.made(programs_=[program], part=part)[2])
        self.assertIn("note: overcut: a job takes at most 5 mm", self.made("--overcut=6", programs_=[TWO])[2])
        self.assertNotIn("note: overcut", self.made("--overcut=0.0299", programs_=[TWO])[2])

    def test_it_asks_and_refuses(self):
        pocket, bare = self.stored("pocket.ngc", TWO), self.stored("bare.ngc", TWO.replace("M6 T1\n", ""))
        for words, wanted in (
            ([self.part, bare, f"--tools={self.tools}"], "which tool? the program has no T; choose by --tool=N: T1, a flat cutter of 6 mm; T2, a drill of 5 mm"),
            ([self.part, pocket], "--tools=TABLE"),
            ([self.part, pocket, f"--tools={self.folder}/none.toml"], "No such file"),
            ([self.part, pocket, "--tool=flat 6", "--stock=1,2"], "--stock takes"),
            ([self.part, pocket, "--tool=flat 6", "--allowance=0,1"], "millimetres with a point"),
            ([self.part, pocket, "--tool=flat 6", "--layer=1"], "leave out the programs"),
            ([self.part, "--tool=flat 6", "--overcut=0.1"], "a plan keeps off the part"),
            ([pocket, self.part, "--tool=flat 6"], "it seems to be a program, and the part comes first"),
            ([self.part, self.stored("wide.ngc", "\ufeffnothing"), "--tool=flat 6"], "byte order mark"),
            ([self.part, self.stored("none.ngc", "nothing"), "--tool=flat 6"], "no line that moves was found"),
        ):
            with self.subTest(wanted):
                status, printed, errors = ended(new.main, [*words, "-o", os.path.join(self.folder, "none")])
                self.assertEqual((status, printed), (2, ""))
                self.assertIn(wanted, errors)
        self.assertFalse(os.path.exists(os.path.join(self.folder, "none")))

    def test_nothing_is_written_over(self):
        words = [self.part, self.stored("pocket.ngc", TWO), "--tool=flat 6", "-o", self.folder]
        there = self.stored("job.toml", "mine")
        status, _, errors = ended(new.main, words)
        self.assertEqual(status, 2)
        self.assertIn("--force", errors)
        with open(there, encoding="utf-8") as file:
            self.assertEqual(file.read(), "mine")
        self.assertEqual(ended(new.main, [*words, "--force"])[0], None)
        words[1] = self.stored("job.toml", TWO)
        self.assertEqual(ended(new.main, [*words, "--force"])[0], 2)

    def test_a_binary_part(self):
        with open(os.path.join(EXAMPLES, "freecad", "binary.stl"), "rb") as file:
            text = file.read()
        part = os.path.join(self.folder, "solid.stl")
        with open(part, "wb") as file:
            file.write(text)
        for folder, wanted in (("out", "solid.stl"), (".", "solid-ascii.stl")):
            folder = os.path.join(self.folder, folder)
            status, printed, _ = ended(new.main, [part, "--tool=flat 6", "-o", folder])
            self.assertEqual(status, None)
            self.assertIn("is a binary STL", printed)
            with open(os.path.join(folder, wanted), "rb") as file:
                self.assertEqual(len(parts.triangles_of(file.read())), 28)
        with open(part, "rb") as file:
            self.assertEqual(file.read(), text)


@unittest.skipUnless(programs.is_built("camtool"), "camtool isn't built")
class Judged(test_cutters.InAFolder):
    def test_examples_are_judged_with_no_edited_file(self):
        for folder, words, wanted in (
            ("freecad", ["pocket.ngc", "--tool=flat 6"], "accepted moves 23 "),
            ("freecad", ["quarter-inch.ngc", "--tool=flat 6.35"], "accepted moves 23 "),
            ("freecad", ["shallow.ngc", "--tool=flat 6"], "rejected left "),
            ("freecad", ["other-tool.ngc", "--tool=flat 6"], "rejected gouge "),
        ):
            with self.subTest(words[0]):
                part, program = (os.path.join(EXAMPLES, folder, it) for it in ("part.stl", words[0]))
                self.assertEqual(ended(new.main, [part, program, *words[1:], "-o", self.folder, "--force"])[0], None)
                done = programs.run("camtool", "verify", os.path.join(self.folder, "job.toml"), part, program)
                self.assertTrue(done.stdout.decode().startswith(wanted), done.stdout)

    def test_plans_are_made(self):
        for folder, words in (("freecad", ["--tool=flat 6"]), ("hill", ["--tool=ball 3"])):
            part = os.path.join(EXAMPLES, folder, "part.stl")
            self.assertEqual(ended(new.main, [part, *words, "-o", self.folder, "--force"])[0], None)
            done = programs.run("camtool", "plan", os.path.join(self.folder, "job.toml"), part, os.path.join(self.folder, "out.ngc"))
            self.assertTrue(done.stdout.decode().startswith("planned "), done.stdout)


if __name__ == "__main__":
    unittest.main()
