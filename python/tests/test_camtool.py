"""Tests of the module: each call against the program, and each exception. CAMTOOL_PROGRAM names another program.

From the root: PYTHONPATH=python:python/tests python3 -m unittest test_camtool
"""
import array
import os
import random
import subprocess
import unittest

import camtool

ROOT = os.path.dirname(os.path.dirname(os.path.dirname(os.path.abspath(__file__))))
PROGRAM = os.environ.get("CAMTOOL_PROGRAM", os.path.join(ROOT, "camtool"))
PLATE = os.path.join(ROOT, "examples", "plate")


def corners_of(folder):
    """The corner coordinates of an example's part, in hundredths of a millimetre."""
    with open(os.path.join(folder, "part.stl"), encoding="ascii") as text:
        words = [line.split() for line in text]
    return array.array("i", [round(float(word) * 100) for line in words if line[:1] == ["vertex"] for word in line[1:]])


def dropped(folder, x, y):
    """The drop height that the program prints, in hundredths of a millimetre."""
    place = [f"--x={x / 100:.2f}", f"--y={y / 100:.2f}"]
    files = [os.path.join(folder, name) for name in ("job.toml", "part.stl")]
    line = subprocess.run([PROGRAM, "drop", *files, *place], check=True, capture_output=True, text=True).stdout
    return round(float(line.split()[1]) * 100)


class DropHeights(unittest.TestCase):
    def setUp(self):
        self.corners = corners_of(PLATE)
        self.tool = camtool.flat(150)
        self.places = array.array("i", [100, 100, -150, 100, -149, 100])

    def test_are_those_of_the_program(self):
        chosen = random.Random(1)
        places = [chosen.randint(-300, 500) for _ in range(40)] + [-150, 100, -149, 100]
        wanted = [dropped(PLATE, x, y) for x, y in zip(places[::2], places[1::2])]
        heights = camtool.drop_heights(self.corners, self.tool, array.array("i", places), 0)
        self.assertEqual(list(heights), wanted)
        self.assertEqual(set(wanted), {0, 200})

    def test_takes_anything_with_the_buffer_protocol(self):
        wanted = camtool.drop_heights(self.corners, self.tool, self.places, 0)
        shaped = memoryview(self.corners).cast("B").cast("i", [2, 3, 3])
        read_only = memoryview(self.places.tobytes()).cast("i", [3, 2])
        self.assertEqual(camtool.drop_heights(shaped, self.tool, read_only, 0), wanted)

    def test_writes_to_an_array_that_is_lent(self):
        lent = array.array("i", [7] * 5)
        got = camtool.drop_heights(self.corners, self.tool, self.places, 0, out=memoryview(lent)[1:4])
        self.assertEqual(list(lent), [7, 200, 0, 200, 7])
        self.assertEqual(list(got), [200, 0, 200])

    def test_of_no_places_and_of_no_triangles(self):
        nothing = array.array("i")
        self.assertEqual(list(camtool.drop_heights(self.corners, self.tool, nothing, 0)), [])
        self.assertEqual(list(camtool.drop_heights(nothing, self.tool, self.places, -5)), [-5] * 3)

    def test_with_a_holder(self):
        tool = camtool.flat(150, holder=(200, 120))
        self.assertEqual(list(camtool.drop_heights(self.corners, tool, self.places, 0)), [200, 80, 200])

    def refused(self, error, triangles=None, tool=None, places=None, floor=0, room=3):
        lent = array.array("i", [7] * room)
        with self.assertRaises(error):
            camtool.drop_heights(
                self.corners if triangles is None else triangles, tool or self.tool,
                self.places if places is None else places, floor, out=lent)
        self.assertEqual(list(lent), [7] * room)

    def test_name_what_is_wrong_with_a_tool(self):
        for tool in (camtool.flat(0), camtool.ball(10_001), camtool.ball(1 << 40), camtool.cone(150, 17, 1),
                     camtool.cone(150, 1, 0), camtool.Tool(4, 150)):
            self.refused(camtool.BadCutter, tool=tool)
        for radius in (1.5, "150", None):
            self.refused(camtool.BadCutter, tool=camtool.flat(radius))
        for holder in ((0, 120), (200, 0), (0, 0), (10_001, 120), (200, camtool.MAX_COORDINATE + 1), (), (1, 2, 3), 5,
                       (200.0, 120)):
            self.refused(camtool.BadHolder, tool=camtool.flat(150, holder=holder))

    def test_name_what_is_out_of_range(self):
        for far in (camtool.MAX_COORDINATE + 1, -camtool.MAX_COORDINATE - 1, -(1 << 31)):
            self.refused(camtool.BadTriangle, triangles=array.array("i", list(self.corners[:17]) + [far]))
            self.refused(camtool.BadPlace, places=array.array("i", list(self.places[:5]) + [far]))
            self.refused(camtool.BadFloor, floor=far)
        for floor in (1 << 40, 0.5, "0", None):
            self.refused(camtool.BadFloor, floor=floor)
        self.refused(camtool.WrongRoom, room=2)
        self.refused(camtool.WrongRoom, room=4)

    def test_name_what_is_wrong_with_an_array(self):
        self.refused(camtool.BadArray, triangles=self.corners[:17])
        self.refused(camtool.BadArray, triangles=[0] * 18)
        self.refused(camtool.BadArray, places=self.places[:5])
        self.refused(camtool.BadArray, places=array.array("f", [1.0] * 6))
        self.refused(camtool.BadArray, places=array.array("q", [1] * 6))
        self.refused(camtool.BadArray, places=memoryview(self.places)[::-1])
        for room in (bytes(12), memoryview(self.places)[:3]):
            with self.assertRaises(camtool.BadArray):
                camtool.drop_heights(self.corners, self.tool, self.places, 0, out=room)
        self.assertEqual(list(self.places), [100, 100, -150, 100, -149, 100])


class Runs(unittest.TestCase):
    def setUp(self):
        self.corners = corners_of(PLATE)
        self.tool = camtool.flat(150)

    def test_are_the_places_at_which_the_tool_cannot_drop_so_low(self):
        hill = corners_of(os.path.join(ROOT, "examples", "hill"))
        z, first, last = 150, -300, 1500
        for tool in (self.tool, camtool.ball(150), camtool.cone(150, 3, 2), camtool.ball(60, holder=(200, 100))):
            for axis, at in ((1, 300), (1, 401), (2, 650), (2, -2000)):
                got = camtool.runs(hill, tool, array.array("i", [axis, at, z, first, last]))
                along = range(first, last + 1)
                places = [coordinate for v in along for coordinate in ((v, at) if axis == 1 else (at, v))]
                heights = camtool.drop_heights(hill, tool, array.array("i", places), -500_000)
                wanted = [v for v, height in zip(along, heights) if height > z]
                found = [v for a, b in zip(got.runs[::2], got.runs[1::2]) for v in range(a, b + 1)]
                self.assertEqual(found, wanted)
                self.assertEqual(list(got.counts), [len(got.runs) // 2])

    def test_of_several_fibers_and_of_none(self):
        fibers = array.array("i", [1, 100, 100, -1000, 1000, 1, 100, 200, -1000, 1000, 2, 100, 100, 0, 1000])
        got = camtool.runs(self.corners, self.tool, fibers)
        self.assertEqual((list(got.counts), list(got.runs)), ([1, 0, 1], [-149, 349, 0, 349]))
        self.assertEqual(camtool.runs(self.corners, self.tool, array.array("i")), (array.array("Q"), array.array("i")))

    def test_name_what_is_wrong(self):
        for fiber in ([3, 0, 0, 0, 1], [1, 1 << 20, 0, 0, 1], [1, 0, 0, 1, 0]):
            with self.assertRaises(camtool.BadFiber):
                camtool.runs(self.corners, self.tool, array.array("i", fiber))
        with self.assertRaises(camtool.BadCutter):
            camtool.runs(self.corners, camtool.flat(0), array.array("i"))
        with self.assertRaises(camtool.BadArray):
            camtool.runs(self.corners, self.tool, array.array("i", [1, 0, 0, 0]))


class ReadPart(unittest.TestCase):
    FACET = b"facet normal 0 0 1 outer loop vertex 0 0 2 vertex 2 0 2 vertex 2 2.005 2 endloop endfacet\n"

    def test_is_what_the_text_of_each_example_says(self):
        for name in ("plate", "hill", "ball", "pin"):
            folder = os.path.join(ROOT, "examples", name)
            with open(os.path.join(folder, "part.stl"), "rb") as file:
                text = file.read()
            for given in (text, bytearray(text), memoryview(text)):
                part = camtool.read_part(given, snap=1)
                self.assertEqual(part.triangles, corners_of(folder), name)
                self.assertEqual(part.rounded, 0)

    def test_rounds_or_refuses_by_the_snap_and_the_unit(self):
        text = b"solid\n" + self.FACET + b"endsolid"
        self.assertEqual(camtool.read_part(text, snap=1), (array.array("i", [0, 0, 200, 200, 0, 200, 200, 201, 200]), 1))
        self.assertEqual(camtool.read_part(text, unit=3).triangles[7], 2005)
        with self.assertRaises(camtool.BadCoordinate) as raised:
            camtool.read_part(text)
        self.assertEqual(raised.exception.line, 2)

    def test_of_no_triangles(self):
        self.assertEqual(camtool.read_part(b"solid\nendsolid"), (array.array("i"), 0))

    def test_names_what_is_wrong(self):
        facets = self.FACET * 200_001
        for text, error, line in ((b"", camtool.CutShort, 1), (b"solid\nface", camtool.BadWord, 2),
                                  (b"solid\n\nfacet", camtool.CutShort, 3), (b"solid\n" + facets, camtool.LongText, 200_002)):
            with self.assertRaises(error) as raised:
                camtool.read_part(text, snap=1)
            self.assertEqual(raised.exception.line, line)
        for unit in (1, 4, 1 << 40):
            with self.assertRaises(camtool.BadUnit):
                camtool.read_part(b"solid\nendsolid", unit=unit)
        for snap in (-1, 2):
            with self.assertRaises(camtool.BadSnap):
                camtool.read_part(b"solid\nendsolid", snap=snap)
        for text in (array.array("i", [1]), "solid\nendsolid", None):
            with self.assertRaises(camtool.BadArray):
                camtool.read_part(text)


class OverLattices(unittest.TestCase):
    def setUp(self):
        self.hill = corners_of(os.path.join(ROOT, "examples", "hill"))
        self.plate = corners_of(PLATE)

    def test_heights_are_those_at_the_nodes(self):
        tool, area, step = camtool.ball(150), (-300, -200, 1500, 1333), 250
        xs = list(range(-300, 1500, 250)) + [1500]
        ys = list(range(-200, 1333, 250)) + [1333]
        places = array.array("i", [coordinate for y in ys for x in xs for coordinate in (x, y)])
        wanted = camtool.drop_heights(self.hill, tool, places, -5)
        self.assertEqual(camtool.drop_map(self.hill, tool, area, step, -5), wanted)
        self.assertEqual(list(camtool.drop_map(self.plate, camtool.flat(150), (100, 100, 100, 100), 1, 0)), [200])

    def test_a_waterline_is_what_the_program_says(self):
        folder = os.path.join(ROOT, "examples", "level")
        with open(os.path.join(folder, "z1.50.txt"), encoding="ascii") as file:
            wanted = [line.split() for line in file]
        chains = camtool.waterline(corners_of(folder), camtool.flat(80), 150, (0, 0, 3000, 2000), 50)
        lines = []
        for chain in chains:
            lines.append(["closed" if chain.closed else "open", str(len(chain.points) // 3)])
            lines += [[f"{x / 100:.2f}", f"{y / 100:.2f}"] for x, y in zip(chain.points[::3], chain.points[1::3])]
            self.assertEqual(set(chain.points[2::3]), {150})
        self.assertEqual([*lines, ["chains", str(len(chains))]], wanted)

    def test_there_may_be_no_chain(self):
        self.assertEqual(camtool.waterline(self.plate, camtool.flat(150), 200, (-300, -300, 500, 500), 50), [])

    def test_name_what_is_wrong(self):
        tool, area, far = camtool.flat(150), (0, 0, 100, 100), camtool.MAX_COORDINATE + 1
        for wrong, step in (((0, 0, -1, 0), 1), ((0, 0, 0, -1), 1), ((0, 0, far, 0), 1), (area, 0), ((1 << 40, 0, 0, 0), 1),
                            (None, 1), (area[:3], 1), ((0.0, 0, 1, 1), 1), (area, None)):
            with self.assertRaises(camtool.BadLattice):
                camtool.drop_map(self.plate, tool, wrong, step, 0)
            with self.assertRaises(camtool.BadLattice):
                camtool.waterline(self.plate, tool, 0, wrong, step)
        with self.assertRaises(camtool.TooManyNodes):
            camtool.drop_map(self.plate, tool, (0, 0, 2000, 2000), 1, 0)
        with self.assertRaises(camtool.TooManyNodes):
            camtool.waterline(self.plate, tool, 0, (0, 0, 2000, 2000), 1)
        with self.assertRaises(camtool.BadFloor):
            camtool.drop_map(self.plate, tool, area, 1, far)
        with self.assertRaises(camtool.BadHeight):
            camtool.waterline(self.plate, tool, far, area, 1)
        with self.assertRaises(camtool.BadCutter):
            camtool.waterline(self.plate, camtool.flat(0), 0, area, 1)


def said(folder, program):
    """The verdict that the program prints, as words."""
    files = [os.path.join(folder, name) for name in ("job.toml", "part.stl", program)]
    return subprocess.run([PROGRAM, "verify", *files], capture_output=True, text=True).stdout.split()


def words_of(verdict):
    """The words of a verdict up to the lengths, as the program prints them."""
    if verdict.accepted:
        return ["accepted", "moves", str(verdict.moves), "columns", str(verdict.columns), "left"]
    words = ["rejected", verdict.test] + ["move", str(verdict.move)] * (verdict.move is not None)
    words += ["triangle", str(verdict.triangle)] * (verdict.triangle is not None)
    words += ["row", str(verdict.row), "column", str(verdict.column)] * (verdict.row is not None)
    if verdict.leaf is not None:
        words += ["leaf", *map(str, verdict.leaf)]
    return words


class Verify(unittest.TestCase):
    def texts(self, folder, program):
        texts = []
        for name in ("job.toml", "part.stl", program):
            with open(os.path.join(ROOT, "examples", folder, name), "rb") as file:
                texts.append(file.read())
        return texts

    def test_is_what_the_program_says(self):
        for folder, program in (("plate", "program.ngc"), ("plate", "gouge.ngc"), ("plate", "uncut.ngc"), ("plate", "rapid.ngc"),
                                ("plate", "floor.ngc"), ("pecks", "deep.ngc"), ("pecks", "gouge.ngc"), ("holder", "program.ngc"),
                                ("holder", "pocket-first.ngc")):
            verdict = camtool.verify(*self.texts(folder, program))
            words = words_of(verdict)
            self.assertEqual(said(os.path.join(ROOT, "examples", folder), program)[:len(words)], words, program)

    def test_tells_lengths_in_units(self):
        self.assertEqual(camtool.verify(*self.texts("plate", "uncut.ngc")), camtool.Verdict(False, "left", row=0, column=0, top=201))
        self.assertEqual(camtool.verify(*self.texts("plate", "program.ngc")), camtool.Verdict(True, most_left=0, moves=2, columns=9))

    def test_names_the_box(self):
        job, *texts = self.texts("plate", "program.ngc")
        beside, near = (f"[{x}, 0, 400, 200, 400]" for x in (250, 249))
        self.assertTrue(camtool.verify(job + f"keep_out = [{beside}]\n".encode(), *texts).accepted)
        said = camtool.verify(job + f"keep_out = [{beside}, {near}]\n".encode(), *texts)
        self.assertEqual((said.accepted, said.test, said.move, said.box, said.triangle), (False, "fixture", 0, 1, None))
        held = job + f"keep_out = [{beside}]\nholder_radius = 200\nstickout = 150\n".encode()
        said = camtool.verify(held, *texts)
        self.assertEqual((said.accepted, said.test, said.move, said.box), (False, "holder-fixture", 0, 0))

    def refused(self, error, job=None, part=None, program=None):
        texts = [new or old for new, old in zip((job, part, program), self.texts("plate", "program.ngc"))]
        with self.assertRaises(error) as raised:
            camtool.verify(*texts)
        return raised.exception

    def test_names_the_first_text_that_is_refused(self):
        job = self.texts("plate", "program.ngc")[0]
        self.refused(camtool.JobSyntax, job=b"radius")
        self.refused(camtool.JobUnknown, job=job + b"colour = 1\n")
        self.refused(camtool.JobMissing, job=job.replace(b"radius = 150", b""))
        self.refused(camtool.JobKind, job=job.replace(b"radius = 150", b"radius = true"), program=b"G2")
        self.refused(camtool.JobRange, job=job.replace(b"radius = 150", b"radius = 0"))
        self.refused(camtool.JobRelation, job=job.replace(b"band = 0", b"band = 151"))
        self.assertEqual(self.refused(camtool.BadWord, part=b"solid\nface", program=b"G2").line, 2)
        self.assertEqual(self.refused(camtool.HighPart, job=job.replace(b"top = 300", b"top = 199")).height, 200)
        self.assertEqual(self.refused(camtool.BadProgram, program=b"G21 G90\nG2 X0\nM2\n").line, 2)
        with self.assertRaises(camtool.BadArray):
            camtool.verify(job, array.array("i", [1]), b"")


class Plan(unittest.TestCase):
    def texts(self, folder, job="job.toml"):
        texts = []
        for name in (job, "part.stl"):
            with open(os.path.join(ROOT, "examples", folder, name), "rb") as file:
                texts.append(file.read())
        return texts

    def test_is_accepted(self):
        for folder, moves, columns, left in (("plate", 11, 9, 0), ("hill", 841, 625, 43)):
            texts = self.texts(folder)
            program = camtool.plan(*texts)
            self.assertIsInstance(program, bytes)
            self.assertEqual(camtool.verify(*texts, program), camtool.Verdict(True, most_left=left, moves=moves, columns=columns))

    def test_is_the_text_that_is_kept(self):
        with open(os.path.join(ROOT, "examples", "two-cutters", "rough.ngc"), "rb") as file:
            self.assertEqual(camtool.plan(*self.texts("two-cutters", "rough.toml")), file.read())

    def refused(self, error, job, part):
        with self.assertRaises(error) as raised:
            camtool.plan(job, part)
        return raised.exception

    def test_has_no_spindle(self):
        job, part = self.texts("plate")
        self.refused(camtool.JobMissing, job + b"spindle = true\n", part)

    def test_says_why_there_is_none(self):
        why = self.refused(camtool.Uncut, *self.texts("groove"))
        self.assertEqual((why.row, why.column, why.top), (0, 5, 200))
        self.assertEqual(str(why), "row 0, column 5, top 200: The plan leaves a column of the stock higher than it may.")
        why = self.refused(camtool.Held, *self.texts("holder", "medium.toml"))
        self.assertEqual((why.move, why.row, why.column), (237, 11, 6))
        self.refused(camtool.TooManyMoves, *self.texts("fine"))
        job, part = self.texts("plate")
        wide = job.replace(b"[0, 0, 200, 200]", b"[0, 0, 2000, 2000]") + b"raster = 1\n"
        self.assertEqual(self.refused(camtool.TooManyNodes, wide, part).nodes, 2001 * 2001)

    def test_names_the_first_text_that_is_refused(self):
        job, part = self.texts("plate")
        self.refused(camtool.JobSyntax, b"radius", b"")
        self.refused(camtool.JobUnknown, job + b"colour = 1\n", part)
        self.assertEqual(self.refused(camtool.BadWord, job, b"solid\nface").line, 2)
        self.assertEqual(self.refused(camtool.HighPart, job.replace(b"top = 300", b"top = 199"), part).height, 200)
        with self.assertRaises(camtool.BadArray):
            camtool.plan(job, array.array("i", [1]))


if __name__ == "__main__":
    unittest.main()
