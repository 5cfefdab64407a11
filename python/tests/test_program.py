"""Compares the module with the program, over all of examples/ and the part of `camtool sample`: 10,000 drop heights, 100
fibers, 10 heights, each program's verdict and each plan. It is left out with a line where the program isn't built, or
Python is older than 3.11. CAMTOOL_PROGRAM names another program than the built one.

From the root: PYTHONPATH=python:python/tests python3 -m unittest test_program
"""
import array
import concurrent.futures
import glob
import math
import os
import random
import re
import subprocess
import tempfile
import typing
import unittest

import camtool

try:
    import tomllib
except ImportError:
    tomllib = None

ROOT = os.path.dirname(os.path.dirname(os.path.dirname(os.path.abspath(__file__))))
PROGRAM = os.environ.get("CAMTOOL_PROGRAM", os.path.join(ROOT, "crates", "camtool", "out", "camtool"))
PLACES, FIBERS, HEIGHTS = 10_000, 100, 10
SQUARES = 10
SAMPLE_JOB = f"""\
cutter = "ball"
radius = 100
floor = 0
top = 200
clear = 300
area = [0, 0, {100 * SQUARES}, {100 * SQUARES}]
home = [0, 0]
pitch = 50
sample = 50
allowance = 40
band = 0
layer = 50
rough_raster = 100
"""


def setUpModule():
    wanting = "tomllib" if tomllib is None else None if os.path.exists(PROGRAM) else PROGRAM
    if wanting:
        print(f"library: not compared with the program, since there is no {wanting}")
        raise unittest.SkipTest(f"there is no {wanting}")


def read(path):
    with open(path, "rb") as file:
        return file.read()


def sample_part():
    """The part that `camtool sample` makes, as text."""
    def corner(i, j):
        return f"vertex {i}.00 {j}.00 {1 + (7 * i * i + 13 * j * j + 5 * i * j) % 40 / 100:.2f}"

    facets = []
    for j in range(SQUARES):
        for i in range(SQUARES):
            low, right, across, high = corner(i, j), corner(i + 1, j), corner(i + 1, j + 1), corner(i, j + 1)
            for corners in ((low, right, across), (low, across, high)):
                facets.append("\n".join(("facet normal 0 0 1", "outer loop", *corners, "endloop", "endfacet")))
    return "\n".join(("solid sample", *facets, "endsolid sample", ""))


class Case(typing.NamedTuple):
    """A job and a part, by their files, and what they say."""

    job_file: str
    part_file: str
    job: dict
    triangles: array.array
    # What the program keeps off the triangles, which are the part's and those of the boxes that it is kept off: the job's
    # cutter with its slack around it. Its tip is so far below the job's.
    tool: camtool.Tool
    below: int = 0

    def texts(self):
        return read(self.job_file), read(self.part_file)

    def length(self, units):
        """A length as the program writes it."""
        places = places_of(self.job)
        whole, part = divmod(abs(units), 10 ** places)
        return f"{'-' * (units < 0)}{whole}.{part:0{places}d}"

    def said(self, command, *words):
        """The program's status, and its lines as words."""
        run = subprocess.run([PROGRAM, command, self.job_file, self.part_file, *words], capture_output=True, text=True)
        return run.returncode, [line.split() for line in run.stdout.splitlines()]

    def dropped(self, x, y):
        """The drop height at a place, as the program prints it."""
        status, lines = self.said("drop", f"--x={self.length(x)}", f"--y={self.length(y)}")
        return lines[0][1] if status == 0 else lines


def places_of(job):
    return 3 if job.get("unit") == "thousandth" else 2


def slant(rise, run):
    """How far the tip of a cone goes down where its side goes outward by 1."""
    return math.hypot(rise, run) / run


def case_of(job_file, part_file):
    job = tomllib.loads(read(job_file).decode())
    slack = job.get("slack", 0)
    below = math.ceil(slack * slant(job["rise"], job["run"])) if job["cutter"] == "cone" else slack
    holder = (job["holder_radius"] + slack, job["stickout"] - slack + below) if "stickout" in job else None
    cutter = {"flat": camtool.flat, "ball": camtool.ball, "cone": camtool.cone}[job["cutter"]]
    slope = (job["rise"], job["run"]) if job["cutter"] == "cone" else ()
    snap = {"exact": 0, "nearest": 1}[job.get("snap", "nearest")]
    part = camtool.read_part(read(part_file), unit=places_of(job), snap=snap)
    triangles = part.triangles + array.array("i", [number for box in job.get("keep_out", []) for number in faces_of(*box)])
    return Case(job_file, part_file, job, triangles, cutter(job["radius"] + slack, *slope, holder=holder), below)


def faces_of(x0, y0, x1, y1, z):
    """The two triangles of a box's upper face."""
    return x0, y0, z, x1, y0, z, x1, y1, z, x0, y0, z, x1, y1, z, x0, y1, z


def examples():
    """Each job of examples/ with its part."""
    found = []
    for job_file in sorted(glob.glob(os.path.join(ROOT, "examples", "*", "*.toml"))):
        if not re.search(rb"^\[\[(steps|tools)\]\]", read(job_file), re.M):
            found.append(case_of(job_file, os.path.join(os.path.dirname(job_file), "part.stl")))
    return found


def answers():
    """The lines of the examples' answers: the folder, and what is asked for."""
    for file in sorted(glob.glob(os.path.join(ROOT, "examples", "*", "answers"))):
        for line in read(file).decode().splitlines():
            yield os.path.dirname(file), line.split()[0]


def at_once(call, arguments):
    """The results of calls that run the program, some at a time."""
    with concurrent.futures.ThreadPoolExecutor(max_workers=len(os.sched_getaffinity(0))) as pool:
        return list(pool.map(lambda given: call(*given), arguments))


class Compared(unittest.TestCase):
    def setUp(self):
        made = tempfile.TemporaryDirectory()
        self.addCleanup(made.cleanup)
        self.folder = made.name
        job_file, part_file = os.path.join(made.name, "sample.toml"), os.path.join(made.name, "sample.stl")
        for path, text in ((job_file, SAMPLE_JOB), (part_file, sample_part())):
            with open(path, "w", encoding="ascii") as file:
                file.write(text)
        self.sample = case_of(job_file, part_file)
        self.cases = [*examples(), self.sample]
        self.chosen = random.Random(7)

    def place(self, case):
        """A place over a job's area, or up to a radius and a half beside it."""
        x0, y0, x1, y1 = case.job["area"]
        wide = case.job["radius"] * 3 // 2
        return self.chosen.randint(x0 - wide, x1 + wide), self.chosen.randint(y0 - wide, y1 + wide)

    def test_drop_heights(self):
        compared, each = 0, PLACES // (2 * len(self.cases))
        for case in self.cases:
            count = PLACES - compared if case is self.sample else each
            places = [self.place(case) for _ in range(count)]
            flat = array.array("i", [coordinate for place in places for coordinate in place])
            heights = camtool.drop_heights(case.triangles, case.tool, flat, case.job["floor"] - case.below)
            wanted = at_once(case.dropped, places)
            self.assertEqual([case.length(height + case.below) for height in heights], wanted, case.job_file)
            compared += count
        self.assertEqual(compared, PLACES)

    def test_fibers(self):
        """In a run, and nowhere else, the program drops the tool no deeper than to over the fiber's height."""
        ends_seen = 0
        for number in range(FIBERS):
            case, axis = self.cases[number % len(self.cases)], self.chosen.choice((1, 2))
            xs, ys = zip(self.place(case), self.place(case))
            (first, last), at = (sorted(xs), ys[0]) if axis == 1 else (sorted(ys), xs[0])
            z = self.chosen.randint(case.job["floor"], case.job["top"])
            found = camtool.runs(case.triangles, case.tool, array.array("i", [axis, at, z - case.below, first, last])).runs
            pairs = list(zip(found[::2], found[1::2]))
            asked = {p for run in pairs for end in run for p in (end - 1, end, end + 1)} | {first, last, (first + last) // 2}
            asked = sorted(p for p in asked if first <= p <= last)
            heights = at_once(case.dropped, [(p, at) if axis == 1 else (at, p) for p in asked])
            for position, height in zip(asked, heights):
                blocked = round(float(height) * 10 ** places_of(case.job)) > z
                inside = any(a <= position <= b for a, b in pairs)
                self.assertEqual(inside, blocked, (case.job_file, axis, at, z, position))
            ends_seen += len(found)
        self.assertGreater(ends_seen, FIBERS)

    def test_waterlines(self):
        named = [case for case in self.cases if case.job_file.endswith(("level/job.toml", "holder/job.toml", "hill/job.toml"))]
        cases, chains_seen = [*named, self.sample], 0
        for number in range(HEIGHTS):
            case = cases[number % len(cases)]
            z = self.chosen.randint(case.job["floor"], case.job["top"])
            lines = []
            chains = camtool.waterline(case.triangles, case.tool, z, case.job["area"], case.job.get("raster", case.job["pitch"]))
            for chain in chains:
                lines.append(["closed" if chain.closed else "open", str(len(chain.points) // 3)])
                lines += [[case.length(x), case.length(y)] for x, y in zip(chain.points[::3], chain.points[1::3])]
            lines.append(["chains", str(len(chains))])
            self.assertEqual((0, lines), case.said("level", f"--z={case.length(z)}"), (case.job_file, z))
            chains_seen += len(chains)
        self.assertGreater(chains_seen, 0)

    def test_verdicts(self):
        compared = 0
        for folder, asked in answers():
            if ":" in asked or asked == "plan":
                continue
            job_file, part_file, program_file = (
                os.path.join(folder, name) for name in (asked.split(",") if "," in asked else ("job.toml", "part.stl", asked)))
            run = subprocess.run([PROGRAM, "verify", job_file, part_file, program_file], capture_output=True, text=True)
            self.assertEqual(verdict_line(job_file, part_file, program_file), said_of(run.stdout), (folder, asked))
            compared += 1
        self.assertGreater(compared, 20)

    def test_plans(self):
        asked = [(folder, words.split(":")[1:2] or ["job.toml"]) for folder, words in answers() if words.split(":")[0] == "plan"]
        cases = [case_of(os.path.join(folder, job), os.path.join(folder, "part.stl")) for folder, (job,) in asked]
        for case in [*cases, self.sample]:
            stored = os.path.join(self.folder, "plan.ngc")
            status, (line,) = case.said("plan", stored)
            try:
                program = camtool.plan(*case.texts())
            except camtool.Uncut as why:
                said = ["uncut", "row", str(why.row), "column", str(why.column), "top", case.length(why.top)]
                self.assertEqual((8, line), (status, said), case.job_file)
            except camtool.Held as why:
                said = ["held", "move", str(why.move), "row", str(why.row), "column", str(why.column)]
                self.assertEqual((8, line), (status, said), case.job_file)
            except camtool.TooManyMoves:
                self.assertEqual((9, line), (status, ["over", "moves"]), case.job_file)
            except camtool.JobMissing:
                self.assertEqual((4, line), (status, ["refused", "job", "missing", "feed"]), case.job_file)
            else:
                self.assertEqual((0, "planned"), (status, line[0]), case.job_file)
                self.assertEqual(program, read(stored), case.job_file)
                verdict = camtool.verify(*case.texts(), program)
                said = ["planned", "moves", str(verdict.moves), "columns", str(verdict.columns), "left", case.length(verdict.most_left)]
                self.assertEqual((verdict.accepted, said), (True, line), case.job_file)
        self.assertGreater(len(cases), 10)


def said_of(line):
    """What the program prints of a verdict, but for what the module doesn't tell: the height of a move's end, and why a
    word is refused."""
    words = line.split()
    if words[:2] == ["rejected", "floor"]:
        return words[:4]
    return words[:4] if words[0] == "refused" else words


def verdict_line(job_file, part_file, program_file):
    """The words of a verdict, as the program prints them."""
    job = tomllib.loads(read(job_file).decode())
    length = Case(job_file, part_file, job, None, None).length
    try:
        verdict = camtool.verify(read(job_file), read(part_file), read(program_file))
    except camtool.BadProgram as why:
        return ["refused", "program", "line", str(why.line)]
    except camtool.BadText as why:
        return ["refused", "part", "line", str(why.line)]
    if verdict.accepted:
        words = ["accepted", "moves", verdict.moves, "columns", verdict.columns, "left", length(verdict.most_left)]
        words += ["band", length(job["band"]), "allowance", length(job["allowance"])]
        margins = [job.get(key, 0) for key in ("overcut", "slack")]
        words += ["overcut", length(margins[0]), "slack", length(margins[1])] if any(margins) else []
        return [str(word) for word in words]
    words = ["rejected", verdict.test]
    for name in ("move", "triangle", "box", "row", "column"):
        number = getattr(verdict, name)
        words += [name, str(number)] if number is not None else []
    words += ["leaf", *map(str, verdict.leaf)] if verdict.leaf is not None else []
    return words + (["top", length(verdict.top)] if verdict.top is not None else [])


if __name__ == "__main__":
    unittest.main()
