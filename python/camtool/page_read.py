"""What a page shows: the verdict, the texts that it is on, and what is left of the stock. It asks camtool, and judges nothing.

Lengths are in the job's units, and moves, rows and columns are counted from 0, lines from 1.
"""
import collections
import hashlib
import json
import os
import re
import subprocess
import sys
import tempfile
import time
from fractions import Fraction

from camtool import machine_words, page_map, programs, texts
from camtool.command import read, stop
from camtool.page_solid import Near

# A move that fails, as a report tells it: which program of the list it is of, the test, the move, its line and that
# line's words, the two ends of its first piece that fails, the triangle (its number) or the column (row, column, x, y,
# top) in the way, the lift, and the number of the box in the way; what isn't told is None.
Item = collections.namedtuple("Item", "step test move line words segment triangle column lift box", defaults=(None,))
# A program: its name, the job with its cutter, its text, and its moves.
Step = collections.namedtuple("Step", "name job text moves")
# The tests that don't look at the stock, so that what came before doesn't matter.
OF_PART = ("floor", "gouge", "holder", "fixture", "holder-fixture")
# By how many units an overcut is raised, and a holder narrowed, to see whether a move only touches, by the unit's decimals:
# up to 0.05 mm, or 0.02 mm; the greatest overcut of a job; and how long one more judging may take, in seconds.
MORE, DEEPEST, PATIENCE = {2: (1, 2, 3, 4, 5), 3: (1, 2, 3, 4, 5, 10, 15, 20)}, 500, 60
CUTTER = ("cutter", "radius", "rise", "run")


class Seen:
    """All that a page shows of a job, a part and a program or a list; `refused` where the verdict is none."""

    def __init__(self, names):
        self.names, self.texts = names, [read(it) for it in names]
        self.is_list = names[2].endswith(".toml")
        self.notes, self.items, self.left, self.touches = [], [], None, {}
        self.tops = self.kinds = self.report = None
        self.seconds = 0
        self.ask()
        self.is_accepted, self.is_refused = self.status == 0, self.status not in (0, 3)
        if self.is_refused:
            return
        try:
            self.read_texts()
        except (ValueError, ArithmeticError, LookupError, TypeError) as error:
            stop(f"the files can't be read anew: {error}")

    def ask(self):
        """Asks for the verdict: its line and status, and a report where there is one."""
        if self.is_list:
            self.status, self.line = told(run("camtool", "rest", *self.names))
        elif programs.is_built("camreport"):
            self.report, self.seconds = report_of(self.names)
            self.status, self.line = self.report["status"], self.report["line"]
        else:
            self.status, self.line = told(run("camtool", "verify", *self.names))
            self.notes.append("camreport isn't built: of the moves that fail only the first is shown.")

    def read_texts(self):
        """Reads the job, the part and the programs."""
        self.job = texts.job_of(self.texts[0])
        self.grid = texts.Grid(self.job)
        self.triangles = texts.triangles_of(self.texts[1], self.grid)
        self.near = Near(self.triangles)
        self.steps = [step_of(self.job, *it) for it in self.programs()]

    def step_names(self):
        """Returns the names of a list's programs."""
        return [it.name for it in self.steps] if self.is_list and not self.is_refused else []

    def programs(self):
        """Returns for each program its name, its text, and the keys of its cutter."""
        if not self.is_list:
            return [(self.names[2], self.texts[2], {})]
        steps = texts.steps_of(self.texts[2])
        return [(it["program"], read(it["program"]), {key: it[key] for key in CUTTER if key in it}) for it in steps]


def step_of(job, name, text, cutter):
    """Returns a program, whose cutter is that of its step in the place of the job's."""
    own = {key: value for key, value in job.items() if not (cutter and key in CUTTER)}
    return Step(name, {**own, **cutter}, text, machine_words.moves_of(text, job))


def run(*words, folder=None):
    """Runs camtool or camreport, or stops where there is none."""
    try:
        return programs.run(*words, folder=folder)
    except OSError as error:
        stop(str(error))


def told(ended):
    """Returns the status of a call, and the first line that it printed."""
    line = ended.stdout.decode("utf-8", "replace").partition("\n")[0].strip()
    return ended.returncode, line or f"no answer: the program ended with status {ended.returncode}"


def report_of(names):
    """Returns the report on three files, and how many seconds it took."""
    begun = time.monotonic()
    ended = run("camreport", *names)
    try:
        return json.loads(ended.stdout), time.monotonic() - begun
    except ValueError:
        stop(f"camreport ended with status {ended.returncode}, and printed no report")


def store(folder, name, text):
    """Stores a text in a folder, and returns its name there."""
    file = os.path.join(folder, name)
    with open(file, "wb") as stored:
        stored.write(text if isinstance(text, bytes) else text.encode("utf-8"))
    return file


# ---- what is left of the stock


def look_at_stock(seen):
    """Finds the tops of the stock after all programs, the part's heights, and what each column is shown as."""
    step = page_map.shown_step(seen.job)
    seen.columns = columns = page_map.columns_of(seen.job, step)
    if step > 1:
        pitch = seen.grid.millimetres(columns.pitch)
        seen.notes.append(
            f"The map has a column each {pitch} mm, {step} times the job's pitch: a surface of more columns isn't stored. "
            "Thinner pieces may be missing in it.")
    seen.heights = page_map.part_heights(seen.triangles, columns, seen.job["floor"])
    tops = [stock_of(it, columns) for it in seen.steps]
    if any(it is None for it in tops):
        seen.notes.append("What is left of the stock isn't shown: camtool stores no surface of it.")
        return
    seen.tops = tops[0]
    for other in tops[1:]:
        seen.tops = page_map.lower_of(seen.tops, other)
    left = numbers_left(seen, columns) if step == 1 else None
    seen.kinds = page_map.kinds_of(seen.tops, seen.heights, columns, seen.job, not seen.is_accepted, left)
    if seen.job.get("overcut"):
        page_map.spare(seen.kinds, seen.tops, seen.heights, columns, seen.job["overcut"], seen.near.height)


def stock_of(step, columns):
    """Returns what a program leaves of the whole stock at these columns, or None."""
    with tempfile.TemporaryDirectory(prefix="camtool-page-") as folder:
        # (a band has no meaning here, and must not be over the radius)
        job = store(folder, "job.toml", texts.job_text({**step.job, "pitch": columns.pitch, "band": 0}))
        program, stored = store(folder, "program.ngc", step.text), os.path.join(folder, "stock.stl")
        if run("camtool", "stock", job, program, stored).returncode:
            return None
        return page_map.tops_of(read(stored), columns)


def numbers_left(seen, columns):
    """Returns the numbers of the columns that the report says are left too high; None where it doesn't tell them all."""
    if seen.is_list or not seen.report or seen.report["left_too_high"]["count"] > len(seen.report["left_too_high"]["columns"]):
        return None
    return {it["row"] * columns.along + it["column"] for it in seen.report["left_too_high"]["columns"]}


# ---- the moves that fail


def units(grid, text):
    """Returns a length of a report, a text in millimetres, in whole units; None for None."""
    return None if text is None else int(grid.units(text))


def item_of(grid, step, told_item):
    """Returns a move that fails, of a report's item."""
    segment = told_item["segment"] and tuple(tuple(units(grid, it) for it in end) for end in told_item["segment"])
    at, triangle = told_item["column"], told_item["triangle"]
    column = at and (at["row"], at["column"], *(units(grid, at[it]) for it in ("x", "y", "top")))
    return Item(
        step, told_item["test"], told_item["move"], told_item["line"], told_item["words"], segment, triangle and triangle["number"], column,
        units(grid, told_item["lift"]), told_item.get("box"))


def look_at_moves(seen):
    """Finds the moves that fail."""
    if seen.is_accepted:
        return
    if seen.report:
        seen.items = [item_of(seen.grid, 0, it) for it in seen.report["failing"]]
    elif seen.is_list and programs.is_built("camreport"):
        for number in range(len(seen.steps)):
            seen.items += items_of_step(seen, number)
        seen.notes.append(
            "Of a list's later programs, `camtool rest` names the first move that meets stock, and the page no other; "
            "the moves that meet the part are all shown.")
    named = item_of_line(seen)
    if named and not any((it.step, it.move) == (named.step, named.move) for it in seen.items):
        seen.items = sorted([*seen.items, named], key=lambda it: (it.step, it.move))


def items_of_step(seen, number):
    """Returns the moves of a list's program that fail, judged by itself with its cutter: for the first of them all, for
    the others those that meet the part."""
    items = judged_again(seen, number, 0)
    return [it for it in items if number == 0 or it.test in OF_PART]


def judged_again(seen, number, more):
    """Returns the moves of a program that fail with an overcut that is so many units more, and a holder narrower by as much."""
    step = seen.steps[number]
    job = {**step.job, "overcut": step.job.get("overcut", 0) + more}
    if "holder_radius" in job:
        job["holder_radius"] = max(job["holder_radius"] - more, job["radius"] + 1)
    with tempfile.TemporaryDirectory(prefix="camtool-page-") as folder:
        names = [store(folder, "job.toml", texts.job_text(job)), store(folder, "part.stl", seen.texts[1]), store(folder, "program.ngc", step.text)]
        report, seconds = report_of(names)
    seen.seconds = max(seen.seconds, seconds)
    return [item_of(seen.grid, number, it) for it in report.get("failing", [])]


def piece_of(move, depth, number):
    """Returns the ends of a piece of a move, rounded to whole units."""
    parts = [Fraction(number + it, 2**depth) for it in (0, 1)]
    return tuple(tuple(round(a + (b - a) * part) for a, b in zip(move.start, move.end)) for part in parts)


def item_of_line(seen):
    """Returns the move that the verdict's line names, or None."""
    found = re.fullmatch(r"rejected(?: file (\d+))? ([a-z-]+) move (\d+)(?: triangle (\d+)| row (\d+) column (\d+)| z \S+| box (?P<box>\d+))(?: leaf (?P<depth>\d+) (?P<number>\d+))?", seen.line)
    if not found:
        return None
    step, number = int(found[1] or 0), int(found[3])
    move = seen.steps[step].moves[number]
    words = seen.steps[step].text.split(b"\n")[move.line - 1].decode("utf-8", "replace").strip()
    column = None
    if found[5]:
        row, along = int(found[5]), int(found[6])
        column = row, along, seen.job["area"][0] + along * seen.job["pitch"], seen.job["area"][1] + row * seen.job["pitch"], None
    segment = piece_of(move, int(found["depth"]), int(found["number"])) if found["depth"] else None
    triangle, box = (int(it) if it else None for it in (found[4], found["box"]))
    return Item(step, found[2], number, move.line, words, segment, triangle, column, None, box)


# ---- whether it is only a touch


def look_at_touches(seen, likely):
    """Finds of the moves that may only touch, pairs of a program's and a move's numbers, those that pass with an overcut
    that is a little more: by how many units at least, of those that are tried."""
    if not likely or not programs.is_built("camreport"):
        return
    for step in sorted({step for step, _ in likely}):
        if seen.seconds > PATIENCE:
            seen.notes.append("Whether moves only touch wasn't asked: judging takes too long.")
            return
        look_at_step(seen, step, {move for at, move in likely if at == step})


def look_at_step(seen, step, likely):
    """Finds the touches of one program among its moves with these numbers."""
    job = seen.steps[step].job
    room = min(job["radius"] - 1, DEEPEST) - job.get("overcut", 0)
    *tried, most = [it for it in MORE[seen.grid.places] if it <= room] or [0]
    still = likely - failing_with(seen, step, most)
    for more in tried:
        if not still:
            return
        failing = failing_with(seen, step, more)
        seen.touches.update({(step, move): more for move in still - failing})
        still &= failing
    seen.touches.update({(step, move): most for move in still})


def failing_with(seen, step, more):
    """Returns the numbers of a program's moves that meet the part with an overcut that is so much more."""
    return {it.move for it in judged_again(seen, step, more) if it.test in OF_PART}


def sums_of(seen):
    """Returns rows of a file's name and the SHA-256 of its bytes."""
    named = list(zip(seen.names, seen.texts))
    if seen.is_list and not seen.is_refused:
        named += [(it.name, it.text) for it in seen.steps]
    return [(name, hashlib.sha256(text).hexdigest()) for name, text in dict(named).items()]


def run_where(names, line):
    """Returns what camtool-where says of a line: its text."""
    words = [sys.executable, "-c", "import sys; from camtool.where import main; sys.exit(main())", *names, "-", f"--picture={os.devnull}"]
    folder = os.path.dirname(os.path.dirname(os.path.realpath(__file__)))
    paths = os.pathsep.join([folder, *filter(None, [os.environ.get("PYTHONPATH")])])
    usual = {"stdout": subprocess.PIPE, "stderr": subprocess.DEVNULL, "env": {**os.environ, "PYTHONPATH": paths}}
    ended = subprocess.run(words, input=line.encode() + b"\n", **usual)
    return ended.stdout.decode("utf-8", "replace")
