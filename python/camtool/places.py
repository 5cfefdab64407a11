"""Tells of a rejection where it points: the line of the program, the place on the move, the triangle or the column.

The places are those of camtool's line, or all those of camreport's report. Lengths are in the job's units.
"""
import collections
import re
from decimal import Decimal
from fractions import Fraction

from camtool import machine_words, texts
from camtool.command import counted, quoted, stop
from camtool.command import read as text_of

# How many columns are named.
NAMED = 20
# A column of stock is named by its row and its number in that, a piece of a move by its depth and its number. What
# only a report tells is None for a line: the number of the program's line, its words, and the lift.
Reason = collections.namedtuple("Reason", "test move triangle column leaf top line words lift box", defaults=(None,) * 9)


def reasons_of_line(verdict):
    """Returns the one place that a line points to, or none."""
    found = re.fullmatch(r"rejected (gouge|holder) move (\d+) triangle (\d+) leaf (\d+) (\d+)", verdict)
    if found:
        move, triangle, *leaf = map(int, found.groups()[1:])
        return [Reason(found[1], move, triangle=triangle, leaf=leaf)]
    found = re.fullmatch(r"rejected (fixture|holder-fixture) move (\d+) box (\d+) leaf (\d+) (\d+)", verdict)
    if found:
        move, box, *leaf = map(int, found.groups()[1:])
        return [Reason(found[1], move, box=box, leaf=leaf)]
    found = re.fullmatch(r"rejected (rapid|cut|holder-stock) move (\d+) row (\d+) column (\d+) leaf (\d+) (\d+)", verdict)
    if found:
        move, row, column, *leaf = map(int, found.groups()[1:])
        return [Reason(found[1], move, column=(row, column), leaf=leaf)]
    found = re.fullmatch(r"rejected floor move (\d+) z (\S+)", verdict)
    if found:
        return [Reason("floor", int(found[1]))]
    found = re.fullmatch(r"(?:rejected left|uncut) row (\d+) column (\d+) top (\S+)", verdict)
    if found:
        return [Reason("left", column=(int(found[1]), int(found[2])), top=found[3])]
    found = re.fullmatch(r"held move (\d+) row (\d+) column (\d+)", verdict)
    return [Reason("held", int(found[1]), column=(int(found[2]), int(found[3])))] if found else []


def reason_of_item(item):
    """Returns the place of a report's move that fails."""
    triangle, column = item["triangle"], item["column"]
    return Reason(
        item["test"],
        item["move"],
        triangle=triangle and triangle["number"],
        column=column and (column["row"], column["column"]),
        leaf=item["leaf"],
        line=item["line"],
        words=item["words"],
        lift=item["lift"],
        box=item.get("box"),
    )


def reasons_of_report(report):
    """Returns all places of a report."""
    left = [Reason("left", column=(it["row"], it["column"]), top=it["top"]) for it in report["left_too_high"]["columns"]]
    return [*map(reason_of_item, report["failing"]), *left]


class Files:
    """What the job, the part and the programs say."""

    def __init__(self, names, steps):
        self.names, self.program = names, steps[0]["program"] if steps else None
        try:
            self.job = texts.job_of(text_of(names[0]))
            self.grid = texts.Grid(self.job)
            self.triangles = texts.triangles_of(text_of(names[1]), self.grid)
            self.job.update(*steps[:1])
            self.moves = [it for step in steps for it in machine_words.moves_of(text_of(step["program"]), self.job)]
        except (ValueError, ArithmeticError, KeyError) as error:
            stop(f"the files aren't those of the verdict: {error}")

    def move(self, number):
        """Returns a move by its number from 0."""
        if number >= len(self.moves):
            stop(f"the program has only {len(self.moves)} moves: the files aren't those of the verdict")
        return self.moves[number]

    def triangle(self, number):
        """Returns the corners of a triangle by its number from 0."""
        if number >= len(self.triangles):
            stop(f"the part has only {len(self.triangles)} triangles: the files aren't those of the verdict")
        return self.triangles[number]

    def box(self, number):
        """Returns one of the boxes of `keep_out` by its number from 0."""
        boxes = self.job.get("keep_out", [])
        if number >= len(boxes):
            stop(f"the job has only {len(boxes)} boxes: the files aren't those of the verdict")
        return boxes[number]

    def column(self, numbers):
        """Returns the place of a column of stock, x and y, by its row and its number in that."""
        row, column = numbers
        return self.job["area"][0] + column * self.job["pitch"], self.job["area"][1] + row * self.job["pitch"]


class Marks:
    """What is drawn of the places: moves, the pieces of them that fail, triangles, boxes and columns."""

    def __init__(self):
        self.moves, self.pieces, self.triangles, self.boxes, self.columns = [], [], [], [], []

    def first(self):
        """Returns the first place."""
        if self.pieces:
            return self.pieces[0][0]
        places = [*self.columns[:1], *[it.end for it in self.moves[:1]]]
        return places[0] if places else (0, 0)


def ends_of(move, leaf):
    """Returns the ends of a piece of a move."""
    depth, number = leaf
    ends = [Fraction(number + it, 2**depth) for it in (0, 1)]
    return [tuple(one + (other - one) * end for one, other in zip(move.start, move.end)) for end in ends]


def chord_of(moves, number):
    """Returns which chord of its line's arc a move is, as it is told; nothing of a move that is its line's only one, or of a
    line that has rapids too."""
    first, behind = number, number + 1
    while first > 0 and moves[first - 1].line == moves[number].line:
        first -= 1
    while behind < len(moves) and moves[behind].line == moves[number].line:
        behind += 1
    is_arc = behind - first > 1 and all(it.kind == "feed" for it in moves[first:behind])
    return f" along chord {number - first + 1} of its arc's {behind - first}" if is_arc else ""


def tell_move(files, reason, marks):
    """Returns the lines on the move of a place: where it stands, and what it is."""
    move, point = files.move(reason.move), files.grid.point
    line, words = reason.line, reason.words
    if line is None:
        line = move.line
        words = text_of(files.program).split(b"\n")[line - 1]
    marks.moves.append(move)
    # (a line tells the test itself)
    test = f": {reason.test}" if reason.line is not None else ""
    return [
        f"{files.program} line {line}: {quoted(words)}",
        f"move {reason.move}, a {move.kind}{chord_of(files.moves, reason.move)} from {point(move.start)} to {point(move.end)}{test}",
    ]


def tell_piece(files, reason, marks):
    """Returns the line on the piece of the move that fails."""
    piece = ends_of(files.move(reason.move), reason.leaf)
    marks.pieces.append(piece)
    if texts.bends(files.job, files.move(reason.move)):
        return [
            "with `rapids = \"axes\"` it may go any way in the box of its two ends, and some way there fails: "
            "write it in two lines, up first with Z alone, and then across"]
    return [f"the piece from {' to '.join(map(files.grid.point, piece))} of it fails"]


def tell_triangle(files, reason, marks):
    """Returns the line on the triangle in the way."""
    triangle = files.triangle(reason.triangle)
    marks.triangles.append(triangle)
    way = " is in the holder's way" if reason.test == "holder" else ""
    return [f"triangle {reason.triangle} of {files.names[1]}{way}: {', '.join(map(files.grid.point, triangle))}"]


def tell_box(files, reason, marks):
    """Returns the lines on the box in the way, and on what to do."""
    box, point = files.box(reason.box), files.grid.point
    marks.boxes.append(reason.box)
    way, tool = (" is in the holder's way", "the holder") if reason.test == "holder-fixture" else (" is in its way", "the tool")
    return [
        f"box {reason.box} of `keep_out`{way}: {point(box[:2])} to {point(box[2:4])}, from below up to Z{files.grid.millimetres(box[4])}",
        f"lift the move until {tool} is over that height, or lead it round the box; no overcut counts there",
    ]


def tell_column(files, reason, marks):
    """Returns the line on the column in the way, or left too high."""
    place = files.column(reason.column)
    marks.columns.append(place)
    still = {
        "rapid": " is in its way",
        "cut": " is cut too deep",
        "holder-stock": " is in the holder's way",
        "left": f" still stands at Z{reason.top}",
        "held": f" is in the holder's way on move {reason.move} of the plan",
    }[reason.test]
    row, column = reason.column
    return [f"the column of stock at {files.grid.point(place)} (row {row}, column {column}){still}"]


def tell_lift(reason):
    """Returns the line on how far a report says that the move is to be lifted."""
    if reason.line is None or reason.test not in ("gouge", "holder"):
        return []
    if reason.lift is None:
        return ["it can't be lifted over the part within the range of coordinates"]
    return [f"lifted by {reason.lift} mm it passes the part"]


def tell(files, reason, marks):
    """Returns the lines on a place, and notes what is drawn of it."""
    said = []
    if reason.test not in ("left", "held"):
        said += tell_move(files, reason, marks)
    if reason.leaf is not None:
        said += tell_piece(files, reason, marks)
    if reason.triangle is not None:
        said += tell_triangle(files, reason, marks)
    if reason.box is not None:
        said += tell_box(files, reason, marks)
    if reason.column is not None:
        said += tell_column(files, reason, marks)
    return said + tell_lift(reason)


def tell_counts(failing):
    """Returns the line on how many moves fail each test, and on the least and the greatest of their lifts."""
    tests = collections.Counter(it["test"] for it in failing)
    lifts = sorted(Decimal(it["lift"]) for it in failing if it["lift"] is not None)
    said = f"by test: {', '.join(f'{test} {count:,}' for test, count in tests.items())}"
    if lifts:
        said += f"; lifts from {lifts[0]} to {lifts[-1]} mm"
    return [said] if failing else []


def tell_report(files, report, marks):
    """Returns the lines on all places of a report."""
    failing, left = len(report["failing"]), report["left_too_high"]["count"]
    said = [f"{counted(failing, 'move fails', 'moves fail')}; {counted(left, 'column is', 'columns are')} left too high"]
    said += tell_counts(report["failing"])
    reasons = reasons_of_report(report)
    told = [tell(files, it, marks) for it in reasons]
    # Every move is named, and of the columns the first ones.
    said += [line for lines in told[: failing + NAMED] for line in lines]
    if left > NAMED:
        said.append(f"and {counted(left - NAMED, 'more column', 'more columns')}")
    return said


def tell_accepted(files, verdict):
    """Returns the lines on what an acceptance says, and on what it leaves open.

    files    the Files of the call
    verdict  camtool's line, `accepted moves 2 columns 9 left 0.00 ..`
    """
    grid, job, moves = files.grid, files.job, files.moves
    left = re.search(r" left (\S+)", verdict)
    said = []
    if moves:
        low, high = texts.box_of(it.end for it in moves)
        cut = min((it.end[2] for it in moves if it.kind == "feed"), default=high[2])
        said.append(f"the path goes from {grid.point(low)} to {grid.point(high)}, and feeds down to Z{grid.millimetres(cut)}")
    if left:
        said += tell_left(grid, job, grid.units(left[1]))
    slack, overcut = job.get("slack", 0), job.get("overcut", 0)
    if slack:
        said.append(f"the tip may be {grid.millimetres(slack)} mm off its place")
    if overcut:
        said.append(f"the part may be cut by {grid.millimetres(overcut)} mm; what of it is thinner may be gone")
    return said + tell_setup(job)


def tell_setup(job):
    """Returns the lines on what an acceptance says of what stands on the machine, of rapids, of the start and of the spindle."""
    said = []
    boxes, holder = job.get("keep_out", []), " nor the holder" if "holder_radius" in job else ""
    if boxes:
        said.append(f"the cutter{holder} comes into none of the {counted(len(boxes), 'box', 'boxes')} of `keep_out`; what else stands on the table isn't looked at")
    if job.get("rapids") == "axes":
        said.append("each axis may run at its own speed on a rapid: one along two axes or more may go any way in the box of its ends")
    if job.get("start", "home") != "home":
        said.append("it may start from anywhere: its first line goes up or down, and its second one across, and neither is looked at")
    if job.get("spindle"):
        said.append("no line feeds before M3 or M4, an S over 0 and an F over 0")
    return said


def tell_left(grid, job, left):
    """Returns the lines on what is left at most, in units, and on how far a job judges that."""
    stock, allowance, band = job["top"] - job["floor"], job["allowance"], job["band"]
    mm = lambda units: f"{grid.millimetres(units)} mm"
    near = f"its points less than {mm(band)} away" if band else "it at its place"
    said = [f"the stock stands at most {mm(left)} over the part ({near}) and the floor; {mm(allowance)} were allowed"]
    if allowance >= stock:
        tenth = 10 ** (grid.places - 1)
        said.append(f"`allowance` is as high as the whole stock of {mm(stock)}, so what is left isn't judged: write what may be left, as `allowance = {tenth}` for 0.1 mm")
    if left and 4 * left >= stock:
        said.append(f"{mm(left)} of {mm(stock)} of stock are left somewhere: is that place cut, is the tool the program's, and have part and program one zero?")
    return said
