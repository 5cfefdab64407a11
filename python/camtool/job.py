"""camtool-job JOB [PART [PROGRAM|LIST]]

Tells a job's numbers as a shop reads them, in millimetres, and behind `note:` what they leave open: stock that no
column watches, an allowance as high as the stock. `note on a plan:` has what a plan by this job does that may not
be expected, as cut at full depth. With PART it tells the part's box too, and whether its mesh is closed.

With a program, or a list of them (a .toml), it tells each one's box, tool, spindle and feeds, and notes what doesn't go
with the job: a spindle that stands still, a feed before any F, another tool than the post's comments say, feeds that
miss the part. By a job with `words = "machine"` it tells behind `premise:` what the program takes for granted of its
control: zero and tool length, ways up to the machine's place, tool changes, how a cycle comes back down. Where the program isn't accepted, it has camtool judge moved, turned, mirrored and scaled copies of the
part, and tells which change brings part and program together: so a wrong unit, zero or side is told as such. Of a part
of over 20,000 triangles it makes no copies, and says so.

    camtool-job job.toml part.stl
    camtool-job job.toml part.stl pocket.ngc

Its notes are no verdict, and it takes it that camtool takes the texts. This is a help for reading, and no part of what
is proved. Python 3.9 or later, with its standard library alone. Status: 0 where it told them, 2 where it could not.
"""
import itertools
import math
import re

from camtool import command, cutters, fit, machine_words, parts, programs, texts
from camtool.command import read, stop
from camtool.facts import Facts
from camtool.fit import suspects

__all__ = ["Job", "main", "suspects"]

# A cutter of less across than this, in millimetres, is more likely one whose radius was written in millimetres.
LEAST_ACROSS = 0.2
# By how much less a job's cutter may be across than its tool is called, in millimetres, as one that was ground anew; and by
# how much more, as it was measured.
LESS, MORE = 0.12, 0.02


class Job:
    """A job's keys, with those that are left out, and its unit."""

    def __init__(self, keys):
        self.grid = texts.Grid(keys)
        self.cutter, self.radius = keys["cutter"], keys["radius"]
        self.rise, self.run = keys.get("rise", 0), keys.get("run", 1)
        self.floor, self.top, self.clear = keys["floor"], keys["top"], keys["clear"]
        self.area, self.home = keys["area"], keys["home"]
        self.pitch, self.sample = keys["pitch"], keys["sample"]
        self.allowance, self.band = keys["allowance"], keys["band"]
        self.max_cut = keys.get("max_cut", 0)
        self.holder_radius, self.stickout = keys.get("holder_radius"), keys.get("stickout")
        self.raster, self.lift = keys.get("raster", self.pitch), keys.get("lift", 0)
        self.layer, self.rough_stock = keys.get("layer", 0), keys.get("rough_stock", 0)
        self.rough_raster = keys.get("rough_raster", self.raster)
        self.levels, self.path_tol = keys.get("levels", []), keys.get("path_tol")
        self.slack, self.overcut = keys.get("slack", 0), keys.get("overcut", 0)
        self.graze = keys.get("graze", 2 * self.slack + 5 if self.slack else 0)
        self.keep_out = keys.get("keep_out", [])
        self.rapids = keys.get("rapids", "straight")
        self.start, self.spindle = keys.get("start", "home"), keys.get("spindle", False)
        self.is_machine = machine_words.is_machine(keys)
        self.peck_clearance = keys.get("peck_clearance", 25 if self.grid.places == 2 else 250)
        self.lengths = keys.get("lengths", "table")
        self.arc_tol = keys.get("arc_tol", 1 if self.grid.places == 2 else 3)
        self.sides = self.area[2] - self.area[0], self.area[3] - self.area[1]

    def mm(self, units):
        """Returns a length in units as it is told."""
        return f"{self.grid.millimetres(units)} mm"

    def columns(self):
        """Returns how many columns there are along x and along y."""
        return tuple(side // self.pitch + 1 for side in self.sides)


def cutter_of(job):
    """Returns how a job's cutter is told."""
    across = f"{job.cutter}, {job.mm(2 * job.radius)} across"
    if job.cutter != "cone":
        return across
    angle = 2 * math.degrees(math.atan2(job.run, job.rise))
    return f"{across}, {angle:.1f} degrees between its sides"


def start_of(job):
    """Returns how it is told from where a program starts."""
    if job.start == "home":
        return job.grid.point((*job.home, job.clear))
    place = "anywhere" if job.start == "anywhere" else "where the tool is changed"
    return f"from {place}, up or down to Z{job.grid.millimetres(job.clear)} or over it, and then across"


def words_told(job):
    """Returns how it is told that programs have machine words, and what of the slack is left to the machine."""
    length = "one tool length, whatever a program says" if job.lengths == "one" else "tool lengths by a table"
    share = f"{job.mm(3)} of the slack are the text's, {job.mm(job.slack - 3)} the machine's" if job.slack >= 3 else "no number is rounded, all of the slack is the machine's"
    rest = job.slack - job.arc_tol - 2
    arcs = f"of an arc {job.mm(job.arc_tol + 2)} are the text's, {job.mm(rest)} the machine's" if rest >= 0 else f"no arc is taken, for that needs a slack of {job.mm(job.arc_tol + 2)}"
    return f"those that posts write; {length}; {share}; {arcs}"


def rows_of(job):
    """What the job says, in rows of a name and a text."""
    low, high = (job.grid.point((*job.area[at : at + 2], z)) for at, z in ((0, job.floor), (2, job.top)))
    along, rows = job.columns()
    yield "cutter", cutter_of(job)
    yield "stock", f"from {low} to {high}: {job.mm(job.sides[0])} by {job.mm(job.sides[1])} by {job.mm(job.top - job.floor)}"
    yield "start", start_of(job)
    yield "columns", f"{along} by {rows}, {along * rows:,} in all, {job.mm(job.pitch)} apart"
    yield "samples", f"at most {job.mm(job.sample)} apart along a move"
    near = f"a part point less than {job.mm(job.band)} away" if job.band else "the part at its place"
    yield "left", f"at most {job.mm(job.allowance)} of a column, over the floor and over {near}"
    yield "depth", f"a feed cuts at most {job.mm(job.max_cut)} deep" if job.max_cut else "no limit on how deep a feed cuts"
    if job.slack or job.overcut or job.graze:
        yield "machine", f"the tip is at most {job.mm(job.slack)} off; the part may be cut by {job.mm(job.overcut)}, and stock shaved by {job.mm(job.graze)}"
    if job.keep_out:
        yield "fixtures", f"{len(job.keep_out)} to keep out of, the highest up to Z{job.grid.millimetres(max(it[4] for it in job.keep_out))}"
    if job.rapids == "axes":
        yield "rapids", "each axis at its own speed: along two axes or more any way in the box of the ends"
    if job.spindle:
        yield "program", "has to start the spindle, and to say how fast it feeds, before it feeds"
    if job.is_machine:
        yield "words", words_told(job)
    holder = f"{job.mm(2 * job.holder_radius)} across, {job.mm(job.stickout)} over the tip" if job.stickout else "none, so nothing over the cutter is looked at"
    yield "holder", holder


def plan_of(job):
    """What the job says to a planner alone."""
    if job.layer:
        yield "roughing", f"layers of {job.mm(job.layer)}, rows {job.mm(job.rough_raster)} apart, {job.mm(job.rough_stock)} over the part"
    if job.levels:
        yield "levels", " ".join(f"Z{job.grid.millimetres(it)}" for it in job.levels)
    ways = "place by place" if job.path_tol is None else f"straight ways up to {job.mm(job.path_tol)} over the part"
    yield "finishing", f"rows {job.mm(job.raster)} apart, {job.mm(job.lift)} over the part, {ways}"


def notes_on_stock(job):
    """What the job's columns, allowance and band leave open."""
    if 2 * job.radius < LEAST_ACROSS * 10**job.grid.places:
        yield f"radius: a cutter of {job.mm(2 * job.radius)} across is a very small one; lengths are in units of {job.mm(1)}"
    for axis, side in zip("xy", job.sides):
        if side % job.pitch:
            yield f"area: its side along {axis} isn't a whole multiple of pitch, so the last {job.mm(side % job.pitch)} of it have no column"
    if job.pitch**2 >= 2 * job.radius**2:
        yield "pitch: the cutter fits between four columns, and a rapid may go there through stock"
    elif 4 * job.pitch > job.radius:
        yield "pitch: over a quarter of radius"
    if job.cutter == "cone" and job.pitch * job.rise > 0.14 * 10**job.grid.places * job.run:
        yield f"pitch: so close to the tip of a cone a rapid may dip {job.mm(round(job.pitch * job.rise / job.run * 0.707))} into stock unseen"
    if job.allowance >= job.top - job.floor:
        yield "allowance: as high as the stock, so what is left isn't judged"
    if job.overcut:
        yield f"overcut: what is thinner than {job.mm(job.overcut)} of the part may be cut away whole"
    if job.slack and not job.overcut:
        yield "overcut: with a slack and without it a program that is cut to size is rejected"
    if job.is_machine and job.slack < 3:
        yield "slack: under 3 units nothing is rounded, so a program with a finer number is refused"
    if job.allowance < job.slack:
        yield "allowance: it is under slack, by which the tip may be too high"
    yield from notes_on_boxes(job)


def notes_on_boxes(job):
    """What the boxes of `keep_out` leave open."""
    x0, y0, x1, y1 = job.area
    over = [number for number, it in enumerate(job.keep_out) if it[0] < x1 and it[2] > x0 and it[1] < y1 and it[3] > y0]
    low = [number for number, it in enumerate(job.keep_out) if it[4] <= job.floor]
    if over:
        yield f"keep_out: box {', '.join(map(str, over))} stands in area; stock under it stays, and is left too high where the part doesn't cover it"
    if low and not job.slack:
        yield f"keep_out: box {', '.join(map(str, low))} isn't over floor, so nothing ever comes into it"
    if job.keep_out and not job.stickout:
        yield "keep_out: with no holder_radius and stickout the holder may come into a box unseen"


def notes_on_plan(job):
    """What a plan by this job does that a shop may not expect."""
    if job.cutter != "flat" and 2 * job.pitch > job.raster:
        yield "raster: with a pitch over half of it, ridges between the rows may not be seen"
    if job.lift > job.allowance:
        yield "lift: it is over allowance, so that where columns stand under the path the answer is `uncut`"
    if job.layer and not job.max_cut and job.rough_raster > job.raster:
        yield "layer: it limits roughing alone; beside walls the finishing path cuts what roughing left at full depth (max_cut limits that)"
    elif not job.max_cut:
        yield "max_cut: without it the cutter may feed straight down through the whole stock"
    if job.levels:
        yield "levels: mostly one plunge at each of their points, and no pass along the wall"
    if job.spindle:
        yield "spindle: a plan has no feed rate, so the answer is `refused job missing feed`: plan by a copy of the job without it"
    if job.path_tol is not None and job.max_cut:
        yield "path_tol: with max_cut the straight ways are refused where they are too deep, and what lies between stays: leave one of them out"


def notes_on_part(job, tris, low, high):
    """What a part's triangles, and their box, two corners in units, leave open."""
    if len(tris) > parts.MOST:
        yield f"part: it has over {parts.MOST:,} triangles, and is refused; export it with a coarser tolerance"
    if high[2] > job.top:
        yield f"part: it stands over top, up to Z{job.grid.millimetres(high[2])}, and is refused"
    if high[2] <= job.floor:
        yield f"part: it lies under floor, up to Z{job.grid.millimetres(high[2])}: has it the job's zero?"
    if any(low[at] < job.area[at] or high[at] > job.area[at + 2] for at in (0, 1)):
        yield "part: it reaches out of area, where no stock is watched"
    for scale, unit in fit.SCALES:
        if all(0.6 * scale < job.sides[it] / max(high[it] - low[it], 1) < 1.6 * scale for it in (0, 1)):
            yield f"part: the stock is {scale:g} times as large in x and y: is the part in {unit}? export it in millimetres"
    edges = parts.open_edges(tris)
    if edges:
        yield f"part: {edges:,} edges don't belong to two triangles; where the mesh has a hole there is no part"


# ---- the program


def lengths(values):
    """Returns places in millimetres, Decimals, as `X1.0 Y2.0`; an axis that isn't named is left out."""
    return " ".join(f"{axis}{it:f}" for axis, it in zip("XYZ", values) if it is not None) or "nowhere"


def range_of(letter, values):
    """Returns the range of the values of F or S, as `F200 to F600`."""
    low, high = (f"{letter}{cutters.short(it)}" for it in (min(values), max(values)))
    return low if low == high else f"{low} to {high}"


def rows_of_program(facts):
    """What a program says, in rows of a name and a text."""
    unit = {"inch": ", written in inches", None: ", in no unit that it names"}.get(facts.unit, "")
    yield "program", f"{facts.moves:,} lines that move, from {lengths(facts.low)} to {lengths(facts.high)}; {facts.decimals} decimals{unit}"
    rates = f", {range_of('F', facts.rates)}" if facts.rates else ""
    yield "feeds", f"{facts.feeds:,}, down to {lengths([None, None, facts.cut_low[2]])}{rates}"
    called = ", ".join(f"T{it}" for it in facts.numbers) or "no T"
    # (of a tool's comments the shortest: posts write its name into others too)
    told = [f'"{it.name}" (line {line})' for it, line in sorted(facts.told, key=lambda row: len(row[0].name))[:1]]
    yield "tool", "; ".join([called, *told])
    start = f"{facts.spindle_word} in line {facts.spindle_line}" if facts.spindle_line else "no M3 or M4"
    first = f"; the first feed is in line {facts.first_feed}" if facts.first_feed else ""
    yield "spindle", start + (f", {range_of('S', facts.speeds)}" if facts.speeds else "") + first


def notes_on_spindle(facts):
    """What a program's spindle and feed leave open."""
    if not facts.moves:
        yield "no line that moves was found in it"
    if facts.still and not facts.spindle_line:
        yield f"it has no M3 or M4: the spindle stands still in line {facts.still}, where it cuts first"
    elif facts.still:
        behind = f", behind the stop in line {facts.stop_line}" if facts.stop_line else ""
        yield f"no M3 or M4 is in force in line {facts.still}, where it cuts{behind}: the spindle stands still there"
    elif facts.feeds and not any(facts.speeds):
        yield "it has no S over 0: the spindle's speed is what was set before"
    if facts.unfed:
        yield f"it has no F before line {facts.unfed}, where it cuts first: the feed is what an earlier program left"


def notes_on_tool(job, facts, number):
    """What of a program's tool isn't the job's; `number` is that of the job's own comment, or None."""
    # (of comments on one tool the shortest: posts write its name into others too)
    told = sorted(facts.told, key=lambda row: len(row[0].name))
    named = [it for it, _ in told if it.number is not None]
    if len(facts.numbers) > 1:
        yield f"it has the tools {', '.join(f'T{it}' for it in facts.numbers)}; camtool judges one cutter a program"
    elif facts.numbers and number is not None and facts.numbers[0] != number:
        yield f"it calls T{facts.numbers[0]}, and the job is for T{number}"
    elif facts.tools and named and facts.numbers[0] not in [it.number for it in named]:
        yield f'it calls T{facts.numbers[0]}, and its comment says "{named[0].name}"'
    forms = set()
    for tool, line in told:
        if tool.diameter and not is_across(tool, job) and "size" not in forms:
            forms.add("size")
            more = "; is that the diameter?" if abs(job.radius / 10**job.grid.places - float(tool.diameter)) < 0.015 else ""
            yield (f'line {line} says "{tool.name}", {cutters.short(tool.diameter)} mm across, and the job\'s radius is {job.mm(job.radius)}, '
                   f"{job.mm(2 * job.radius)} across{more}")
        elif tool.diameter and not job.overcut and "size" not in forms and units_less(tool, job) >= 1:
            forms.add("size")
            less = math.ceil(units_less(tool, job) - 1e-6)
            yield (f'line {line} says "{tool.name}", and the job\'s radius is {job.mm(less)} less than half of that: is it as measured? '
                   f"For a path that slides along walls write the tool's own, and `overcut = {less}`")
        form = "cone" if tool.kind == "drill" else tool.kind
        if form not in (None, job.cutter) and "form" not in forms and (tool.number or tool.diameter):
            forms.add("form")
            yield f'line {line} says "{tool.name}", and the job\'s cutter is {job.cutter}'


def is_across(tool, job):
    """Returns whether a comment's tool is as wide as the job's cutter, but for what that is less or more."""
    return -MORE <= float(tool.diameter) - 2 * job.radius / 10**job.grid.places <= LESS


def units_less(tool, job):
    """Returns by how many units a job's radius is less than half of what a comment's tool is across."""
    return float(tool.diameter) * 10**job.grid.places / 2 - job.radius


def notes_on_order(steps):
    """What of a list's cutters stands at another program's step; `steps` are pairs of a Job and Facts."""
    own = [next((it for it in facts.comments if it.diameter), None) for _, facts in steps]
    for at, (job, _) in enumerate(steps):
        other = [it for it, (twin, _) in enumerate(steps) if own[at] and it != at and is_across(own[at], twin)]
        if other and not is_across(own[at], job):
            yield f"list: the radius of step {other[0]} is that of the tool that the program of step {at} names, counted from 0: are the tools swapped?"
            return


def notes_on_place(job, facts):
    """What of a program's places doesn't go with the job."""
    units = lambda it: float(it) * 10**job.grid.places
    if facts.decimals > job.grid.places and not (job.is_machine and job.slack >= 3):
        yield f"it has {facts.decimals} decimals, and the job is in {'hundredths' if job.grid.places == 2 else 'thousandths'}: a digit behind the last one that isn't 0 is refused"
    lowest = facts.cut_low[2]
    if lowest is not None and units(lowest) >= job.top:
        yield f"its lowest feed, Z{lowest:f}, isn't under top: it cuts nothing"
    elif facts.low[2] is not None and units(facts.low[2]) < job.floor:
        yield f"its lowest place, Z{facts.low[2]:f}, is under floor, and is rejected"
    if facts.first[2] is not None and units(facts.first[2]) < job.top:
        yield f"its first Z, {facts.first[2]:f}, is under top: does it go there through stock?"
    for axis in (0, 1):
        low, high = facts.cut_low[axis], facts.cut_high[axis]
        if low is not None and (units(low) < job.area[axis] - 3 * job.radius or units(high) > job.area[axis + 2] + 3 * job.radius):
            yield f"its feeds go from {'XY'[axis]}{low:f} to {'XY'[axis]}{high:f}, far out of area, where no stock is watched"


def named_at(names):
    """Returns words with the lines on which they count first, as `G54 (line 3)`; what is in force at the beginning is told so."""
    told = lambda it: "what is in force before the program" if it == machine_words.FIRST else it
    return " and ".join(f"{told(name)} (line {line})" for name, line in names.items())


def premises_of(job, premises):
    """What a program in machine words takes for granted of its control, in sentences."""
    if premises.zeros:
        yield f"X and Y are named under {named_at(premises.zeros)}: that zero is this part's, and a zero's word alone moves nothing"
    if premises.lengths and job.lengths == "one":
        yield "the machine has one tool length: this tool was touched off, and G43 and G49 move and change nothing"
    elif premises.lengths:
        yield f"Z is named under {named_at(premises.lengths)}: that length is this tool's, and the word alone moves nothing"
    if premises.early and premises.changes:
        yield f"Z of line {premises.early} stands before the tool's word in line {premises.changes[0]}: it is true of what is in the spindle then"
    if premises.ups:
        yield f"{named_at(premises.ups)} goes up, and to at least `clear` for this tool"
    if premises.changes and job.start == "change":
        yield f"M6 leaves the tip at or over `clear` (line {premises.changes[0]})"
    if premises.high:
        yield f"T and M6 leave a tip that was at or over `clear` there, with the new tool too (line {premises.high})"
    if premises.arcs:
        yield (f"I, J and K are offsets from an arc's start (line {premises.arcs}), and the control goes round at distances from the centre "
               f"between those of start and end, at most {job.mm(job.slack - job.arc_tol - 2)} off")
    if premises.pecks:
        yield f"the control comes back down into a hole to {job.mm(job.peck_clearance)} over the depth before or higher (line {premises.pecks}): `peck_clearance`"


def told_as_machine(step, name):
    """Returns the sentences on what a program by a job with machine words takes for granted, and on comments with an M6."""
    text = read(name)
    reading = machine_words.read(text, step)
    said = [f"premise: {it}" for it in premises_of(Job(step), reading.premises)]
    hidden = len(re.findall(rb"[(;][^)\n]*\bM0?6\b", text))
    if hidden:
        said.append(f"note: it has {hidden} comments with M6 in them: a tool change that only a comment tells isn't seen, and all is judged with one tool")
    if reading.fault:
        said.append(f"note: read up to line {reading.fault.line} ({reading.fault.code}): what it takes for granted behind that isn't told")
    return said


def numbers_in(text):
    """Returns the number of the tool that stands in the comment of each line `cutter = ..`, as camtool-new writes it, or None."""
    lines = re.findall(r"^\s*cutter\s*=[^#\n]*(?:#([^\n]*))?$", text.decode("utf-8", "replace"), re.M)
    return [cutters.number_in(it) for it in lines]


def told_of_programs(keys, job_text, name):
    """Returns rows, notes and the Facts of a program, or of those of a list."""
    text = read(name)
    steps = [{**keys, **it} for it in texts.steps_of(text)] if name.endswith(".toml") else [{**keys, "program": name}]
    numbers = numbers_in(text if name.endswith(".toml") else job_text)
    numbers = numbers if len(numbers) == len(steps) else [None] * len(steps)
    rows, notes, found, pairs = [], [], [], []
    for step, number in zip(steps, numbers):
        job, facts = Job(step), Facts(read(step["program"]))
        head = f"{step['program']}: " if len(steps) > 1 else "program: "
        rows += [("step", f"{step['program']}, {cutter_of(job)}")] if len(steps) > 1 else []
        rows += rows_of_program(facts)
        notes += [f"note: {head}{it}" for it in (*notes_on_spindle(facts), *notes_on_tool(job, facts, number), *notes_on_place(job, facts))]
        if job.is_machine:
            notes += [it.replace(": ", f": {head}", 1) for it in told_as_machine(step, step["program"])]
        found.append(facts)
        pairs.append((job, facts))
    return rows, [*notes, *(f"note: {it}" for it in notes_on_order(pairs))], found


def notes_on_fit(names, tris, job, found):
    """What camtool's verdict on changed copies tells of the part; by boxes alone where it isn't built."""
    scale = 10**job.grid.places
    boxes = [[it / scale for it in end] for end in texts.box_of(itertools.chain.from_iterable(tris))]
    if not programs.is_built("camtool"):
        return fit.by_box(*boxes, found) + ["camtool isn't built, so no changed copy of the part was tried"]
    try:
        return suspects(*names) or fit.by_box(*boxes, found)
    except (OSError, ValueError, KeyError, TypeError, ArithmeticError):
        return fit.by_box(*boxes, found)


def main(words=None):
    """The command: returns its status."""
    reader = command.Words(__doc__)
    reader.add_argument("job")
    reader.add_argument("part", nargs="?")
    reader.add_argument("program", nargs="?")
    asked = reader.read(words)
    text = read(asked.job)
    try:
        keys = texts.job_of(text)
        job = Job(keys)
        rows = [*rows_of(job), *plan_of(job)]
        notes = [f"note: {it}" for it in notes_on_stock(job)] + [f"note on a plan: {it}" for it in notes_on_plan(job)]
    except (KeyError, TypeError, ValueError, AttributeError, IndexError, ZeroDivisionError):
        stop(f"{asked.job} isn't a job that camtool takes; camtool says why")
    tris = texts.triangles_of(read(asked.part), job.grid) if asked.part else []
    if asked.part and not tris:
        stop(f"{asked.part}: no triangle was found in it")
    if tris:
        low, high = texts.box_of(itertools.chain.from_iterable(tris))
        rows.append(("part", f"{len(tris):,} triangles, from {job.grid.point(low)} to {job.grid.point(high)}"))
        notes += [f"note: {it}" for it in notes_on_part(job, tris, low, high)]
    if asked.program:
        try:
            more, said, found = told_of_programs(keys, text, asked.program)
        except (KeyError, TypeError, ValueError, AttributeError):
            stop(f"{asked.program} isn't a list that camtool takes; camtool says why")
        rows += more
        notes = [it for it in notes if not it.startswith("note on a plan")] + said
        notes += [f"note: {it}" for it in notes_on_fit((asked.job, asked.part, asked.program), tris, job, found)]
    command.say([*(f"{name:<9} {it}" for name, it in rows), *notes])
    return 0
