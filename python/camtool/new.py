"""camtool-new PART [PROGRAM..] [--tools=TABLE] [--tool=N ..] [--stock=X,Y,Z|MARGIN] [--allowance=MM] [--band=MM] [--overcut=MM] [--keep-out=X,Y,X,Y,Z ..] [--rapids=axes] [--start=anywhere] [--spindle] [--words=machine] [--layer=MM] [-o FOLDER] [--force]

Makes the job for a part and the programs that cut it: job.toml, and for several programs list.toml, which names them in
the order of the call, each with its cutter. With no program it makes a job for `camtool plan`. All that it takes from
the part's box, the program's words and the tool table stands in the file with its length in millimetres. What it had to
guess is marked `guessed:` there, and told: look at these numbers, or call it again with the options that say them.

    camtool-new part.stl pocket.ngc --tools=tools.toml --stock=1
    camtool-new bracket.stl t1.ngc t2.ngc --tools=~/FreeCAD/Library/Default.fctl --stock=62,42,14 -o judged

--tools=TABLE      a TOML of one's own, LinuxCNC's tool.tbl, FreeCAD's .fctl or .fctb, or a folder of those; the module
                   camtool.cutters says what they look like. The program's T chooses, or the post's comment
--tool=N           the table's tool N; or a tool in words: "flat 6", "ball 3", "cone 6 90", "drill 5 118". Once for all
                   programs, or once for each in their order
--stock=MARGIN     the stock is so many millimetres larger than the part, on each side and above
--stock=X,Y,Z      the stock measures X by Y by Z mm; the part lies in its middle, on its underside
--stock=X,Y,Z,X,Y,Z  the stock's least and greatest corner
--allowance=MM     how much may be left standing; 0.1 if left out
--band=MM          how far from a wall nothing that stands is told
--overcut=MM       how far a program may come into the part; 0.05 if left out, in thousandths 0.015
--keep-out=X,Y,X,Y,Z  a box that cutter and holder keep out of: its least and greatest X and Y, and its height; once for each
--rapids=axes      rapids may be no straight lines: each axis may run at its own speed
--start=anywhere   programs start from anywhere: a line with Z alone, at or over `clear`, and then one with X and Y
--spindle          programs must start the spindle, and say how fast they feed, before they feed
--words=machine    programs have the words that posts write: inches, offsets, cycles and more; then --start is anywhere or
                   change, and anywhere if left out
--layer=MM         for a plan: how much roughing takes off at a time
-o FOLDER          where the files go; the current folder if left out
--force            write over files that are there

A binary part is written into the folder as ASCII too, with exactly its numbers, since camtool takes no other. No program
is written or changed. It judges nothing; `camtool verify` and `camtool rest` do. Python 3.9 or later, with its standard
library alone. Status: 0 where it made the job, 2 where it could not.
"""
import os
from decimal import ROUND_CEILING, ROUND_FLOOR, ROUND_HALF_UP, Decimal

from camtool import causes, command, cutters, fit, parts
from camtool.command import read, stop
from camtool.cutters import short
from camtool.facts import Facts
from camtool.keys import DEEPEST, KEYS, REACH, STEP_KEYS, UNITS, WIDEST, Setup


# ---- what is written


def written(key, found, setup):
    """Returns a key's value as it stands in the file, and its lengths in millimetres, "" where it has none."""
    ways = {"near": ROUND_HALF_UP, "places": ROUND_HALF_UP, "low": ROUND_FLOOR, "high": ROUND_CEILING}
    if key.kind == "boxes":
        ends = (ROUND_FLOOR, ROUND_FLOOR, ROUND_CEILING, ROUND_CEILING, ROUND_CEILING)
        return str([[int((it * UNITS[setup.unit]).to_integral_value(way)) for it, way in zip(box, ends)] for box in found.value]), ""
    if key.kind not in ways:
        return (f'"{found.value}"' if key.kind == "text" else str(found.value)), ""
    units = lambda it: int((it * UNITS[setup.unit]).to_integral_value(ways[key.kind]))
    millimetres = lambda it: f"{Decimal(it) / UNITS[setup.unit]:.{len(str(UNITS[setup.unit])) - 1}f}"
    if key.kind == "places":
        numbers = [units(it) for it in found.value]
        return str(numbers), " ".join(map(millimetres, numbers)) + " mm"
    return str(units(found.value)), f"{millimetres(units(found.value))} mm"


def line_of(key, found, setup):
    """Returns a key's line."""
    value, length = written(key, found, setup)
    told = command.plain(": ".join(it for it in (length, found.why) if it))
    return f"{f'{key.name} = {value}':<38} # {'guessed: ' if found.is_guess else ''}{told}"


def job_text(setup):
    """Returns the text of the job, and a sentence for each number in it that was guessed."""
    named = ", ".join(os.path.basename(it) for it in (setup.asked.part, *setup.names))
    lines, guesses = [command.plain(f"# Made by camtool-new of {named}. What is guessed is marked: look at it."), ""], []
    for key in KEYS:
        found = getattr(setup, key.find)()
        if found is None or (key.name == "unit" and found.value == "hundredth"):
            continue
        lines.append(line_of(key, found, setup))
        if found.is_guess and key.kind not in ("text", "whole"):
            # (what is guessed of the tool is told by how it was chosen)
            value, length = written(key, found, setup)
            guesses.append(f"{key.name} = {value}: " + ", ".join(it for it in (length, found.why) if it))
    return "\n".join([*lines, ""]), guesses


def list_text(setup):
    """Returns the text of the list: each program with its cutter."""
    lines = ["# Made by camtool-new. A name is looked for from the folder in which camtool is called."]
    for name, tool, choice in zip(setup.names, setup.tools, setup.choices):
        one = Setup(setup.triangles, [name], setup.programs, [tool], [choice], setup.asked)
        lines += ["", "[[steps]]", f"program = {quoted(name)}"]
        one.__dict__["unit"] = setup.unit
        for key in STEP_KEYS:
            found = getattr(one, key.find)()
            if found is not None:
                lines.append(line_of(key, found, one))
    return "\n".join([*lines, ""])


def quoted(name):
    """Returns a name as a text of TOML."""
    return '"' + "".join(f"\\u{ord(it):04x}" if it in '"\\' or not it.isprintable() else it for it in name) + '"'


# ---- the command


class Asked:
    """What the words ask for: lengths are Decimals, `stock` a list of none, one, three or six; None where nothing is asked."""

    def __init__(self, words):
        self.part, self.programs, self.table, self.tools = words.part, words.programs, words.tools, words.tool or []
        self.folder, self.force = words.o, words.force
        lengths = (length_of(it, getattr(words, it)) for it in ("allowance", "band", "overcut", "layer"))
        self.allowance, self.band, self.overcut, self.layer = lengths
        self.stock = [length_of("stock", it, True) for it in words.stock.split(",")] if words.stock else []
        self.rapids, self.start, self.spindle, self.words = words.rapids, words.start, words.spindle, words.words
        self.keep_out = [[length_of("keep-out", it, True) for it in box.split(",")] for box in words.keep_out or []]
        if any(len(it) != 5 or it[0] > it[2] or it[1] > it[3] for it in self.keep_out):
            stop("--keep-out takes X,Y,X,Y,Z in millimetres: the least X and Y, the greatest, and the height")
        if len(self.stock) not in (0, 1, 3, 6) or (len(self.stock) == 1 and self.stock[0] < 0):
            stop("--stock takes a margin, three sides X,Y,Z, or two corners X,Y,Z,X,Y,Z, in millimetres")
        if self.layer is not None and self.programs:
            stop("--layer is for a plan: leave out the programs, or the layer")
        if self.overcut is not None and not self.programs:
            stop("--overcut is for programs: a plan keeps off the part")
        if self.words == "machine" and self.start == "home":
            stop("--words=machine is for programs that start anywhere: leave out --start, or write --start=change")
        if self.spindle and not self.programs:
            stop("--spindle is for programs: a plan has no feed rate yet")
        if len(self.tools) not in (0, 1, max(len(self.programs), 1)):
            stop("--tool stands once for all programs, or once for each")


def length_of(name, text, may_be_negative=False):
    """Returns a length of the command line in millimetres, or None."""
    if text is None:
        return None
    try:
        value = Decimal(text)
        if value.is_finite() and (may_be_negative or value >= 0) and abs(value) < 2000:
            return value
    except ArithmeticError:
        pass
    return stop(f"--{name} takes millimetres with a point, as 0.1; {text!r} is no such number")


def part_of(name):
    """Returns the bytes of a part, and its triangles; stops where it has none."""
    text = read(name)
    try:
        triangles = parts.triangles_of(text)
    except ValueError as error:
        stop(f"{name}: {error}; camtool takes decimals with a point")
    if not triangles:
        kind = causes.kind_of(text)
        seems = f"; it seems to be {causes.WHAT[kind]}, and the part comes first" if kind not in (None, "part") else ""
        stop(causes.cause_of_encoding(name, text) or f"{name}: no triangle was found in it; camtool-new takes an STL, ASCII or binary{seems}")
    return text, triangles


def tools_of(asked, programs):
    """Returns a Tool for each program, or the one of a plan, and how each was chosen."""
    try:
        table = cutters.table_of(os.path.expanduser(asked.table)) if asked.table else []
    except OSError as error:
        stop(f"{asked.table}: {error.strerror}")
    found = []
    for at, facts in enumerate(programs or [None]):
        wanted = asked.tools[at if len(asked.tools) > 1 else 0] if asked.tools else None
        try:
            found.append(cutters.chosen(table, wanted, facts.numbers if facts else [], facts.comments if facts else []))
            cutters.form_of(found[-1][0])
        except cutters.Wrong as error:
            raise cutters.Wrong(f"{asked.programs[at]}: {error}" if facts else error) from None
    return [it for it, _ in found], [it for _, it in found]


def notes_on_holder(setup, wide):
    """Why the holder isn't judged: it is wider than the job's unit lets it be, or no wider than the cutter."""
    widest = max(it[0] for it in wide)
    if widest / 2 > WIDEST[setup.unit]:
        more = "; post two decimals, for a job in hundredths" if setup.unit == "thousandth" else ""
        yield f"the holder isn't judged: half of {short(widest)} mm is over the {WIDEST[setup.unit]} mm that a job in {setup.unit}s takes{more}"
    else:
        yield f"the holder isn't judged: it is {short(widest)} mm wide, and the cutter no less"


def notes_on(setup, text):
    """What the job leaves open, in sentences that vary with the input."""
    for tool in dict.fromkeys(setup.tools):
        yield from cutters.warnings_on(tool)
    for name, facts in zip(setup.names, setup.programs):
        changed = list(dict.fromkeys(facts.numbers))
        if len(changed) > 1:
            yield f"{name}: it has the tools {', '.join(f'T{it}' for it in changed)}; camtool judges one tool a program: post one program for each, and give them all"
        if facts.decimals > 2 and setup.unit == "hundredth" and not setup.has_machine_words:
            yield f"{name}: it has {facts.decimals} decimals and needs a job in thousandths, in which no coordinate is over {REACH['thousandth']} mm and no tool over 20 mm wide: have two written"
    wide = [it for it in map(cutters.holder_of, setup.tools) if it]
    if wide and not setup.holder:
        yield from notes_on_holder(setup, wide)
    if len(setup.triangles) > parts.MOST:
        yield f"{setup.asked.part}: {len(setup.triangles):,} facets; camtool takes {parts.MOST:,}: export it with a larger deviation"
    if setup.farthest > REACH[setup.unit]:
        yield f"a coordinate of {short(setup.farthest)} mm is over the {REACH[setup.unit]} mm that camtool takes: put the zero into the middle of the stock"
    if setup.through:
        yield (f"drills come out {short(setup.through)} mm under the part, and their points leave cones there, which `rest` tells as left too high: "
               "put the board under the part into its file, with the drills' points, or judge the milling alone")
    if setup.asked.band is not None and setup.asked.band > min(map(setup.radius_of, setup.tools)):
        yield "band: it is over the smallest cutter's radius, which is the most that a job takes"
    if setup.asked.overcut is not None and setup.asked.overcut - setup.overcut >= setup.least:
        yield f"overcut: a job takes at most {short(DEEPEST[setup.unit])} mm, and less than the smallest cutter's radius"
    if any(setup.high[it] > setup.stock[1][it] or setup.low[it] < setup.stock[0][it] for it in (0, 1)) or setup.high[2] > setup.stock[1][2]:
        yield "the part stands out of the stock that --stock says"
    yield from fit.by_box(setup.low, setup.high, setup.programs)


def ascii_name(asked, text):
    """Returns the name under which a binary part is written as ASCII, or None where it needn't be."""
    if parts.count_of(text) is None:
        return None
    stem = os.path.splitext(os.path.basename(asked.part))[0]
    name = os.path.join(asked.folder, f"{stem}.stl")
    is_same = os.path.exists(name) and os.path.samefile(name, asked.part)
    return os.path.join(asked.folder, f"{stem}-ascii.stl") if is_same else name


def main(words=None):
    """The command: returns its status."""
    reader = command.Words(__doc__)
    reader.add_argument("part")
    reader.add_argument("programs", nargs="*")
    for name in ("tools", "stock", "allowance", "band", "overcut", "layer"):
        reader.add_argument(f"--{name}")
    reader.add_argument("--tool", action="append")
    reader.add_argument("--keep-out", action="append")
    reader.add_argument("--rapids", choices=("straight", "axes"))
    reader.add_argument("--start", choices=("home", "anywhere", "change"))
    reader.add_argument("--spindle", action="store_true")
    reader.add_argument("--words", choices=("strict", "machine"))
    reader.add_argument("-o", default=".")
    reader.add_argument("--force", action="store_true")
    asked = Asked(reader.read(words))
    text, triangles = part_of(asked.part)
    programs = [Facts(read(it)) for it in asked.programs]
    for name, facts in zip(asked.programs, programs):
        if not facts.moves:
            why = "no line that moves was found in it; camtool takes G-code, with G0 or G1 and X, Y or Z"
            stop(causes.cause_of_encoding(name, read(name)) or f"{name}: {why}")
    if len(programs) > 16:
        stop("a list has at most 16 programs")
    try:
        tools, choices = tools_of(asked, programs)
        setup = Setup(triangles, asked.programs, programs, tools, choices, asked)
        job, guesses = job_text(setup)
        files = {os.path.join(asked.folder, "job.toml"): job}
        if len(programs) > 1:
            files[os.path.join(asked.folder, "list.toml")] = list_text(setup)
    except cutters.Wrong as error:
        stop(str(error))
    name = ascii_name(asked, text)
    if name:
        files[name] = parts.ascii_of(text)
    store(files, asked)
    tell(setup, files, name, guesses, text)
    return 0


def store(files, asked):
    """Writes the files; stops before the first where one of them is there and may not be written over."""
    there = [it for it in files if os.path.lexists(it)]
    inputs = [it for it in (asked.part, asked.table, *asked.programs) if it and os.path.exists(it)]
    clash = [it for it in there if any(os.path.exists(it) and os.path.samefile(it, other) for other in inputs)]
    if clash:
        stop(f"{clash[0]} is one of the files that it reads: give another folder by -o")
    if there and not asked.force:
        stop(f"{there[0]} is there: --force writes over it, -o FOLDER writes elsewhere")
    try:
        os.makedirs(asked.folder, exist_ok=True)
    except OSError as error:
        stop(f"{asked.folder}: {error.strerror}")
    for name, text in files.items():
        command.write(name, text)


def tell(setup, files, ascii_part, guesses, text):
    """Prints what was made, what was guessed, and what to call next."""
    lines = [f"written: {it}" for it in files]
    if ascii_part:
        lines.append(f"part: {setup.asked.part} is a binary STL, which camtool doesn't take; {ascii_part} has exactly its numbers as ASCII")
    lines += [f"guessed: {it}" for it in guesses]
    lines += [it if it.startswith("guessed") else f"tool: {it}" for it in dict.fromkeys(setup.choices) if it]
    notes = dict.fromkeys(notes_on(setup, text))
    lines += [it if it.startswith("guessed") else f"note: {it}" for it in notes]
    part, job = ascii_part or setup.asked.part, next(iter(files))
    kinds = ("plan", "OUT.ngc") if setup.is_plan else ("verify", setup.names[0])
    if len(setup.names) > 1:
        kinds = ("rest", list(files)[1])
    lines += [f"next: camtool {kinds[0]} {job} {part} {kinds[1]}"]
    lines += [] if setup.is_plan else [f"next: camtool-job {job} {part} {kinds[1]}"]
    command.say(lines)
