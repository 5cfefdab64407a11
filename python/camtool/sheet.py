"""camtool-sheet JOB PART PROGRAM|LIST [-o SHEET] [--text]
camtool-sheet --check FILE.. [-o SHEET]

Makes the setup sheet of a program that camtool accepts: what must be true at the machine, with the numbers of this job
and program, a page for each tool, to print and to tick off. It is sheet.html if no other name is given. With `--text`
it is a plain text, printed, or stored under SHEET.

    camtool-sheet job.toml part.stl program.ngc -o sheet.html
    camtool-sheet --check program.ngc -o sheet.html

Of a program that isn't accepted it makes none. The sheet has the checksums of all files: `--check` says of each FILE
whether it is one of those that were judged, byte for byte.

The verdict is camtool's. What the sheet says of words, boxes and comments it has read by itself, and it sees no machine.

Status: 0 where the sheet was made, or each FILE is one that was judged; 3 where the program isn't accepted, or a FILE is
another one; 2 where it could not.
"""
import collections
import hashlib
import html
import re
import string
import sys

from camtool import command, machine_words, page_read, parts, sheet_facts, texts
from camtool.job import Job, premises_of
from camtool.page import base, resource, stop_on_own, table, told_of_tool
from camtool.version import __version__

# A point to see to: its heading, sentences, and whether one of them is a warning.
Point = collections.namedtuple("Point", "head said warns")


def point(head, *said):
    """Returns a point of the list; a sentence that begins with "!" is a warning. Those that are None are left out."""
    said = [it for it in said if it]
    return Point(head, [it.removeprefix("! ") for it in said], [it.startswith("! ") for it in said])


def number(value):
    """Returns a number without zeros behind its point."""
    return f"{value:f}".rstrip("0").rstrip(".") if "." in f"{value:f}" else f"{value:f}"


class Sheet:
    """One program with its job and its place among the programs of a list."""

    def __init__(self, seen, number):
        self.seen, self.number, self.step = seen, number, seen.steps[number]
        self.job, self.grid = self.step.job, seen.grid
        self.facts = sheet_facts.facts_of(self.step.text, self.step.moves, self.job["top"])
        self.low = min((it.end[2] for it in self.step.moves), default=self.job["clear"])

    def mm(self, units):
        """Returns a length in millimetres."""
        return f"{self.grid.millimetres(units)} mm"

    def lines(self, name):
        """Returns a word and its first line, or None where the program hasn't it."""
        at = self.facts.words.get(name)
        return f"{name} (line {at[0]})" if at else None

    def head(self):
        """Returns the program's name, and which one of a list it is."""
        one = f", {self.number + 1} of {len(self.seen.steps)}" if self.seen.is_list else ""
        return f"{base(self.step.name)}{one}"

    def points(self):
        """Returns the points of the list, in the order in which a shop sees to them."""
        return [
            self.tool(), self.stock(), self.clamps(), self.zero(), self.start(), self.motion(), self.spindle(), self.control(), self.part(),
            self.left(), self.file(), *([self.premises()] if machine_words.is_machine(self.job) else [])]

    def premises(self):
        """Returns the point on what a program in machine words takes for granted of its control."""
        found = premises_of(Job(self.job), machine_words.read(self.step.text, self.job).premises)
        return point("Machine words", *(it[0].upper() + it[1:] + "." for it in found))

    def tool(self):
        """Returns the point on the tool: which, how wide, how far out."""
        job, facts = self.job, self.facts
        tools = [it for it in facts.words if it.startswith("T")]
        farther = "comes farther" if job.get("overcut") else "may come"
        told = f"{', '.join(tools) or 'No T word'}: {told_of_tool(job, self.grid.millimetres)}, as judged. Measured: ________ mm. A wider tool {farther} into the part by half of what it is wider."
        several = f"! The program names {', '.join(tools)}: which of them is it?" if len(tools) > 1 else None
        comments = f"The program's comments: {'; '.join(facts.comments)}." if facts.comments else None
        if "stickout" in job:
            out = f"Stands out {self.mm(job['stickout'])} or more; what holds it is at most {self.mm(2 * job['holder_radius'])} wide."
        else:
            out = f"It goes {self.mm(job['top'] - self.low)} under the top of the stock: let it stand out farther than that."
            out += " The job has no holder, so shank and holder weren't looked at."
        return point("Tool", told, several, comments, out)

    def stock(self):
        """Returns the point on the stock: its box, and what of it isn't seen."""
        x0, y0, x1, y1 = self.job["area"]
        pitch, radius, place = self.job["pitch"], self.job["radius"], self.grid.point
        low, high = (x0, y0, self.job["floor"]), (x1, y1, self.job["top"])
        size = " by ".join(self.grid.millimetres(b - a) for a, b in zip(low, high))
        ragged = " and ".join(axis for axis, side in zip("XY", (x1 - x0, y1 - y0)) if side % pitch)
        seen = f"Beside a cut edge a rapid may go up to {self.mm(pitch)} (the pitch) into stock unseen."
        if pitch**2 >= 2 * radius**2:
            seen = f"! The pitch ({self.mm(pitch)}) isn't under 1.4 times the radius: stock between the columns isn't seen."
        return point(
            "Stock", f"All of it lies from {place(low)} to {place(high)} ({size} mm); nothing of it is higher.",
            f"! Along {ragged} the area is no whole multiple of the pitch: its last strip has no column." if ragged else None, seen)

    def clamps(self):
        """Returns the point on clamps and vice: what the tool sweeps."""
        box = texts.box_of(it.end for it in self.step.moves)
        if box is None:
            return point("Clamps and vice", "The program has no moves.")
        if self.job.get("keep_out"):
            return self.boxes()
        radius = max(self.job["radius"], self.job.get("holder_radius", 0))
        sweeps = "Tool and holder sweep" if "holder_radius" in self.job else "The tool sweeps"
        low, high = [it - radius for it in box[0][:2]], [it + radius for it in box[1][:2]]
        z = self.grid.millimetres
        return point(
            "Clamps and vice",
            f"They are nowhere in the job. {sweeps} {self.grid.point(low)} to {self.grid.point(high)}, down to Z{z(self.low)}.",
            f"Do all of them stand clear of that? Of the way from the machine's rest to the start too, over Z{z(self.job['clear'])}?")

    def boxes(self):
        """Returns the point on clamps and vice where the job has boxes for them."""
        z, place = self.grid.millimetres, self.grid.point
        tools = "cutter and holder keep" if "holder_radius" in self.job else "the cutter keeps"
        told = [f"Box {at}: {place(it[:2])} to {place(it[2:4])}, up to Z{z(it[4])}. Measured: ________" for at, it in enumerate(self.job["keep_out"])]
        said = f"All that stands on the table lies in these boxes, from below up to their height; {tools} out of them."
        own = None if "holder_radius" in self.job else "! The job has no holder, so shank and holder may come into a box."
        return point("Clamps and vice", said, *told, own, "What stands outside of them wasn't looked at: parallels, pins, the jaws' screws.")

    def zero(self):
        """Returns the point on the zero and the offsets."""
        found = ", ".join(it for it in map(self.lines, ("G54", "G49", "G40")) if it)
        own = f"The program's own head sets {found}: touch off with these in force."
        return point(
            "Zero", "X0 Y0 Z0 of the program is the zero of the part's file. Touch off Z with the tip of this tool.",
            own if found else "The program sets no offset itself: it runs in the one that is on.",
            "Nothing of an earlier program is on: no G92, G68, G43, G41, G42, G93, G95, scaling or mirroring.")

    def start(self):
        """Returns the point on where the program starts."""
        place, first = self.grid.point((*self.job["home"], self.job["clear"])), self.facts.first
        if self.job.get("start", "home") != "home" and first:
            return self.start_from_anywhere(first)
        change = self.facts.words.get("M6", [None])[0]
        after = f"M6 on line {change} changes the tool before that, and an automatic changer leaves it elsewhere: bring the tip to the start behind it."
        return point("Start", f"Before line {first} the tip stands at {place}." if first else "The program has no moves.", after if change else None)

    def start_from_anywhere(self, first):
        """Returns the point on where the program starts, where it brings the tip there itself."""
        high = self.grid.millimetres(self.step.moves[0].end[2])
        return point(
            "Start", f"From any place: line {first} brings the tip straight up or down to Z{high}, and the next line with an axis across.",
            f"Where the tip stands lower, does the tool touch nothing there? Is nothing on its way across higher than Z{high}?")

    def motion(self):
        """Returns the point on exact paths, and on rapids that go straight or don't."""
        boxes = self.job.get("keep_out", [])
        low = sheet_facts.low_rapids(self.step.moves, max([self.job["top"], *(it[4] for it in boxes)]))
        exact, high = self.lines("G61"), "of stock and boxes" if boxes else "of the stock"
        sideways = f"No rapid goes sideways under the top {high}."
        if self.job.get("rapids") == "axes":
            sideways = "Each rapid was judged as of a control that runs each axis at its own speed; one that goes straight is safe too."
        elif low:
            sideways = f"! {len(low):,} rapids go sideways under the top {high}, the first on line {low[0]}: the control must make straight rapids, or the job have rapids = \"axes\"."
        missing = "! The program has no G61: set exact paths at the control (G64 rounds corners)."
        slack = self.job.get("slack", 0)
        if slack:
            missing = f"! The program has no G61: the control's tolerance (G64 P) and all else that is off are at most {self.mm(slack)} together (slack)."
        return point("Motion", f"{exact} sets exact paths." if exact else missing, sideways)

    def spindle(self):
        """Returns the point on the spindle and the feed, before the first cut and up to the last."""
        facts = self.facts
        if facts.cut is None:
            return point("Spindle and feed", "The program cuts nothing under the top of the stock.")
        at, name = facts.spindle or (None, None)
        speeds = [value for line, value in facts.speeds if line <= facts.cut]
        speed = f"S{number(speeds[-1])}" if speeds else "no S"
        turns = f"{name} on line {at}, {speed}; the first cut is on line {facts.cut}."
        if name not in ("M3", "M4"):
            what = f"M5 on line {at}" if name else "No M3 or M4"
            turns = f"! {what} before the first cut on line {facts.cut}: start the spindle, or add it to the program."
        left = "! M4 turns the spindle the other way: is it a left-hand tool?" if name == "M4" else None
        if self.job.get("spindle"):
            return point("Spindle and feed", turns, left, self.feeds(), "Each feed was judged to have a spindle that turns, and a feed rate.")
        stops = [it for it in facts.words.get("M5", []) if facts.cut < it < self.last_cut()]
        return point("Spindle and feed", turns, left, self.feeds(), f"! M5 on line {stops[0]} stops the spindle before the last cut." if stops else None)

    def feeds(self):
        """Returns the sentence on the feeds."""
        feeds = [value for _, value in self.facts.feeds]
        if not any(line <= self.facts.cut for line, _ in self.facts.feeds):
            return f"! No F before the first cut on line {self.facts.cut}: the feed is what was left on."
        return f"Feeds from {number(min(feeds))} to {number(max(feeds))} mm/min."

    def last_cut(self):
        """Returns the line of the last cut."""
        return max(it.line for it in self.step.moves if it.kind == "feed" and min(it.start[2], it.end[2]) < self.job["top"])

    def control(self):
        """Returns the point on what a control may read in another way."""
        rows = [(count, what) for what, count in self.facts.odd.items() if count]
        found = [f"! {count:,} lines have {what}: some controls read it in another way." for count, what in rows]
        behind = f"! {self.facts.behind:,} lines stand behind the program's end: some senders run them." if self.facts.behind else None
        return point("The control", *(found or ["No CR, `;`, `!`, `~`, `?` or byte over 0x7F."]), behind, "It takes X10 for 10 mm.")

    def part(self):
        """Returns the point on the part's file."""
        box = texts.box_of(corner for it in self.seen.triangles for corner in it)
        edges = parts.open_edges(self.seen.triangles)
        where = f"{self.grid.point(box[0])} to {self.grid.point(box[1])} mm" if box else "no triangles"
        open_mesh = f"! {edges:,} edges of its mesh don't belong to two triangles: where it has a hole, there is no part."
        return point("Part", f"{base(self.seen.names[1])}: {where}. Is this the drawing's size and zero?", open_mesh if edges else None)

    def left(self):
        """Returns the point on what is left, and on the depth of a cut."""
        job, left = self.seen.job, re.search(r" left (\S+)", self.seen.line)
        proud = f"A wall may stand proud sideways by {self.mm(job['band'] + job['pitch'])} (band and pitch) unseen."
        high = job["allowance"] >= job["top"] - job["floor"]
        return point(
            "What is left", f"At most {left[1]} mm ({self.mm(job['allowance'])} are allowed). {proud}",
            "! The allowance is as high as the stock: what is left wasn't judged." if high else None,
            f"Depth of a cut: at most {self.mm(job['max_cut'])}." if job.get("max_cut") else "The depth of a cut wasn't limited.",
            f"The part may be cut by {self.mm(job['overcut'])} (overcut): what is thinner may be gone." if job.get("overcut") else None)

    def file(self):
        """Returns the point on which file runs."""
        total = hashlib.sha256(self.step.text).hexdigest()
        return point("The file", f"What runs is {base(self.step.name)} with SHA-256 {total}: `camtool-sheet --check` compares it. After any change judge again.")


# ---- the forms


def program_version():
    """Returns what camtool says of its version."""
    return page_read.told(page_read.run("camtool", "--version"))[1]


def text_of(sheets, seen, version):
    """Returns the sheets as a plain text."""
    said = []
    for sheet in sheets:
        said += [f"SETUP SHEET  {sheet.head()}", seen.line, ""]
        for one in sheet.points():
            said += [f"[ ] {one.head}", *(f"    {'! ' if warns else ''}{it}" for it, warns in zip(one.said, one.warns)), ""]
    said += ["Machine ____________________  Date ______________  Name ____________________", "", "Judged files, by SHA-256:"]
    said += [f"  {total}  {command.plain(name)}" for name, total in page_read.sums_of(seen)]
    return "\n".join([*said, f"{version}; camtool-sheet {__version__}", ""])


def marked(text):
    """Returns a text for a page, what stands in backquotes as code."""
    return re.sub(r"`([^`]*)`", r"<code>\1</code>", html.escape(text))


def sheet_html(sheet, seen):
    """Returns the page of one program."""
    rows = []
    for one in sheet.points():
        said = "".join(f'<p class="warns">{marked(it)}</p>' if warns else f"<p>{marked(it)}</p>" for it, warns in zip(one.said, one.warns))
        rows.append(f"<tr><td class=\"box\"></td><th scope=\"row\">{html.escape(one.head)}</th><td>{said}</td></tr>")
    line = f"<p class=\"line\"><code>{html.escape(command.plain(seen.line))}</code></p>"
    by_hand = '<p class="hand"><span>Machine</span><span>Date</span><span>Name</span></p>'
    head = f"<h1>Setup sheet<small>{html.escape(sheet.head())}</small></h1>"
    return f"<section>{head}{line}<table class=\"points\">{''.join(rows)}</table>{by_hand}</section>"


def html_of(sheets, seen, version):
    """Returns the sheets as a page of HTML, for print."""
    pages = "".join(sheet_html(it, seen) for it in sheets)
    return string.Template(resource("sheet.html")).substitute(
        title=html.escape(f"Setup sheet: {base(seen.names[2])}"), style=resource("sheet.css"), pages=pages,
        sums=table(page_read.sums_of(seen)), version=html.escape(f"{version}; camtool-sheet {__version__}"))


# ---- the command


def check(names, sheet):
    """Says of each file whether it is one that the sheet was made of. Returns the status."""
    known = set(re.findall(r"\b[0-9a-f]{64}\b", command.read(sheet).decode("utf-8", "replace")))
    if not known:
        command.stop(f"{sheet}: there is no checksum in it, so it is no setup sheet")
    are_known = [hashlib.sha256(command.read(it)).hexdigest() in known for it in names]
    other = f"not a file that {sheet} was made of: judge it before it runs"
    command.say([f"{name}: {'the file that was judged' if is_known else other}" for name, is_known in zip(names, are_known)])
    return 0 if all(are_known) else 3


def make(asked):
    """Makes the sheets of a job, a part and a program or a list. Returns the status."""
    out = asked.out or "sheet.html"
    stop_on_own(out, asked.names)
    seen = page_read.Seen(asked.names)
    stop_on_own(out, seen.step_names())
    if not seen.is_accepted:
        command.say([seen.line])
        print(f"{command.called()}: no setup sheet: the program isn't accepted; camtool-page shows why", file=sys.stderr)
        return 3
    sheets, version = [Sheet(seen, it) for it in range(len(seen.steps))], program_version()
    form = text_of if asked.text else html_of
    text = form(sheets, seen, version)
    if asked.text and asked.out is None:
        print(text, end="")
        return 0
    command.write(out, text)
    command.say([seen.line, f"sheet: {out}"])
    return 0


def main(words=None):
    """The command: returns its status."""
    reader = command.Words(__doc__)
    reader.add_argument("names", nargs="+", metavar="FILE")
    reader.add_argument("-o", "--out")
    reader.add_argument("--text", action="store_true")
    reader.add_argument("--check", action="store_true")
    asked = reader.read(words)
    if asked.check:
        return check(asked.names, asked.out or "sheet.html")
    if len(asked.names) != 3:
        reader.error("the words are JOB PART PROGRAM or JOB PART LIST, or --check FILE..")
    return make(asked)
