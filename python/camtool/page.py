"""camtool-page JOB PART PROGRAM|LIST [-o PAGE.html]

Makes a page of a verdict, accepted ones too: a map of what is left of the stock from above, the path with a slider over
its lines, what fails and why, each cause once, with a side view of the place, and the lines of the program. The page is
one file that any browser opens, with no network: page.html if no other name is given.

    camtool-page job.toml part.stl program.ngc -o program.html

The verdict is that of camtool: the page shows it, and judges nothing itself. It is made from camreport's report where
that is built, and from `camtool verify` or `camtool rest` where it isn't; what is left is from `camtool stock`. The
numbers with "about" are measured by this help, which is no part of what is proved.

Status: 0 where the page was made, whatever the verdict is; 2 where it could not.
"""
import base64
import html
import json
import math
import os
import re
import string
import sys
from array import array

from camtool import command, page_findings, page_map, page_path, page_read, page_view
from camtool.page_findings import LISTED
from camtool.page_solid import Shape
from camtool.version import __version__

ANSWERS = {True: ("accepted", "Accepted"), False: ("rejected", "Rejected")}
# How far a line fails, by the way in which it does.
HOW = {
    "side": "about {} mm sideways", "deep": "{} mm too deep", "stock": "{} mm of stock", "floor": "{} mm under the floor",
    "touch": "a touch of {} mm"}
# The most lines that are listed on a page, and the most columns that are marked of a finding.
LINES, MARKED = 1_500, 3_000


def resource(name):
    """Returns the text of a file that belongs to the package."""
    with open(os.path.join(os.path.dirname(os.path.realpath(__file__)), name), encoding="utf-8") as file:
        return file.read()


def packed(numbers, kind="i"):
    """Returns numbers in base 64: of 32 bits each, or bytes with the kind "B", the least byte first."""
    numbers = array(kind, numbers)
    if sys.byteorder == "big":
        numbers.byteswap()
    return base64.b64encode(numbers.tobytes()).decode("ascii")


def marked(text):
    """Returns a text as HTML: what stands between two ` is code."""
    return re.sub(r"`([^`]*)`", r"<code>\1</code>", html.escape(text))


def base(name):
    """Returns the last part of a file's name, as it can be printed."""
    return command.plain(os.path.basename(name) or name)


def stop_on_own(out, names):
    """Stops where what is made would be stored over one of the files that it is made of."""
    for name in names:
        if os.path.exists(out) and os.path.exists(name) and os.path.samefile(out, name):
            command.stop(f"{out} is the same file as {name}, which would be replaced")


# ---- what the script draws


def columns_data(seen):
    """Returns the columns of the map: where they stand, and each one's top, the part's height and its kind."""
    it = seen.columns
    data = {"x0": it.x0, "y0": it.y0, "pitch": it.pitch, "along": it.along, "rows": it.rows, "part": packed(seen.heights)}
    if seen.tops:
        data.update(tops=packed(seen.tops), kinds=packed(seen.kinds, "B"))
    return data


def path_data(seen):
    """Returns the ways that are drawn, column by column."""
    failing = {(it.step, it.move) for it in seen.items}
    ways, tolerance = page_path.ways_of([it.moves for it in seen.steps], failing)
    if tolerance is not None:
        count = sum(len(it.moves) for it in seen.steps)
        about = seen.grid.millimetres(round(tolerance))
        seen.notes.append(f"Of {count:,} moves {len(ways):,} ways are drawn: moves that go on straight, to about {about} mm, are drawn as one.")
    data = {name: packed(it.end[axis] for it in ways) for axis, name in enumerate("xyz")}
    data.update({name: packed(getattr(it, name) for it in ways) for name in ("first", "last")})
    data.update(step=packed((it.step for it in ways), "B"), rapid=packed((it.kind == "rapid" for it in ways), "B"))
    return data


def move_data(seen, measured, views):
    """Returns a move that fails: its program, line, number, kind, ends, where it fails and its view."""
    item = measured.item
    move = seen.steps[item.step].moves[item.move]
    tip, place = ([round(it) for it in one] for one in (measured.hit.tip, measured.hit.place))
    return [item.step, item.line, item.move, move.kind == "rapid", move.start, move.end, tip, place, views.get((item.step, item.move))]


def data_of(seen, findings):
    """Returns what the page's script draws."""
    views, of_moves, of_findings = page_view.views_of(seen, findings)
    job = seen.job
    told = [
        {"kind": it.kind, "moves": [move_data(seen, one, of_moves) for one in it.moves[:LISTED]], "columns": it.columns[:MARKED]}
        for it in findings
    ]
    for number, view in of_findings.items():
        told[number]["view"] = view
    if not findings:
        views = [page_view.view_of_middle(seen)]
    tools = [{"radius": it.job["radius"], "outline": Shape(it.job).outline()} for it in seen.steps]
    shown = {key: job[key] for key in ("floor", "top", "clear", "area", "home", "holder_radius", "stickout", "keep_out", "start") if key in job}
    return {
        "places": seen.grid.places, "job": shown, "programs": [base(it.name) for it in seen.steps], "tools": tools,
        "columns": columns_data(seen), "path": path_data(seen), "findings": told, "views": views,
    }


# ---- what is written


def line_html(seen, measured):
    """Returns a line that fails, as an item of a list."""
    item, mm = measured.item, seen.grid.millimetres
    move = seen.steps[item.step].moves[item.move]
    how = HOW[measured.way].format(mm(round(measured.amount))) if measured.amount else ""
    where = f"{'rapid' if move.kind == 'rapid' else 'feed'} to {seen.grid.point(move.end)}"
    words = html.escape(command.plain((item.words or "").strip())[:200])
    said = html.escape(", ".join(it for it in (where, how) if it))
    button = f'<button type="button" data-step="{item.step}" data-move="{item.move}">'
    return f"<li>{button}<b>{item.line}</b> <code>{words}</code> <span>{said}</span></button></li>"


def finding_html(seen, number, finding, room, is_known):
    """Returns what is told of a finding, as an item of a list, with at most so many lines; not the advice, where that is
    known."""
    title = f'<button type="button" class="title" data-finding="{number}">{marked(finding.title)}</button>'
    head = f'<li class="finding {finding.kind}" id="finding-{number}">{title}'
    said = f"<p>{html.escape(finding.told)}</p>" + ("" if is_known else f"<p>{marked(finding.advice)}</p>")
    shown = finding.moves[: max(min(LISTED, room), 1)]
    if not shown:
        return f"{head}{said}</li>"
    rows = "".join(line_html(seen, it) for it in sorted(shown, key=lambda it: (it.item.step, it.item.move)))
    more = len(finding.moves) - len(shown)
    rest = f"<p>and {more:,} more, in the report</p>" if more else ""
    opened = " open" if len(shown) <= 3 else ""
    count = command.counted(len(finding.moves), "line", "lines")
    return f"{head}{said}<details{opened}><summary>{count}</summary><ul>{rows}</ul>{rest}</details></li>"


def findings_html(seen, findings):
    """Returns the list of all that fails or, of an accepted program, of what isn't judged."""
    room, said = LINES, []
    for number, finding in enumerate(findings):
        is_known = any(it.advice == finding.advice for it in findings[:number])
        said.append(finding_html(seen, number, finding, room, is_known))
        room -= min(len(finding.moves), LISTED)
    return f"<ol>{''.join(said)}</ol>" if said else ""


def left_told(seen):
    """Returns the sentences on what is left."""
    job, mm = seen.job, seen.grid.millimetres
    said = []
    left = re.search(r" left (\S+)", seen.line) if seen.is_accepted else None
    if left:
        said.append(f"At most {left[1]} mm stand over what covers them; `allowance` allows {mm(job['allowance'])} mm.")
    if job["allowance"] >= job["top"] - job["floor"]:
        said.append(f"What is left isn't judged: `allowance` ({mm(job['allowance'])} mm) is as high as the stock. Write the number that you want.")
    if seen.kinds and seen.is_accepted:
        count, band = seen.kinds.count(page_map.HIDDEN), mm(job["band"])
        told = f"Within `band` ({band} mm) of a wall {count:,} of the {len(seen.kinds):,} columns of the map stand higher over the part than that, and aren't judged: yellow."
        said.append(told if count else "No column of the map stands higher than that.")
    return said


def told_of_tool(job, mm):
    """Returns a cutter as a shop says it: its form and diameter, and a cone's angle."""
    form = {"flat": "flat end mill", "ball": "ball end mill", "cone": "cone"}[job["cutter"]]
    angle = 2 * math.degrees(math.atan2(job["run"], job["rise"])) if job["cutter"] == "cone" else None
    slope = f", {angle:.1f} degrees between its sides" if angle else ""
    return f"{form}, diameter {mm(2 * job['radius'])} mm{slope}"


def numbers_of(seen):
    """Returns the numbers of the job and the programs: rows of a name and a text."""
    job, mm, point = seen.job, seen.grid.millimetres, seen.grid.point
    rows = []
    for step in seen.steps:
        low = min((it.end[2] for it in step.moves), default=job["clear"])
        rows.append((base(step.name), f"{told_of_tool(step.job, mm)}; {len(step.moves):,} moves; lowest Z{mm(low)}"))
    x0, y0, x1, y1 = job["area"]
    rows.append(("stock", f"{point((x0, y0, job['floor']))} to {point((x1, y1, job['top']))} mm"))
    corners = [corner for triangle in seen.triangles for corner in triangle]
    if corners:
        low, high = (tuple(pick(it[axis] for it in corners) for axis in range(3)) for pick in (min, max))
        rows.append(("part", f"{point(low)} to {point(high)} mm; {len(seen.triangles):,} triangles"))
    rows.append(("start", start_told(job, point)))
    boxes = job.get("keep_out", [])
    rows += [("keep_out", f"{command.counted(len(boxes), 'box', 'boxes')}, the highest up to Z{mm(max(it[4] for it in boxes))}")] if boxes else []
    rows += [("rapids", "each axis at its own speed")] if job.get("rapids") == "axes" else []
    rows += [("words", "those that posts write")] if job.get("words") == "machine" else []
    rows.append(("pitch", f"{mm(job['pitch'])} mm"))
    rows.append(("allowance, band", f"{mm(job['allowance'])} mm, {mm(job['band'])} mm"))
    rows.append(("max_cut", f"{mm(job['max_cut'])} mm" if job.get("max_cut") else "no limit on the depth of a cut"))
    if job.get("slack") or job.get("overcut"):
        rows.append(("slack, overcut", f"{mm(job.get('slack', 0))} mm, {mm(job.get('overcut', 0))} mm"))
    holder = "none: nothing over the cutter is looked at"
    if "stickout" in job:
        holder = f"diameter {mm(2 * job['holder_radius'])} mm, {mm(job['stickout'])} mm over the tip"
    return [*rows, ("holder", holder)]


def start_told(job, point):
    """Returns from where a program starts."""
    if job.get("start", "home") == "home":
        return f"tip over {point((*job['home'], job['clear']))}"
    place = "anywhere" if job["start"] == "anywhere" else "where the tool is changed"
    lines = "its own lines" if job.get("words") == "machine" else "the first two lines"
    return f"from {place}: {lines} bring the tip to its first place"


def table(rows):
    """Returns the rows of a table, of pairs of a name and a text."""
    return "".join(f'<tr><th scope="row">{html.escape(command.plain(name))}</th><td>{html.escape(text)}</td></tr>' for name, text in rows)


def lead_of(seen, findings):
    """Returns the sentence under the answer."""
    names = [html.escape(base(it)) for it in seen.names]
    if seen.is_refused:
        return f"Nothing was judged of {names[2]}."
    if seen.is_accepted:
        tools = f"the tools of {names[2]} and the stock" if seen.is_list else "the tool and the stock"
        mm, overcut = seen.grid.millimetres, seen.job.get("overcut", 0)
        scrape = f"comes at most {mm(overcut)} mm into it" if overcut else "doesn't scrape it"
        boxes = len(seen.job.get("keep_out", []))
        clear = f" It keeps out of the {command.counted(boxes, 'box', 'boxes')} on the table." if boxes else ""
        return f"{names[2]} cuts {names[1]} within allowance and band, and {scrape}, with {tools} of {names[0]}.{clear}"
    return f"Don't cut by {names[2]}: {counts_of(seen, findings)}."


def counts_of(seen, findings):
    """Returns how many moves fail, how many pieces are left, and for how many causes."""
    said, causes = [], sum(bool(it.moves) for it in findings)
    if seen.items:
        only = ", only a touch" if all(it.kind == "touch" for it in findings) else ""
        moves = command.counted(len(seen.items), "move fails", "moves fail")
        said.append(f"{moves}, for {command.counted(causes, 'cause', 'causes')}{only}")
    if len(findings) > causes:
        said.append("stock is left too high")
    return "; ".join(said) or "the map shows what is left"


def filled(name, **parts):
    """Returns a page of the package with its parts put in."""
    return string.Template(resource(name)).substitute(parts)


def page_of(seen, refusal=""):
    """Returns the page of a verdict as a text of HTML."""
    kind, answer = ("refused", "Not judged") if seen.is_refused else ANSWERS[seen.is_accepted]
    findings, data = [], None
    if not seen.is_refused:
        page_read.look_at_stock(seen)
        page_read.look_at_moves(seen)
        findings = page_findings.findings_of(seen) or page_findings.hidden(seen)
        data = data_of(seen, findings)
    left = "".join(f"<p>{marked(it)}</p>" for it in (left_told(seen) if data else []))
    notes = "".join(f"<li>{marked(it)}</li>" for it in notes_of(seen))
    return filled(
        "page.html", style=resource("page.css"), script=resource("page.js"), version=__version__, kind=kind, answer=answer,
        title=html.escape(command.plain(seen.line)), line=html.escape(command.plain(seen.line)), lead=lead_of(seen, findings),
        head=head_of(seen), left=left, findings=findings_html(seen, findings), refusal=refusal, notes=notes,
        numbers=table(numbers_of(seen)) if data else "", sums=table(page_read.sums_of(seen)), map="" if data else " hidden",
        data=json.dumps(data, separators=(",", ":")).replace("<", "\\u003c"))


def head_of(seen):
    """Returns the heading of the list of findings."""
    return "Why" if seen.is_refused else "What is left" if seen.is_accepted else "What fails"


def notes_of(seen):
    """Returns what the page doesn't show."""
    if seen.is_refused:
        return []
    said = [*seen.notes, "The map is drawn at the columns: what lies between two of them isn't seen, and a wall is as blurred as they lie apart."]
    if seen.is_list:
        said.append("The stock is that of all programs of the list, each with its cutter.")
    if not seen.is_accepted:
        said.append("What is left is shown as after all moves, those that fail too.")
    unseen = [] if seen.job.get("keep_out") else ["clamps"]
    unseen += ["how fast it feeds"] if seen.job.get("spindle") else ["feeds", "the spindle"]
    told = " and ".join([", ".join(unseen[:-1]), unseen[-1]] if len(unseen) > 1 else unseen)
    more = " What stands on the table beside the boxes isn't seen." if seen.job.get("keep_out") else ""
    return said + [f"{told[0].upper()}{told[1:]} {'isn' if unseen == ['how fast it feeds'] else 'aren'}'t looked at.{more} The setup sheet (camtool-sheet) has what must be true at the machine."]


def refusal_told(names, line):
    """Returns what camtool-where says of a line that judges nothing, as HTML."""
    ended = page_read.run_where(names, line)
    return "".join(f"<p>{html.escape(it)}</p>" for it in ended.split("\n")[1:] if it)


def main(words=None):
    """The command: returns its status."""
    reader = command.Words(__doc__)
    reader.add_argument("names", nargs=3, metavar="FILE")
    reader.add_argument("-o", "--out", default="page.html")
    asked = reader.read(words)
    stop_on_own(asked.out, asked.names)
    seen = page_read.Seen(asked.names)
    stop_on_own(asked.out, seen.step_names())
    refusal = refusal_told(asked.names, seen.line) if seen.is_refused else ""
    command.write(asked.out, page_of(seen, refusal))
    command.say([seen.line, f"page: {asked.out}"])
    return 0
