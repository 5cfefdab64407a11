"""What each refusal of camtool means and what to do, by the words of its line.

A line is as docs/FORMATS.md has it: `refused program line 12 not-in-profile`. No text is read here.
"""
import collections
import difflib
import re

from camtool.command import quoted

NUMBER = "a whole number of {{units}} from {} to {}; 3.0 mm is {{three}}".format
DISTANCE, LEFT, HEIGHT = NUMBER("1", "10,000"), NUMBER("0", "10,000"), NUMBER("-{greatest}", "{greatest}")
SLOPE = "a whole number from 1 to 100"
SMALL = "a whole number of {{units}} from 0 to {}; 0.05 mm is {{five}}".format
# What each key of a job and of a list is, and how its value is written.
KEYS = {
    "unit": ("what one unit is", 'a text, "hundredth" (0.01 mm) or "thousandth" (0.001 mm)'),
    "cutter": ("the cutter's form", 'a text, "flat", "ball" or "cone"'),
    "radius": ("the cutter's radius", DISTANCE),
    "rise": ("how much a cone rises over each `run`", SLOPE),
    "run": ("the run of a cone, over which it goes up by `rise`", SLOPE),
    "floor": ("the height under which no tip goes", HEIGHT),
    "top": ("the height of the uncut stock", HEIGHT),
    "clear": ("the height at which a program starts", HEIGHT),
    "area": ("where the columns of the stock stand", "[x0, y0, x1, y1] with x0 <= x1 and y0 <= y1, each of them " + HEIGHT),
    "home": ("where a program starts", "[x, y], each of them " + HEIGHT),
    "pitch": ("the distance of neighbouring columns of the stock", DISTANCE),
    "sample": ("the greatest distance of neighbouring samples of a move", DISTANCE),
    "allowance": ("how much a column may stand over what covers it", LEFT),
    "band": ("how near a point of the part covers a column", LEFT),
    "lift": ("how much over its drop heights a plan finishes the part", LEFT),
    "raster": ("the distance of neighbouring places at which a plan finishes", DISTANCE),
    "rough_raster": ("the distance of neighbouring places at which a plan roughs", DISTANCE),
    "layer": ("how much roughing takes off at a time", NUMBER("0", "{greatest}")),
    "rough_stock": ("how much roughing leaves over the part", LEFT),
    "levels": ("the heights of the waterlines of a plan", "[z, ..], at most 64 and each less than the one before it, each of them " + HEIGHT),
    "snap": ("how a part's coordinates that are finer than a unit are taken", 'a text, "nearest" or "exact"'),
    "max_cut": ("how deep a feed may cut at a time", NUMBER("0", "{greatest}")),
    "holder_radius": ("the radius of what holds the cutter", DISTANCE),
    "stickout": ("how far the holder is over the cutter's tip", NUMBER("1", "{greatest}")),
    "path_tol": ("how much over its drop heights a plan's straight way may be", LEFT),
    "slack": ("how far the machine's tip may be from where its program says", SMALL("200")),
    "overcut": ("how deep a point of the part may lie in the cutter and be no gouge", SMALL("500")),
    "graze": ("how deep stock may lie in the cutter of a rapid and not count", SMALL("500")),
    "keep_out": ("what stands on the machine, as clamps and a vice", "[[x0, y0, x1, y1, z], ..], at most 64 with x0 <= x1 and y0 <= y1, each of the five " + HEIGHT),
    "rapids": ("whether a rapid goes straight, or each axis at its own speed", 'a text, "straight" or "axes"'),
    "start": ("from where a program starts", 'a text, "home", "anywhere" or "change"'),
    "spindle": ("whether a program has to start the spindle", "true or false, without quotes"),
    "words": ("which words programs have", 'a text, "strict" or "machine"'),
    "peck_clearance": ("how far over the depth before a cycle stops on its way back down", LEFT),
    "lengths": ("which tool lengths the machine has", 'a text, "table" or "one"'),
    "arc_tol": ("by how much the distances of an arc's start and end from its centre may differ", "a whole number of {units} from 1 to 100"),
    "steps": ("which programs cut the stock, one after the other", "1 to 16 tables, each under a line [[steps]]"),
    "program": ("the name of the step's program", "a text, in quotes"),
}
# What each refusal means and what is to be done, by its words. Those of a list that don't stand here are a job's.
SENTENCES = {
    "job syntax": "this is no TOML document in UTF-8: write lines `key = value`, with texts in quotes and comments behind `#`",
    "job unknown": "no job has a key `{key}`: mend its spelling{near}, or take it out; docs/FORMATS.md has all keys",
    "list unknown": "no list has a key `{key}` there{near}: it has `steps`, and each step `program`, `cutter`, `radius`, `rise`, `run`; all else is the job's",
    "job missing": "`{key}` is missing: add it; it is {what}: {form}",
    "job missing rise": "`rise` is missing, which a cone needs beside `run`: add it; it is {what}: {form}",
    "job missing run": "`run` is missing, which a cone needs beside `rise`: add it; it is {what}: {form}",
    "job missing feed": "a plan for a job with `spindle = true` needs a feed rate, and no key names one yet: plan by a copy of the job without `spindle`, "
    "put M3, an S and an F into the program, and verify it by the job itself",
    "job missing holder_radius": "`holder_radius` is missing, and `stickout` is there: give both or neither; it is {what}: {form}",
    "job missing stickout": "`stickout` is missing, and `holder_radius` is there: give both or neither; it is {what}: {form}",
    "job kind": "`{key}` ({what}) isn't of the right kind: write {form}",
    "job range": "`{key}` ({what}) is out of its range: write {form}",
    "job relation cutter rise": "`rise` is given, and the cutter is no cone: take `rise` and `run` out, or write `cutter = \"cone\"`",
    "job relation cutter run": "`run` is given, and the cutter is no cone: take it out, or write `cutter = \"cone\"` and add `rise`",
    "job relation rise run": "`rise` is over 16 times `run`: camtool takes no cone as steep as that; write a `rise` of at most 16 times `run`",
    "job relation floor top": "`floor` is over `top`: the stock would end under its floor; lower `floor`, or raise `top`",
    "job relation top clear": "`top` is over `clear`: a program starts at `clear`, which must be at or over the stock's top; raise `clear`, or lower `top`",
    "job relation area pitch": "over 4,000,000 columns stand in `area`: take a larger `pitch`, or a smaller `area`",
    "job relation band radius": "`band` is over `radius`, the cutter's: take a smaller `band`; a third of the radius serves square corners",
    "job relation layer top": "`layer` makes over 1,000 layers from `top` down to `floor`: take a larger `layer`, or 0 for no roughing",
    "job relation levels top": "one of `levels` is under `floor`, or isn't under `top`: write heights from `floor` on and under `top`",
    "job relation radius holder_radius": "`holder_radius` isn't over `radius`: a holder is wider than its cutter; measure it anew, or take it and `stickout` out",
    "job relation slack radius": "`slack` isn't under `radius`, or both together are over 10,000: write a lesser `slack`; it is a few hundredths of a millimetre",
    "job relation overcut radius": "`overcut` isn't under `radius`, the cutter's: write a lesser `overcut`, no more than the part's tolerance",
    "job relation graze radius": "`graze` isn't under `radius`, the cutter's: write a lesser one; where it is left out, it is twice `slack` and 5 more",
    "job relation graze slack": "`graze` is under twice `slack`, or of a cone its height is: leave `graze` out, and it is twice `slack` and 5 more",
    "job relation slack stickout": "`slack` isn't under `stickout`, or `holder_radius` and `slack` together are over 10,000: write a lesser `slack`, or measure the holder anew",
    "job relation slack clear": "at `clear` the tip may be under `top` by `slack`, and lower with a cone: raise `clear`, or write a lesser `slack`",
    "job relation keep_out clear": "one of `keep_out` is over `clear`, at which the tip may be lower by `slack`, and lower still with a cone: raise `clear` over clamps and vice",
    "job relation words start": "`words` is \"machine\" and `start` is \"home\": programs of posts bring the tip to their first place themselves; write `start = \"anywhere\"`",
    "job relation arc_tol slack": "`slack` is under `arc_tol` and 2 together, and so much of it an arc's own numbers take: write a greater `slack`, or a lesser `arc_tol`",
    "part expected": "another word is expected here: a part is ASCII STL, between `solid NAME` and `endsolid NAME` for each triangle "
    "`facet normal N N N outer loop`, three times `vertex X Y Z`, `endloop endfacet`; export it again",
    "part cut-short": "the text ends before its solid does: `endsolid` is missing, or the file was cut off; export it again",
    "part spelling": "{word} isn't a decimal such as -12.5 or 1.25e1: mend the coordinate, or export the part again",
    "part too-many-digits": "{word} has over 24 digits before its exponent, and zeros count: export the part with fewer",
    "part off-grid": "{word} lies between two units of {one} mm, and the job has `snap = \"exact\"`: without that it is rounded to the nearest{finer_part}",
    "part out-of-range": "{word} is over {reach} mm in magnitude: export the part in millimetres, and with its zero nearer to it{coarser}",
    "part too-many-triangles": "the part has over 200,000 triangles: export it with a coarser tolerance",
    "part memory": "there was not enough memory for the part: nothing was judged; take a machine with more",
    "program long-line": "the line has over 256 bytes: shorten its comment, or part it in two; where lines end with CR alone, the file wants LF",
    "program word": "{word}: a line has at most 32 words, each a letter and a number of at most 18 digits, and before them a line number "
    "(`N` and 1 to 9 digits) or none; there are no parameters or expressions, and a comment ends on its line",
    "program not-in-profile": "{word} isn't in the profile{why}; it takes G0 G1 G17 G21 G40 G49 G54 G61 G80 G90 G94, M2 to M9, M30, F S T X Y Z",
    "program late-tool": "{word} changes the tool behind the first move: write a program for each tool, and a list of them for `rest`",
    "program group": "{word} are of one modal group: write each on a line of its own, or leave out the one that isn't meant",
    "program twice": "{word} have the same letter: a line may have it once; part the line, or leave out the one that isn't meant",
    "program start": "the job's `start` isn't `home`: the first line with an axis has to be G0 with Z alone, at or over `clear`, and the second G0 with X and Y and without Z",
    "program no-units": "the line moves an axis, and no G21 was seen: write G21 (millimetres) at the program's beginning, if it is in millimetres",
    "program no-absolute": "the line moves an axis, and no G90 was seen: write G90 (absolute coordinates) at the program's beginning, if they are absolute",
    "program no-motion": "the line has an axis, and neither G0 nor G1 is active: none came before, or G80 ended it; write the one that is meant",
    "program no-spindle": "the line feeds, and the spindle doesn't turn: write M3 or M4, and an S over 0, before it; M5 and M6 stop the spindle",
    "program no-feed": "the line feeds without a feed rate: write an F over 0 on it or before it",
    "program path-control": "{word} asks for a path tolerance that the job doesn't allow: G64 needs a P over 0, of at most {tolerance} mm, which is `slack` less the 3 units of the text's "
    "rounding, and before arcs of at most {arc_tolerance} mm, which is `slack` less `arc_tol` and 2; write G61, a lesser P, or a larger `slack` if the machine is to stray so far",
    "program late-offset": "the line names a value under another tool length or zero than lines before it: take the line of Z before the length out (of FreeCAD's posts for LinuxCNC and Mach3 "
    "that before M6), or write `lengths = \"one\"` where the machine has no tool table and G43 and G49 move and change nothing",
    "program cycle": "the cycle isn't whole, or controls differ in what they make of it: it needs R, Z, for G83 and G73 a Q over 0, each since the last G0, G1 or G80; Z not over R; "
    "G98 or G99 before it; z at R or over it where it goes across; with G98 z at the height where its series began. Have them written, or have moves written",
    "program arc": "the arc isn't taken{why}: an arc needs I or J (in G18 K or I, in G19 J or K), a third offset of 0 or none, and no R; start and end equally far from its "
    "centre, to `arc_tol`; no number finer than a nanometre; and a `slack` of at least `arc_tol` and 2. Have it written so, or write a greater `arc_tol` or `slack` in the job",
    "program off-grid": "{word} is finer than the job's unit of {one} mm: have the program written with {decimals} decimals{finer}",
    "program out-of-range": "{word} is over {reach} mm in magnitude: keep the program nearer to its zero{coarser}",
    "program too-many-moves": "the program has over 1,000,000 moves: part it in several, and name them in a list for `rest`",
    "program no-axis": "G0 or G1 stands here without X, Y or Z: write the move's end on this line, or leave the word out",
    "program no-end": "the program has no end: write M2 or M30 behind its last move; is the file whole?",
    "program memory": "there was not enough memory for the program: nothing was judged; take a machine with more",
    "word spelling": "--{key} isn't a decimal: write millimetres with a point and no comma, such as --{key}=-12.5",
    "word too-many-digits": "--{key} has over 24 digits, and zeros count: write fewer",
    "word off-grid": "--{key} is finer than the job's unit of {one} mm: write at most {decimals} decimals{finer}",
    "word out-of-range": "--{key} is over {reach} mm in magnitude: write a lesser one{coarser}",
    "part-top": "the part stands over the stock's `top`: raise that to the height of the uncut stock (and `clear` with it), or move the part down; its zero is the program's",
    "too-long": "the file has over 2^26 (67,108,864) bytes, or is a job or a list and has over 2^20 (1,048,576): make it smaller, a part with fewer triangles, a program in several",
    "read fault": "the file couldn't be opened or read: look at its name and at who may read it",
    "out of memory": "there was not enough memory: nothing was judged; take a larger `pitch`, or a machine with more",
    "over nodes": "the lattice has over 4,000,000 places: take a larger `raster` (or `rough_raster`), or a smaller `area`",
    "over moves": "the plan has over 1,000,000 moves: take a larger `raster`, `rough_raster` or `layer`, or a smaller `area`",
    "over triangles": "the surface has over 200,000 triangles: take a larger `pitch`, or a smaller `area`",
}
# What else a refusal means by a job whose programs have machine words.
MACHINE = {
    "not-in-profile": "{word} isn't among the words that `words = \"machine\"` takes, or its line doesn't take it{why}; docs/FORMATS.md has the table, and which line takes H, I, J, K, P, Q and R",
    "late-tool": "the line names a place behind a tool change (T or M6), and before that change a place was named already: write a program for each tool, and a list of them for `rest`",
    "group": "{word} can't stand so: two words of one modal group, an axis beside G4, G15, G50 or G69, or another unit than the program's; write them on lines of their own",
    "start": "what is known of the tip's place doesn't allow this line: from an unknown place first G0 with Z alone, at or over `clear`, and then G0 with X and Y; "
    "so too behind T, M6, another offset, G53, G28 or G30. A `clear` over the program's own safe height is refused so: lower it",
    "no-units": "the line names a place, and neither G21 nor G20 was seen: write the one that is meant at the program's beginning",
    "no-absolute": "the line names a place, and distances aren't absolute: write G90 before it",
    "no-motion": "the line has an axis, and no motion mode is active: none came before, or G80 ended it; write the one that is meant",
    "no-spindle": "the line feeds, and the spindle doesn't turn: write M3 or M4, and an S over 0, before it; M0, M1, M5 and M6 stop the spindle",
    "off-grid": "{word} is finer than the job's unit of {one} mm: write a `slack` of at least 3, and numbers are rounded{finer}",
}
# The greatest coordinate of a job, by how many decimals its unit has.
GREATEST = {2: 131_071, 3: 524_287}
Refusal = collections.namedtuple("Refusal", "kind line code rest")


def refusal_of(verdict):
    """Returns what a line refuses, or None."""
    for form in (
        r"refused (?P<kind>job|list) (?P<code>\S+) ?(?P<rest>.*)",
        r"refused (?P<kind>part|program) line (?P<line>\d+) (?P<code>\S+)",
        r"refused (?P<kind>word) (?P<rest>[xyz]) (?P<code>\S+)",
        r"refused (?P<kind>part-top) (?P<rest>.*)",
        r"(?:refused )?(?P<kind>too-long|read fault) (?P<rest>.*)",
        r"(?P<kind>out of memory|over \w+)(?: \d+)?",
    ):
        found = re.fullmatch(form, verdict)
        if found:
            told = found.groupdict()
            return Refusal(told["kind"], int(told.get("line") or 0), told.get("code") or "", told.get("rest") or "")
    return None


def facts_of(job):
    """Returns what the sentences say of the job's unit."""
    if job.get("unit") == "thousandth":
        words = ["thousandths of a millimetre", "3000", "50", "524,287", "524.287", "0.001", "three", "", "", "; a job in hundredths reaches to 1310.71 mm"]
    else:
        more = ', or take a job with `unit = "thousandth"`'
        words = ["hundredths of a millimetre", "300", "5", "131,071", "1310.71", "0.01", "two", f"{more}, which takes three", more, ""]
    places = 3 if job.get("unit") == "thousandth" else 2
    slack, arc_tol = job.get("slack", 0), job.get("arc_tol", 1 if places == 2 else 3)
    # (of a slack of 3 units and more, 3 are the text's, and of an arc `arc_tol` and 2)
    rest = [slack - 3 if slack >= 3 else slack, max(slack - arc_tol - 2, 0)] if isinstance(slack, int) and isinstance(arc_tol, int) else [0, 0]
    tolerances = [f"{it / 10**places:.{places}f}" for it in rest]
    return dict(zip("units three five greatest reach one decimals finer finer_part coarser tolerance arc_tolerance".split(), [*words, *tolerances]))


def sentence_of(refusal, job, word=None, why=""):
    """Returns what a refusal means and what to do, or None. `word` is what is at fault, and `why` why that is none of the profile's."""
    kinds = [refusal.kind, "job"] if refusal.kind == "list" else [refusal.kind]
    names = [f"{kind} {refusal.code}{rest}".strip() for rest in (f" {refusal.rest}", "") for kind in kinds]
    named = next((it for it in names if it in SENTENCES), None)
    machine = MACHINE.get(refusal.code) if refusal.kind == "program" and job.get("words") == "machine" else None
    what, form = KEYS.get(refusal.rest, ("", ""))
    if named is None and not machine or (named in ("job missing", "job kind", "job range") and not what):
        return None
    near = difflib.get_close_matches(refusal.rest, KEYS, 1)
    facts = facts_of(job)
    usual = "a coordinate" if refusal.kind == "part" else "two words" if refusal.code in ("group", "twice") else "a word"
    # (an arc is refused for a tolerance that an earlier line has set)
    usual = "the G64 that is in force" if refusal.code == "path-control" else f"{usual} on this line"
    return (machine or SENTENCES[named]).format(
        key=quoted(refusal.rest),
        near=f" (`{near[0]}`?)" if near else "",
        what=what,
        form=form.format(**facts),
        word=word or usual,
        why=why,
        **facts,
    )
