"""A shop's tools: read from a tool table, or told by the comments of a program; and the cutter that a job has of each.

A tool table is one of these. Lengths are millimetres unless a table says otherwise.

*A TOML of our own*, with a table [[tools]] for each tool and these keys:

    number = 1              # the T word; may be left out
    name = "6 mm endmill"   # free
    kind = "flat"           # flat, ball, cone or drill
    diameter = 6.0
    angle = 118             # degrees between its sides: of a cone; of a drill, 118 if left out
    tip = 0.2               # the width of a cone's flat tip, 0 if left out
    flute = 22              # how long its edges are, from the tip
    shank = 6.0             # the diameter over the flutes
    stickout = 30           # how far it stands out of what holds it
    holder = 32             # the diameter of that: the collet nut

*LinuxCNC's* tool.tbl: lines `T1 P1 D6.0 Z0 ;6 mm endmill`. It has no kind and no angle: both are taken from the comment.

*FreeCAD's* tool bits: a .fctb, a folder of them, or a library, a .fctl, which numbers them. Of the shapes endmill and
bullnose are flat, ballend is a ball, v-bit and chamfer are cones, drill is a drill; others have no cutter here.
"""
import collections
import json
import math
import os
import re
from decimal import Decimal, InvalidOperation
from fractions import Fraction

from camtool import texts

# What a cutter is called in comments, and which kind that is; the first that is found counts.
KINDS = (
    ("ball", r"\bball|kugel"),
    ("cone", r"v-?bit|v-?carv|chamfer|engrav|countersink|deburr|spot|center ?drill|centre ?drill|\bcone\b|taper|\d ?deg"),
    ("drill", r"\bdrill\b|_drill\b|bohrer"),
    ("flat", r"end ?mill|\bflat\b|router|slot|face ?mill|shell ?mill|\bmill\b|fräser|cutter"),
)
# The kinds of FreeCAD's shapes; None where no cutter is like it.
SHAPES = {
    "endmill": "flat", "bullnose": "flat", "ballend": "ball", "v-bit": "cone", "vbit": "cone", "chamfer": "cone", "drill": "drill",
    "probe": None, "slittingsaw": None, "thread-mill": None, "tap": None, "dovetail": None, "reamer": None,
}
# The angle between the sides of a drill of which nobody says it.
DRILL_ANGLE = Decimal(118)
# The greatest rise and run of a job, and the steepest cone.
MOST, STEEPEST = 100, 16
INCH = Decimal("25.4")
# The keys of our own tables, and whether each is a length or an angle, and so a number.
OWN = {"number": False, "name": False, "kind": False, "diameter": True, "angle": True, "tip": True, "flute": True, "shank": True,
       "stickout": True, "holder": True}


class Wrong(ValueError):
    """A tool table can't be read, or asks for a tool that there isn't; the text says which, and what to do."""


# A tool. Lengths are Decimals in millimetres, 0 where they aren't known; `number` may be None; `kind` is "flat", "ball",
# "cone", "drill", or None where no cutter is like it. `doubts` are sentences on what was guessed of it.
Tool = collections.namedtuple("Tool", "number name kind diameter angle tip flute shank stickout holder doubts", defaults=((),))


def made(number=None, name="", kind="flat", diameter=0, angle=0, doubts=(), **lengths):
    """Returns a Tool; what is left out isn't known."""
    rest = {it: Decimal(str(lengths.get(it) or 0)) for it in ("tip", "flute", "shank", "stickout", "holder")}
    return Tool(number, name, kind, Decimal(str(diameter)), Decimal(str(angle)), doubts=tuple(doubts), **rest)


def called(tool):
    """Returns how a tool is called in one's own texts, as `T1, a flat cutter of 6 mm ("6 mm endmill")`."""
    number = f"T{tool.number}, " if tool.number is not None else ""
    angle = f", {short(tool.angle)} degrees" if tool.angle else ""
    kind = {"flat": "a flat cutter", "ball": "a ball", "cone": "a cone", "drill": "a drill"}.get(tool.kind, "no cutter")
    name = f' ("{tool.name}")' if tool.name else ""
    return f"{number}{kind} of {short(tool.diameter)} mm{angle}{name}"


def short(number):
    """Returns a Decimal without zeros at its end, as it is written."""
    return f"{number.normalize():f}" if number else "0"


# ---- words about a tool


def number_in(text):
    """Returns the tool's number that a text names, as `T3`, `M6 T1.0` or `T2=..`, or None."""
    found = re.search(r"(?<![A-Za-z0-9])T ?0*(\d+)(?:\.0*)?(?![0-9.])", text, re.I)
    return int(found[1]) if found else None


def diameter_in(text):
    """Returns the diameter in millimetres that a text about a tool names, as `6 mm`, `D=6.`, `1/4 inch`, or None."""
    inches = re.search(r"(?<![\d./])(\d+)/(\d+) ?(?:\"|''|inch|in\b)", text, re.I)
    if inches and int(inches[2]):
        return INCH * int(inches[1]) / int(inches[2])
    inches = re.search(r"(?<![\d./])(\d*\.\d+|\d+) ?(?:\"|inch|in\b)", text, re.I)
    if inches:
        return INCH * Decimal(inches[1])
    for form in (
        r"\bD ?= ?(\d+\.?\d*|\.\d+)",
        r"diam(?:eter)?\.?:? ?=? ?(\d+\.?\d*|\.\d+)",
        r"(?<![\d.])(\d+\.?\d*|\.\d+)[ _-]?mm(?![a-z/])",
        r"(?<![\d.])(\d+\.?\d*) (?:flat|ball|end ?mill|drill)",
    ):
        found = re.search(form, text, re.I)
        if found:
            return Decimal(found[1])
    return None


def angle_in(text):
    """Returns the angle in degrees that a text about a tool names, or None."""
    found = re.search(r"(?<![\d.])(\d+\.?\d*) ?[-_]?(?:deg|°|grad)", text, re.I) or re.search(r"\b(?:v|spot drill) ?(30|45|60|82|90|120)\b", text, re.I)
    return Decimal(found[1]) if found else None


def kind_in(text):
    """Returns the kind of tool that a text names, or None."""
    return next((kind for kind, form in KINDS if re.search(form, text, re.I)), None)


def told(text):
    """Returns the Tool that a comment tells, or None where it tells of none: its diameter has to be there, or its number
    and its kind. What it leaves open is 0, or None for the kind."""
    number, kind, diameter = number_in(text), kind_in(text), diameter_in(text)
    is_about_a_tool = number is not None or kind is not None or re.search(r"diam|\btool\b", text, re.I)
    if not is_about_a_tool or diameter is None and (number is None or kind is None):
        return None
    return made(number, text.strip(), kind, diameter or 0, angle_in(text) or 0)


# ---- the cutter of a job


def slope_of(angle):
    """Returns a cone's rise and run, by the angle between its sides in degrees.

    No ratio of whole numbers up to 100 is most angles' own. Of those that are as blunt or blunter this is the nearest: the
    judged cone then encloses the real tool, so that what the verdict says of the part is true of the tool too.
    Raises Wrong where there is none."""
    if not 0 < angle < 180:
        raise Wrong(f"an angle of {short(angle)} degrees between the sides of a cone is none")
    steep = 1 / math.tan(math.radians(float(angle)) / 2)
    best = None
    for run in range(1, MOST + 1):
        rise = min(int(steep * run + 1e-9), MOST, STEEPEST * run)
        if rise and (best is None or Fraction(rise, run) > best):
            best = Fraction(rise, run)
    if best is None:
        raise Wrong(f"a cone of {short(angle)} degrees is too blunt: take a flat cutter")
    return best.numerator, best.denominator


def form_of(tool):
    """Returns which of a job's cutters a tool is: "flat", "ball" or "cone". Raises Wrong where it is none."""
    if tool.kind not in ("flat", "ball", "cone", "drill") or tool.diameter <= 0:
        raise Wrong(f"{called(tool)}: camtool has no such cutter")
    if tool.kind == "cone" and not tool.angle:
        raise Wrong(f"{called(tool)}: the table has no angle of it")
    return "cone" if tool.kind == "drill" else tool.kind


def warnings_on(tool):
    """What the judged cutter isn't of the tool, in sentences."""
    yield from tool.doubts
    if tool.tip:
        yield f"{called(tool)}: its tip is {short(tool.tip)} mm wide, the judged one is sharp, so the tool comes {short(tool.tip / 2)} mm nearer to the part than is judged"
    if tool.shank > tool.diameter and tool.holder:
        yield f"{called(tool)}: its shank of {short(tool.shank)} mm is wider than its edges and isn't judged"


def holder_of(tool):
    """Returns what holds a tool: its diameter and how far it is over the tip; or None where the table doesn't say.

    A shank that is wider than the edges holds them; it counts where the holder itself isn't told."""
    if tool.holder and tool.stickout:
        return tool.holder, tool.stickout
    return (tool.shank, tool.flute) if tool.shank > tool.diameter and tool.flute else None


# ---- tool tables


def table_of(name):
    """Returns the tools of a table: a TOML of our own, a tool.tbl, a .fctb, a .fctl or a folder of .fctb.

    Raises Wrong where it can't be read as what its name says, and OSError where the file can't be read."""
    if os.path.isdir(name):
        bits = sorted(it for it in os.listdir(name) if it.lower().endswith(".fctb"))
        if not bits:
            raise Wrong(f"{name}: no tool bit (.fctb) lies in that folder")
        return [bit_of(os.path.join(name, it), None) for it in bits]
    ending = os.path.splitext(name)[1].lower()
    readers = {".fctb": lambda it: [bit_of(it, None)], ".fctl": library_of, ".tbl": lambda it: lines_of(it, text_of(it))}
    tools = readers.get(ending, own_of)(name)
    if not tools:
        raise Wrong(f"{name}: there is no tool in it")
    return tools


def text_of(name):
    """Returns the text of a table."""
    with open(name, encoding="utf-8-sig", errors="replace") as file:
        return file.read()


def decimal_of(value, where):
    """Returns a length or an angle, as `6`, "6.0000 mm", "0.25 in" or "118.00 °", in millimetres or degrees."""
    found = re.fullmatch(r"\s*([-+]?[0-9.]+(?:e[-+]?\d+)?)\s*(mm|cm|m|in|inch|\"|°|deg)?\s*", str(value), re.I)
    try:
        return Decimal(found[1]) * {"in": INCH, "inch": INCH, '"': INCH, "cm": 10, "m": 1000}.get((found[2] or "").lower(), 1)
    except (TypeError, InvalidOperation):
        raise Wrong(f"{where}: {value!r} is no length") from None


def own_of(name):
    """Returns the tools of a table of our own."""
    text = text_of(name)
    try:
        tables = texts.tomllib.loads(text, parse_float=Decimal).get("tools", []) if texts.tomllib else plain_tables(text)
        items = [dict(it) for it in tables]
    except (ValueError, TypeError, AttributeError) as error:
        raise Wrong(f"{name}: it is no TOML document with tables [[tools]]: {error}") from None
    tools = []
    for at, item in enumerate(items, 1):
        where = f"{name}, tool {at}"
        unknown = sorted(set(item) - set(OWN))
        if unknown:
            raise Wrong(f"{where}: there is no key `{unknown[0]}`; there are {', '.join(OWN)}")
        kind = item.get("kind", "flat")
        if kind not in ("flat", "ball", "cone", "drill") or "diameter" not in item:
            raise Wrong(f"{where}: it needs a diameter, and a kind of flat, ball, cone or drill")
        numbers = {it: decimal_of(item[it], where) for it in item if OWN[it]}
        wrong = [it for it, value in numbers.items() if value < 0 or it == "diameter" and not value]
        if wrong or type(item.get("number", 0)) is not int:
            raise Wrong(f"{where}: `{(wrong or ['number'])[0]}` isn't a number that it may be")
        tools.append(made(item.get("number"), str(item.get("name", "")), **with_angle(kind, numbers)))
    return tools


def with_angle(kind, numbers):
    """Returns a tool's kind and numbers, with a drill's usual angle where none is told, and a doubt on that."""
    if kind != "drill" or numbers.get("angle"):
        return {"kind": kind, **numbers}
    doubt = f"guessed: the point of a drill of {short(numbers['diameter'])} mm has {short(DRILL_ANGLE)} degrees"
    return {"kind": kind, **numbers, "angle": DRILL_ANGLE, "doubts": [doubt]}


def plain_tables(text):
    """Returns the tables [[tools]] of a TOML of lines KEY = VALUE alone, where Python has no reader of TOML."""
    for part in re.split(r"^\s*\[\[tools\]\]\s*(?:#.*)?$", text, flags=re.M)[1:]:
        rows = re.findall(r"^\s*(\w+)\s*=\s*(\"[^\"]*\"|'[^']*'|[^#\s]+)", part, re.M)
        yield {key: value[1:-1] if value[0] in "\"'" else int(value) if re.fullmatch(r"[-+]?\d+", value) else value for key, value in rows}


def lines_of(name, text):
    """Returns the tools of a LinuxCNC tool table; its diameters are in the machine's unit, which it doesn't say."""
    tools = []
    for line in text.split("\n"):
        words, _, comment = line.partition(";")
        number, diameter = re.search(r"\bT(\d+)", words), re.search(r"\bD([-+]?[0-9.]+)", words)
        if not number:
            continue
        doubts, across, comment = [], decimal_of(diameter[1], name) if diameter else Decimal(0), comment.strip()
        said = diameter_in(comment)
        if said and across and abs(across * INCH - said) < Decimal("0.01"):
            across = said
            doubts.append(f"guessed: D{diameter[1]} of T{number[1]} is in inches, as its comment has it")
        kind = kind_in(comment)
        if kind is None:
            kind = "flat"
            doubts.append(f"guessed: T{number[1]} is flat; the table has no kind, and its comment ({comment or 'none'}) names none")
        angle = angle_in(comment)
        shape = with_angle(kind, {"diameter": across, "angle": angle or 0})
        tools.append(made(int(number[1]), comment, **{**shape, "doubts": [*doubts, *shape.get("doubts", ())]}))
    return tools


def bit_of(name, number):
    """Returns the tool of a FreeCAD tool bit, a .fctb, under this number."""
    try:
        bit = json.loads(text_of(name))
        given, shape = bit["parameter"], os.path.splitext(os.path.basename(bit["shape"]))[0].lower()
    except (ValueError, KeyError, TypeError, AttributeError):
        raise Wrong(f"{name}: it is no tool bit of FreeCAD's") from None
    kind, title = SHAPES.get(shape), str(bit.get("name") or os.path.splitext(os.path.basename(name))[0])
    names = {"diameter": "Diameter", "tip": "TipDiameter", "flute": "CuttingEdgeHeight", "shank": "ShankDiameter"}
    numbers = {it: decimal_of(given[key], name) for it, key in names.items() if key in given}
    if kind != "cone":
        numbers.pop("tip", None)
    for key in ("CuttingEdgeAngle", "TipAngle"):
        if kind in ("cone", "drill") and key in given:
            numbers["angle"] = decimal_of(given[key], name)
    shown = with_angle(kind, numbers)
    if shape == "bullnose":
        shown["doubts"] = [f'"{title}" is judged as a flat cutter: that keeps it off the part; what its round corner leaves counts as cut']
    return made(number, title, **shown)


def library_of(name):
    """Returns the tools of a FreeCAD tool library, a .fctl, whose bits lie beside it, or in Bit/ beside its folder."""
    try:
        rows = [(int(it["nr"]), str(it["path"])) for it in json.loads(text_of(name))["tools"]]
    except (ValueError, KeyError, TypeError):
        raise Wrong(f"{name}: it is no tool library of FreeCAD's") from None
    folder = os.path.dirname(name)
    tools = []
    for number, path in rows:
        places = [os.path.join(folder, *way, path) for way in ((), ("..", "Bit"), ("Bit",))]
        file = next((it for it in places if os.path.isfile(it)), None)
        if file is None:
            raise Wrong(f"{name}: its tool {number}, {path}, is neither beside it nor in {os.path.join(folder, '..', 'Bit')}")
        tools.append(bit_of(file, number))
    return tools


def tool_in_words(text):
    """Returns the tool that words tell, as `flat 6`, `ball 3`, `cone 6 90` or `drill 5 118`; None where they tell none."""
    found = re.fullmatch(r"\s*(flat|ball|cone|drill)[ :,]+([0-9.]+)(?:[ :,]+([0-9.]+))?\s*", text)
    if not found:
        return None
    shape = with_angle(found[1], {"diameter": decimal_of(found[2], "--tool"), "angle": decimal_of(found[3] or "0", "--tool")})
    return made(None, "", **shape)


def chosen(tools, wanted, words, comments):
    """Returns the tool of a program, and a sentence on how it was chosen, "" where nothing had to be guessed.

    `tools` is a table's, or an empty list; `wanted` is the text of --tool or None; `words` the numbers of the program's T
    words, in order; `comments` the Tools that its comments tell. Raises Wrong where it can't be known, with the options."""
    if wanted is not None:
        return asked_for(tools, wanted), ""
    numbers = words or [it.number for it in comments if it.number is not None]
    own = [it for it in tools if numbers and it.number == numbers[0]]
    if own:
        return own[0], ""
    named = f"the program has T{numbers[0]}" if numbers else "the program has no T"
    if len(tools) == 1:
        why = "" if not numbers or tools[0].number is None else f"guessed: {called(tools[0])}, the only tool of the table; {named}"
        return tools[0], why
    sized = [it for it in comments if it.diameter and (not numbers or it.number in (None, numbers[0]))]
    if tools:
        fits = [it for it in tools if sized and it.diameter == sized[0].diameter and sized[0].kind in (None, it.kind)]
        if len(fits) == 1:
            return fits[0], f'guessed: {called(fits[0])}, by the comment "{sized[0].name}"; {named}, which the table lacks'
        raise Wrong(f"which tool? {named}; choose by --tool=N: " + "; ".join(map(called, tools)))
    if not sized:
        raise Wrong(f'which tool? {named}, and no comment tells its diameter: give a table by --tools=TABLE, or the tool as --tool="flat 6"')
    tool = sized[0]
    shape = with_angle(tool.kind or "flat", {"diameter": tool.diameter, "angle": tool.angle})
    return made(tool.number, tool.name, **shape), f'guessed: {called(tool._replace(kind=shape["kind"]))}, by the program\'s comment'


def asked_for(tools, wanted):
    """Returns the tool that --tool asks for: a number of the table, or words as `flat 6`. Raises Wrong where there is none."""
    spoken = tool_in_words(wanted)
    if spoken:
        return spoken
    number = number_in(wanted if wanted[:1] in "Tt" else f"T{wanted}")
    own = [it for it in tools if number is not None and it.number == number] or [it for it in tools if it.name == wanted]
    if not own:
        raise Wrong(f'no tool {wanted!r}: --tool takes a number or a name of the table, or words as "flat 6"; the table has ' + ("; ".join(map(called, tools)) or "none"))
    return own[0]
