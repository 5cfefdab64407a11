"""Which word of a line is at fault: of a program's line, and of a part's, by the code that camtool gave.

It reads a line's words as docs/FORMATS.md has them, and says nothing of lines that camtool takes.
"""
import collections
import re
from decimal import Decimal

from camtool.command import SHOWN, by_number, plain, quoted
from camtool.sentences import GREATEST

# A word of a line, in capitals and without its blanks, and from where to where it stands in the line, in bytes.
Word = collections.namedtuple("Word", "text start end")
# What is at fault in a line, in quotes, and from where to where it stands. Of two words it is the second one's place.
Fault = collections.namedtuple("Fault", "told start end")
WORD = re.compile(r"([A-MO-Za-mo-z])([+-]?(?:[0-9]+\.?[0-9]*|\.[0-9]+))")
# The words of each modal group, of which a line has one, and then those of which it may have any.
GROUPS = ("G0 G1 G80", "G17", "G90", "G94", "G21", "G40", "G49", "G54", "G61", "M2 M30", "M6", "M3 M4 M5", "M7 M8 M9")
# Why words aren't in the profile, and what to do.
REASONS = {
    "/": "a line that may be skipped: leave it out, or its slash",
    "G2 G3 I J K R": "an arc: have straight moves written, in FreeCAD by SplitArcs",
    "G4 P": "a dwell: leave it out",
    "G18 G19": "another plane than G17: leave it out",
    "G20": "inches: have millimetres written, with G21",
    "G28 G30 G53": "a move to a place of the machine: leave it out, or write the move's end",
    "G41 G42 D": "cutter compensation: have the path of the tool's middle written",
    "G43 H": "the tool's length: leave it out, in FreeCAD by --no-tlo, and touch off with the tool",
    "G55 G56 G57 G58 G59": "another offset than G54: touch off in G54",
    "G61.1 G64": "a control that rounds corners: leave it out, and write G61, or its tolerance as the job's `slack`",
    "G15 G50 G69": "polar coordinates, scaling or rotation off: leave it out",
    "G70 G71": "another control's word for inches or millimetres: write G21",
    "G73 G81 G82 G83 G84 G85 G86 G87 G88 G89 G98 G99 L Q": "a cycle: have moves written, in FreeCAD by the Grbl post with --translate_drill",
    "G90.1 G91.1": "how the middles of arcs are told: leave it out",
    "G91": "relative coordinates: have absolute ones written, with G90",
    "G10 G92": "an offset that would shift every move: touch off instead",
    "G93 G95": "another kind of feed: have millimetres each minute written, with G94",
    "M0 M1": "a pause: part the program there",
    "M98 M99 O": "a subprogram: have its moves written out",
    "A B C U V W": "an axis other than X, Y and Z: camtool has three",
}

# Of these, what a job with `words = "machine"` takes.
MACHINE = set("G2 G3 I J K G18 G19 G4 P G20 G28 G30 G53 G43 H G55 G56 G57 G58 G59 G61.1 G64 G15 G50 G69 G70 G71 G73 G81 G82 G83 G98 G99 Q R G91.1 G91 M0 M1 O".split())
# Why words aren't taken with `words = "machine"`, or aren't on some lines, where that is another reason.
MACHINE_REASONS = {
    "H": "H stands with G43, and H0 with G49",
    "P": "P stands with G4, with G64 and in a G82",
    "Q R": "R and Q stand in G81, G82, G83 and G73",
    "I J K": "I, J and K stand in an arc, a line of G2 or G3",
    "G28 G30": "it stands with Z alone, or with X or Y, under G91 and with values of 0",
    "G53": "it stands in a rapid, and with no word of a cycle or an arc",
    "G90.1": "arcs whose I, J and K are places: have them written as offsets from the start",
    "O": "a program's number stands first on a line, before the first place; subprograms aren't read",
    "G84 G85 G86 G87 G88 G89 G76 L": "a cycle that isn't read: have moves written",
    "M25 M99": "a word of one control alone: take it out",
    "G52": "an offset that would shift every move: touch off instead",
}


def misspelled(character):
    """Returns why no word begins with this character, or none that has a number."""
    if character == "(":
        return "`(` begins a comment that isn't closed, or has another in it"
    if character in "Nn":
        return f"`{character}` isn't a line number here"
    if character.isascii() and character.isalpha():
        return f"`{character}` has no number behind it"
    return f"`{plain(character) if character.isascii() else by_number(character)}` can't stand here"


def scan(line):
    """Returns the words of a program's line, and the Fault where one isn't spelled as a word is, or None. Comments and
    blanks are no part of a word, but blanks may stand within one."""
    shown = re.sub(r"\([^()]*\)|;.*", lambda it: "|" * len(it[0]), line.decode("latin-1"), flags=re.S)
    places = [at for at, it in enumerate(shown) if it not in " \t\r"]
    text = "".join(shown[at] for at in places)
    start = re.match(r"\|*(/?)\|*(?:[Nn][0-9]{1,9}(?![0-9.+-]))?", text)
    words, at = [Word("/", places[start.start(1)], places[start.start(1)] + 1)] if start[1] else [], start.end()
    while at < len(text):
        found = WORD.match(text, at)
        if text[at] == "|":
            at += 1
            continue
        if not found:
            return words, Fault(misspelled(text[at]), places[at], places[at] + 1)
        word = Word(found[0].upper(), places[at], places[found.end() - 1] + 1)
        if sum(map(str.isdigit, found[2])) > 18:
            return words, Fault(f"`{found[0][:SHOWN]}` has over 18 digits", *word[1:])
        if len(words) == 32:
            return words, Fault(f"`{found[0]}` is the 33rd word", *word[1:])
        words.append(word)
        at = found.end()
    return words, None


def name_of(word):
    """Returns a G or M word with its number as it is compared, and of any other word its letter."""
    number = Decimal(word[1:]) if word[0] in "GM" else None
    return word[0] if number is None else f"{word[0]}{int(number) if number == int(number) else number.normalize()}"


def group_of(word):
    """Returns the words of which a line has one, or None where the word isn't in the profile."""
    name = name_of(word)
    return name if name in "FSTXYZ" else next((it for it in GROUPS if name in it.split()), None)


def repeated(words, is_coded):
    """Returns the Fault of the first two words of one modal group, or of one letter that has none; None where there are
    no such two."""
    had = {}
    for word in words:
        group = group_of(word.text)
        if group in had and group != GROUPS[-1] and (word.text[0] in "GM") == is_coded:
            return Fault(f"`{had[group]}` and `{word.text}`", word.start, word.end)
        had.setdefault(group, word.text)
    return None


def fault_of(code, line, grid):
    """Returns the Fault of a program's line that a code of camtool's means, or None where it can't be told.

    line  the bytes of the line
    grid  the job's Grid
    """
    words, spelling = scan(line)
    if code == "word":
        return spelling
    if code in ("group", "twice"):
        return repeated(words, code == "group")
    units = {it: grid.units(it.text[1:]) for it in sorted(words) if it.text[0] in "XYZ"}
    found = {
        "not-in-profile": [it for it in words if group_of(it.text) is None],
        "late-tool": [it for it in words if name_of(it.text) in ("T", "M6")],
        "off-grid": [it for it in units if units[it] != int(units[it])],
        "out-of-range": [it for it in units if abs(units[it]) > GREATEST[grid.places]],
        "no-axis": [it for it in words if name_of(it.text) in ("G0", "G1")],
    }.get(code)
    return Fault(f"`{found[0].text}`", *found[0][1:]) if found else None


def coordinate_at_fault(code, line, grid):
    """Returns the coordinate of a part's line that a code means, in quotes, or None where it can't be told."""
    for word in re.findall(rb"[^\s]+", line):
        word = word.decode("latin-1")
        form = re.fullmatch(r"[+-]?([0-9]+\.?[0-9]*|\.[0-9]+)(?:[eE][+-]?[0-9]{1,3})?", word)
        if code == "spelling":
            is_fault = not form and word.lower() != "vertex"
        elif code == "too-many-digits":
            is_fault = form and sum(map(str.isdigit, form[1])) > 24
        else:
            units = grid.units(word) if form else 0
            is_fault = units != int(units) if code == "off-grid" else abs(units) >= GREATEST[grid.places] + Decimal("0.5")
        if is_fault:
            return f"`{quoted(word)}`"
    return None


def why_not(word, is_machine=False):
    """Returns why a word isn't in the profile, or with machine words not on its line, where that is known."""
    name = name_of(word.strip("`")) if word else ""
    reasons = {**MACHINE_REASONS, **REASONS} if is_machine else REASONS
    why = next((it for names, it in reasons.items() if name in names.split()), None)
    more = "; a job with `words = \"machine\"` reads it" if name in MACHINE and not is_machine else ""
    return f" ({why}{more})" if why else ""
