"""What a setup sheet tells of a program and its job: where it starts, what its words say, how low it goes.

Lines are counted from 1; places are in the job's units.
"""
import collections
import re
from decimal import Decimal

from camtool import texts
from camtool.facts import spelled

# A comment that may name a tool, and one that doesn't: a post's words round an operation.
NAMES_TOOL, NO_TOOL = re.compile(r"\bT\d|\bTC:|mill\b|drill|\bball\b|bit\b|\bD\d", re.I), re.compile(r"\s*(begin|finish|path:|m6)", re.I)
# Bytes that a control may act on, inside comments too.
ACTED_ON = re.compile(rb"[!~?\x80-\xff]")
# What a program's text says: the words by name, each with its lines; the line of the first move and of the first cut;
# the comments before it; and the lines that a control may read in another way than camtool.
Facts = collections.namedtuple("Facts", "words first cut comments feeds speeds spindle behind odd")


def words_at(lines):
    """Returns for each name of a G, M or T word the lines that it stands on, and the F and the S words as pairs of a line
    and a number, up to the program's end; and that end's line."""
    found, numbers, end, begun = collections.defaultdict(list), {"F": [], "S": []}, len(lines), False
    for at, line in enumerate(lines, 1):
        words = texts.words_of(line)
        if words == "%":
            if begun:
                return found, numbers, at
            begun = True
            continue
        for letter, value in words:
            begun = True
            if letter in "GMT":
                found[spelled(letter, Decimal(value))].append(at)
            elif letter in numbers:
                numbers[letter].append((at, Decimal(value)))
        if at in (*found.get("M2", ()), *found.get("M30", ())):
            return found, numbers, at
    return found, numbers, end


def spindle_at(found, line):
    """Returns the last of M3, M4 and M5 up to a line, with its line; None where there is none."""
    before = [(at, name) for name in ("M3", "M4", "M5") for at in found.get(name, []) if at <= line]
    return max(before, default=None)


def facts_of(text, moves, top):
    """Returns what a program says. A cut is a feed that comes under the top of the stock."""
    lines = text.split(b"\n")
    found, numbers, end = words_at(lines)
    first = moves[0].line if moves else None
    cuts = [it.line for it in moves if it.kind == "feed" and min(it.start[2], it.end[2]) < top]
    said = b"\n".join(lines[: first or 0]).decode("utf-8", "replace")
    every = [it.strip() for pair in re.findall(r"\(([^()\n]*)\)|;([^\n]*)", said) for it in pair]
    comments = dict.fromkeys(it for it in every if NAMES_TOOL.search(it) and not NO_TOOL.match(it))
    odd = {
        "a CR": sum(it.endswith(b"\r") for it in lines), "a `;`": sum(b";" in it for it in lines),
        "`!`, `~`, `?` or a byte over 0x7F": sum(bool(ACTED_ON.search(it)) for it in lines)}
    behind = sum(bool(it.strip(b" \t\r%")) for it in lines[end:])
    cut = cuts[0] if cuts else None
    return Facts(found, first, cut, list(comments)[:3], numbers["F"], numbers["S"], spindle_at(found, cut) if cuts else None, behind, odd)


def low_rapids(moves, top):
    """Returns the lines of the rapids that go sideways under a height."""
    return [it.line for it in moves if it.kind == "rapid" and it.start[:2] != it.end[:2] and min(it.start[2], it.end[2]) < top]
