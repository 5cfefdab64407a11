"""Reads jobs, lists, parts and programs anew, for the commands. It is no part of what is proved.

It takes the form of the texts from docs/FORMATS.md, and that camtool takes them: of texts that camtool refuses it
tells nothing. Places are in the job's units. Python 3.9 or later, with its standard library alone.
"""
import collections
import functools
import json
import re
from decimal import ROUND_HALF_UP, Decimal

try:
    import tomllib
except ImportError:
    # (before Python 3.11)
    tomllib = None

# The line that a move stands on, from 1; "rapid" or "feed"; and its two ends.
Move = collections.namedtuple("Move", "line kind start end")


class Grid:
    """The job's unit of length."""

    def __init__(self, job):
        self.places = 3 if job.get("unit") == "thousandth" else 2

    def units(self, millimetres):
        """Returns a length in millimetres, of any kind that Decimal takes, as units: a Decimal."""
        return Decimal(millimetres) * 10**self.places

    def millimetres(self, units):
        """Returns units as a text in millimetres, with as many digits as the unit has, or two more where it lies between two units."""
        whole, digits = f"{abs(float(units)) / 10**self.places:.{self.places + 2}f}".split(".")
        text = f"{whole}.{digits[:self.places]}{digits[self.places:].rstrip('0')}"
        return f"-{text}" if units < 0 and text.strip("0.") else text

    def point(self, place):
        """Returns a place in units, of two or three axes, as `X1.00 Y2.00 Z3.00`."""
        return " ".join(f"{axis}{self.millimetres(it)}" for axis, it in zip("XYZ", place))


def job_of(text):
    """Returns the job's keys. With no reader of TOML it takes lines KEY = NUMBER, KEY = [NUMBER, ..], KEY = [[NUMBER, ..], ..],
    KEY = "TEXT", KEY = 'TEXT', KEY = true and KEY = false alone."""
    # (camtool takes a byte order mark before a job or a list)
    plain = text.decode("utf-8-sig")
    if tomllib:
        return tomllib.loads(plain)
    array = r"\[(?:[^\[\]]|\[[^\[\]]*\])*\]"
    found = re.findall(rf"""^\s*(\w+)\s*=\s*([-+]?\d\w*|{array}|"[^"\n]*"|'[^'\n]*'|true\b|false\b)""", plain, re.M)
    return {key: value_of(value) for key, value in found}


def value_of(text):
    """Returns what a number, a text in quotes, true, false, or an array of numbers or of such arrays, is."""
    if text[0] in "\"'":
        return text[1:-1]
    if text in ("true", "false"):
        return text == "true"
    plain = re.sub(r"#.*", "", text)
    rows = re.findall(r"\[[^\[\]]*\]", plain[1:])
    if rows:
        return [value_of(row) for row in rows]
    numbers = [int(it, 0) for it in re.findall(r"[-+]?\d\w*", plain)]
    return numbers if plain.startswith("[") else numbers[0]


def job_text(job):
    """Returns the text of a job with these keys."""
    return "".join(f"{key} = {json.dumps(value)}\n" for key, value in job.items())


def bends(job, move):
    """Returns whether the tip may go any way in the box of a move's ends: on a rapid along two axes or more, by `rapids`."""
    return job.get("rapids") == "axes" and move.kind == "rapid" and sum(a != b for a, b in zip(move.start, move.end)) > 1


def start_of(job):
    """Returns where a program starts; None where it brings the tip to its first place itself, from anywhere."""
    return (*job["home"], job["clear"]) if job.get("start", "home") == "home" else None


def faces_of(box):
    """Returns the two triangles of the upper face of one of the boxes of `keep_out`."""
    x0, y0, x1, y1, z = box
    one, other = (x0, y0, z), (x1, y1, z)
    return [(one, (x1, y0, z), other), (one, other, (x0, y1, z))]


def steps_of(text):
    """Returns the steps of a list."""
    return job_of(text)["steps"] if tomllib else [job_of(it) for it in text.split(b"[[steps]]")[1:]]


def words_of(line):
    """Returns the letters and numbers of a program's line, or "%" where it is one that begins or ends a frame."""
    plain = re.sub(r"\([^()]*\)", " ", line.decode("latin-1"))
    plain = re.sub(r"[ \t\r]", "", plain.split(";")[0]).upper()
    return plain if plain == "%" else re.findall(r"([A-Z])([+-]?[0-9.]+)", plain)


def moves_of(text, start, grid):
    """Returns the moves of a program that starts at this place; at None it brings the tip to its first place itself."""
    moves, here, mode, framed = [], list(start or (0, 0, 0)), None, False
    for number, line in enumerate(text.split(b"\n"), 1):
        words = words_of(line)
        if words == "%":
            if framed or moves:
                break
            framed = True
            continue
        found, ends = {}, False
        for letter, value in words:
            if letter == "G" and Decimal(value) in (0, 1, 80):
                mode = {0: "rapid", 1: "feed", 80: None}[int(Decimal(value))]
            elif letter == "M" and Decimal(value) in (2, 30):
                ends = True
            elif letter in "XYZ":
                found["XYZ".index(letter)] = int(grid.units(value))
        if found and mode:
            end = [found.get(it, here[it]) for it in range(3)]
            moves.append(Move(number, mode, tuple(here), tuple(end)))
            here = end
        if ends:
            break
    return moves if start else from_anywhere(moves)


def from_anywhere(moves):
    """Returns the moves of a program that brings the tip to its first place: its first two lie there, and are of no length."""
    place = moves[1].end if len(moves) > 1 else None
    return [it._replace(start=place, end=place) for it in moves[:2]] + moves[2:] if place else []


def box_of(places):
    """Returns the least and the greatest corner of places; None where there are none."""
    places = list(places)
    return tuple(tuple(pick(it[axis] for it in places) for axis in range(3)) for pick in (min, max)) if places else None


def triangles_of(text, grid):
    """Returns the corners of each triangle of an ASCII STL text, rounded to whole units."""
    found = re.findall(rb"vertex\s+(\S+)\s+(\S+)\s+(\S+)", text, re.I)
    # (a mesh has each corner about six times, and on many of them one coordinate)
    units = functools.lru_cache(None)(lambda it: int(grid.units(it.decode("ascii", "replace")).to_integral_value(ROUND_HALF_UP)))
    corners = [tuple(map(units, row)) for row in found]
    return [tuple(corners[it : it + 3]) for it in range(0, len(corners) - 2, 3)]
