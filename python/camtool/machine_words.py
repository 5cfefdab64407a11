"""Reads a program in machine words, as docs/FORMATS.md has them: its moves, or its first fault. It reads by itself, and is no
part of what is proved.

The real tip's place isn't known at a program's beginning, and a tool change or another offset makes it unknown again. So
beside the place of the list of moves stands what is known of it, and lines that name coordinates are taken by that alone.
All lengths are fractions of the text's decimals until they are rounded to units.
"""
import collections
import re
from fractions import Fraction

from camtool import arcs, texts
from camtool.sentences import GREATEST
from camtool.texts import Move
from camtool.words import Fault as WordFault
from camtool.words import scan

# The modal group of each G word, but for group 1, whose words are modes.
GROUPS = {
    Fraction(word): group
    for group, words in {
        0: "4 28 30 53", 2: "17 18 19", 3: "90 91", 5: "94", 6: "20 21 70 71", 7: "40", 8: "43 49", 10: "98 99", 11: "50",
        12: "54 55 56 57 58 59 59.1 59.2 59.3", 13: "61 61.1 64", 16: "91.1", 17: "15", 19: "69"}.items()
    for word in words.split()
}
# The modal group of each M word; None where a line may have several.
M_GROUPS = {0: 4, 1: 4, 2: 4, 30: 4, 6: 6, 3: 7, 4: 7, 5: 7, 7: None, 8: None, 9: None}
# The words of group 1: the modes of straight moves, of arcs, none, and the drilling cycles.
RAPID, FEED, OFF = "rapid", "feed", "off"
CLOCKWISE, COUNTERCLOCKWISE = "clockwise", "counterclockwise"
TURNS = {CLOCKWISE: arcs.CLOCKWISE, COUNTERCLOCKWISE: arcs.COUNTERCLOCKWISE}
PECKING, FAST_PECKING, DRILLING, DWELLING = 83, 73, 81, 82
CYCLES = (DRILLING, DWELLING, PECKING, FAST_PECKING)
MODES = {0: RAPID, 1: FEED, 2: CLOCKWISE, 3: COUNTERCLOCKWISE, 80: OFF, **{it: it for it in CYCLES}}
# The words beside which no axis word stands: a rest, and what is switched off.
ALONE = (4, 15, 50, 69)
INCHES, MILLIMETRES = (20, 70), (21, 71)
# What is known of the tip's height: nothing; that it is at or over `clear` and at or over the list's place; or all.
UNKNOWN, HIGH, KNOWN = "unknown", "high", "known"
# What is in force at a program's beginning: a length and a zero of their own.
FIRST = "as before"
MOST_MOVES, MOST_BYTES = 1_000_000, 256
INCH = Fraction(254, 10)
# So many units of the slack are the text's, where it has as many: its numbers are rounded to the grid. Of an arc there are
# `arc_tol` and these: its chords are rounded, and they aren't the arc.
ROUNDING, CHORDS = 3, 2
# The decimals of a millimetre of which one is a nanometre.
FINEST = 6


class Fault(Exception):
    """The first fault of a program: its line, from 1, its code, which of the line's words is at fault, from 0, or None, and
    of an arc why it isn't taken, else nothing."""

    def __init__(self, code, word=None, why=""):
        super().__init__(code)
        self.line, self.code, self.word, self.why = 0, code, word, why


# A reading: the moves up to the first fault, the fault or None, and the Premises.
Reading = collections.namedtuple("Reading", "moves fault premises")


class Premises:
    """What a program takes for granted of its control, as far as it was read: lines are counted from 1.

    zeros      the words of part's zeros under which it names values, as "G54", or FIRST; each with its first line
    lengths    the same of tool lengths, as "G43 H1", "G49" or FIRST
    ups        the words that go up to a place of the machine, "G53", "G28" and "G30"
    changes    the lines of T and M6
    high       the first of these with the tip at or over the safe height before it, or None
    early      the line of a Z that is named before the first of these, or None
    pecks      the line of the first hole with stops on its way back down, or None
    arcs       the line of the first arc, or None
    stops      the lines of M0 and M1
    """

    def __init__(self):
        self.zeros, self.lengths, self.ups, self.changes, self.stops = {}, {}, {}, [], []
        self.high = self.early = self.pecks = self.arcs = None


class Control:
    """What a job says of its control; lengths are in the job's units."""

    def __init__(self, job):
        self.places = 3 if job.get("unit") == "thousandth" else 2
        self.greatest, self.clear = GREATEST[self.places], job["clear"]
        slack = job.get("slack", 0)
        self.rounds = slack >= ROUNDING
        self.tolerance = slack - ROUNDING if self.rounds else slack
        self.nanometres = 10 ** (FINEST - self.places)
        self.arc_tolerance = job.get("arc_tol", 1 if self.places == 2 else 3)
        # (what an arc leaves of the slack to the machine; under 0 no arc is taken)
        self.arc_rest = slack - self.arc_tolerance - CHORDS
        self.peck_clearance = job.get("peck_clearance", 25 if self.places == 2 else 250)
        self.has_one_length = job.get("lengths", "table") == "one"
        self.change_raises, self.needs_spindle = job.get("start") == "change", job.get("spindle", False)


class Line:
    """What the words of one line say: `values` by letter, with `places` which word has it; `codes` the numbers of its G words
    and `stops` those of its M words; `mode`, `is_inches`, `is_absolute`, `returns_high`, `zero`, `plane` and `strays` (by how many
    units G64 lets the machine stray, 0 with G61) are None where the line has no word of that kind, and `up` is G28, G30 or G53,
    the word `up_at`."""

    def __init__(self):
        self.values, self.places, self.codes, self.stops, self.had = {}, {}, [], [], []
        self.alone, self.up_at = False, None
        self.mode = self.is_inches = self.is_absolute = self.returns_high = self.zero = self.up = self.plane = self.strays = None

    def has_axis(self):
        """Whether an axis word was read."""
        return any(it in self.values for it in "XYZ")

    def has_turn(self):
        """Whether a word was read that makes an arc of a line, beside axis words."""
        return any(it in self.values for it in "IJKR")

    def goes_across(self):
        """Whether X or Y was read."""
        return "X" in self.values or "Y" in self.values

    def once(self, key, code, word):
        """Notes a key, of which a line has one."""
        if key in self.had:
            raise Fault(code, word)
        self.had.append(key)

    def drills(self):
        """Whether a cycle's word was read."""
        return self.mode in CYCLES


class Series:
    """Lines of cycles with no other mode between them: the height at which they began, in whole units and as it was named, and
    the words that stay."""

    def __init__(self, level, exact_level):
        self.level, self.exact_level, self.cycle, self.words = level, exact_level, None, {}

    def take(self, cycle, values):
        """Takes a line's words: those of another cycle don't stay."""
        if cycle != self.cycle:
            self.cycle, self.words = cycle, {}
        self.words.update({letter: values[letter] for letter in "RZQ" if letter in values})


def nearest(number):
    """Returns the nearest whole number, ties away from zero."""
    return arcs.nearest(number.numerator, number.denominator)


def words_of(line):
    """Returns whether a line, bytes, begins with a slash, and its words, as pairs of a letter and a number."""
    words, fault = scan(line)
    if fault:
        raise Fault("word")
    is_skipped = bool(words) and words[0].text == "/"
    return is_skipped, [(it.text[0], Fraction(it.text[1:])) for it in words[is_skipped:]]


def is_blank(line):
    """Whether a line has nothing but blanks and comments."""
    return not re.sub(rb"\([^()]*\)|;.*", b"", line, flags=re.S).strip(b" \t\r")


class Reader:
    """Reads a program line by line, by a job's Control."""

    def __init__(self, control):
        self.control, self.premises = control, Premises()
        self.moves, self.line, self.has_ended, self.frame = [], 0, False, None
        # what is in force
        self.is_inches = self.is_absolute = self.returns_high = self.series = None
        self.mode, self.length, self.zero, self.plane, self.strays = OFF, FIRST, FIRST, 17, 0
        self.turns = self.has_speed = self.has_rate = False
        # the list's place; the units that the text named last of each axis, not rounded; and what is known of the tip's place
        self.place, self.begun, self.waiting, self.named = [None, None, None], False, [], [None, None, None]
        self.knows_across, self.height = False, UNKNOWN
        # what values were named under, and whether some were
        self.z_under = self.xy_under = None
        self.has_axis = self.has_named = self.is_late = False

    # ---- a line's words, from left to right

    def takes(self, words):
        """Returns which of H, I, J, K, P, R and Q a line takes, by all of its words; and the units of a tolerance's P, or None."""
        codes = [number for letter, number in words if letter == "G"]
        modes = [MODES[it] for it in codes if it in MODES] or [self.mode]
        drills, rests, turns = any(it in CYCLES for it in modes), DWELLING in modes, any(it in TURNS for it in modes)
        taken = {"R": drills or turns, "Q": drills, "P": 4 in codes or 64 in codes or rests, "H": 43 in codes, "H0": 43 in codes or 49 in codes}
        taken.update(dict.fromkeys("IJK", turns))
        is_inches = self.is_inches is not False
        if any(it in codes for it in (*INCHES, *MILLIMETRES)):
            is_inches = any(it in codes for it in INCHES)
        tolerance = next((number for letter, number in words if letter == "P"), None)
        return taken, None if tolerance is None else self.units(tolerance, is_inches)

    def said(self, words):
        """Returns what a line says."""
        line, (taken, tolerance) = Line(), self.takes(words)
        for at, (letter, number) in enumerate(words):
            if letter == "G":
                self.say_code(line, at, number, tolerance)
            elif letter == "M":
                if number not in M_GROUPS:
                    raise Fault("not-in-profile", at)
                if M_GROUPS[number]:
                    line.once(("M", M_GROUPS[number]), "group", at)
                line.stops.append(int(number))
            else:
                self.say_value(line, at, letter, number, taken)
        return line

    def say_value(self, line, at, letter, number, taken):
        """Takes a word that isn't of G and M."""
        is_name = letter == "O" and at == 0 and not self.has_axis and number.denominator == 1 and number >= 0
        is_taken = is_name or letter in "FSTXYZ" or taken.get("H0" if letter == "H" and number == 0 else letter, False)
        if not is_taken:
            raise Fault("not-in-profile", at)
        line.once(letter, "twice", at)
        if letter in "XYZ" and line.alone:
            raise Fault("group", at)
        line.values[letter], line.places[letter] = number, at

    def say_code(self, line, at, number, tolerance):
        """Takes a G word."""
        if number in MODES:
            self.say_mode(line, at, MODES[number])
        elif number in GROUPS:
            line.once(("G", GROUPS[number]), "group", at)
            is_other = GROUPS[number] == 6 and self.is_inches not in (None, number in INCHES)
            if is_other and self.has_axis or number in ALONE and line.has_axis():
                raise Fault("group", at)
            if number == 64 and not (tolerance and 0 < tolerance <= self.control.tolerance):
                raise Fault("path-control", at)
            self.say_setting(line, number, at, tolerance)
        else:
            raise Fault("not-in-profile", at)
        line.codes.append(number)

    @staticmethod
    def say_mode(line, at, mode):
        """Takes a word of group 1: G80 may stand beside one G0 or G1, no other two."""
        kind = "off" if mode == OFF else "straight" if mode in (RAPID, FEED) else "single"
        others = {"off": ("off", "single"), "straight": ("straight", "single"), "single": ("off", "straight", "single")}[kind]
        if any(it in line.had for it in others):
            raise Fault("group", at)
        line.had.append(kind)
        if mode != OFF or line.mode is None:
            line.mode = mode

    @staticmethod
    def say_setting(line, number, at, tolerance):
        """Takes a G word that isn't of group 1."""
        group = GROUPS[number]
        if group == 2:
            line.plane = int(number)
        elif group == 3:
            line.is_absolute = number == 90
        elif group == 6:
            line.is_inches = number in INCHES
        elif group == 10:
            line.returns_high = number == 98
        elif group == 12:
            line.zero = f"G{float(number):g}"
        elif group == 13:
            line.strays = tolerance if number == 64 else 0
        elif number in (28, 30, 53):
            line.up, line.up_at = int(number), at
        line.alone = line.alone or number in ALONE

    # ---- what a line changes

    def settle(self, line):
        """Takes a line's settings, its tool, its spindle and its offsets."""
        for name in ("is_inches", "is_absolute", "returns_high", "mode", "plane", "strays"):
            if getattr(line, name) is not None:
                setattr(self, name, getattr(line, name))
        if line.mode is not None and not line.drills():
            self.series = None
        self.has_ended = 2 in line.stops or 30 in line.stops
        if "T" in line.values or 6 in line.stops:
            self.premises.changes.append(self.line)
            if self.height == HIGH and self.premises.high is None:
                self.premises.high = self.line
            self.is_late = self.is_late or self.has_named
            self.forget(True)
        self.settle_spindle(line)
        if 6 in line.stops and self.control.change_raises:
            self.height, self.place[2] = HIGH, self.raised()
        self.settle_offsets(line)

    def settle_spindle(self, line):
        """Takes what a line says of spindle and feed rate."""
        if "F" in line.values:
            self.has_rate = line.values["F"] > 0
        if "S" in line.values:
            self.has_speed = line.values["S"] > 0
        if 6 in line.stops or 5 in line.stops:
            self.turns = False
        if 3 in line.stops or 4 in line.stops:
            self.turns = True

    def settle_offsets(self, line):
        """Takes a line's tool length and zero: another one than is in force makes the place unknown."""
        length = "G49" if 49 in line.codes else "G43" if 43 in line.codes else self.length
        if length == "G43" and "H" in line.values:
            length = f"G43 H{float(line.values['H']):g}"
        if length != self.length and not self.control.has_one_length:
            self.length = length
            self.forget(False)
        if line.zero not in (None, self.zero):
            self.zero = line.zero
            self.forget(True)

    def forget(self, is_across):
        """The height isn't known any more, nor x and y: a height that is high stays so."""
        self.knows_across = self.knows_across and not is_across
        if self.height == KNOWN:
            self.height = UNKNOWN

    def raised(self):
        """The height of a place that is high."""
        return self.control.clear if self.place[2] is None else max(self.place[2], self.control.clear)

    # ---- moves

    def units(self, number, is_inches=None):
        """Returns a number of the text in units."""
        is_inches = self.is_inches if is_inches is None else is_inches
        return number * 10**self.control.places * (INCH if is_inches else 1)

    def go(self, kind, x, y, z):
        """A straight move; before the first whole place a line that waits for it."""
        if len(self.moves) + len(self.waiting) >= MOST_MOVES:
            raise Fault("too-many-moves")
        start, self.place = tuple(self.place), [x, y, z]
        if self.begun:
            self.moves.append(Move(self.line, kind, start, (x, y, z)))
            return
        self.waiting.append(self.line)
        if None not in self.place:
            self.moves = [Move(it, RAPID, (x, y, z), (x, y, z)) for it in self.waiting]
            self.begun, self.waiting = True, []

    def take(self, text):
        """Takes a line, bytes without its LF."""
        self.line += 1
        if len(text) > MOST_BYTES:
            raise Fault("long-line")
        if re.sub(rb"[ \t\r]", b"", text) == b"%" and self.frame != "plain":
            self.has_ended, self.frame = self.frame == "framed", "framed"
            return
        is_skipped, words = words_of(text)
        if not is_blank(text) and self.frame is None:
            self.frame = "plain"
        if is_skipped:
            raise Fault("not-in-profile")
        line = self.said(words)
        self.settle(line)
        self.act(line)
        if 0 in line.stops or 1 in line.stops:
            self.turns = False
            self.premises.stops.append(self.line)

    def act(self, line):
        """Makes a line's moves."""
        is_arc = self.mode in TURNS and line.has_turn()
        if is_arc and line.up is not None:
            raise Fault("not-in-profile", line.up_at)
        if line.has_axis() or is_arc:
            if line.up is not None:
                self.go_up(line)
            else:
                self.name(line)
            self.has_axis = True
            return
        if line.up in (28, 30):
            raise Fault("not-in-profile", line.up_at)
        has_rest = "P" in line.values and 4 not in line.codes and 64 not in line.codes
        if line.drills() or "R" in line.values or "Q" in line.values or has_rest:
            raise Fault("cycle")

    def go_up(self, line):
        """Goes up to the machine's place, or parks."""
        is_by_machine = line.up == 53
        has_cycle_word = line.drills() or any(it in line.values for it in "RQP")
        fits = self.mode == RAPID if is_by_machine else self.is_absolute is False and not any(line.values.get(it) for it in "XYZ")
        if has_cycle_word or not fits:
            raise Fault("not-in-profile", line.up_at)
        is_safe = self.height == HIGH or self.height == KNOWN and self.place[2] >= self.control.clear
        if line.goes_across() and not is_safe:
            raise Fault("start")
        if self.is_inches is None:
            raise Fault("no-units")
        if is_by_machine and self.is_absolute is not True:
            raise Fault("no-absolute")
        if not line.goes_across():
            self.go(RAPID, *self.place[:2], self.raised())
        self.knows_across = self.knows_across and not line.goes_across()
        if "Z" in line.values:
            self.premises.ups.setdefault(f"G{line.up}", self.line)
            self.height = HIGH

    def may_name(self, line, height):
        """Whether a line may name its values by what is known of the place; `height` is its Z in units, or None."""
        is_up = self.mode == RAPID and height is not None and not line.goes_across() and height >= self.control.clear
        is_low, is_straight = height is not None and height < self.control.clear, self.mode not in CYCLES and self.mode not in TURNS
        return not (
            (self.height == UNKNOWN and not is_up)
            or (self.height == HIGH and self.mode != RAPID)
            or (is_low and is_straight and (not self.knows_across or (self.height == HIGH and line.goes_across())))
            or (not self.knows_across and ("X" in line.values) != ("Y" in line.values))
            or (not is_straight and not (self.knows_across and self.height == KNOWN)))

    def check(self, line, height):
        """The checks of a line that names values, up to those of its numbers."""
        if self.is_late:
            raise Fault("late-tool")
        if not self.may_name(line, height):
            raise Fault("start")
        names_height = "Z" in line.values or "R" in line.values and self.mode not in TURNS
        if names_height and self.z_under not in (None, (self.length, self.zero)) or line.goes_across() and self.xy_under not in (None, self.zero):
            raise Fault("late-offset")
        if self.is_inches is None:
            raise Fault("no-units")
        if self.is_absolute is not True:
            raise Fault("no-absolute")
        if self.mode == OFF:
            raise Fault("no-motion")
        if self.control.needs_spindle and self.mode != RAPID:
            if not (self.turns and self.has_speed):
                raise Fault("no-spindle")
            if not self.has_rate:
                raise Fault("no-feed")

    def value(self, line, letter, usual):
        """Returns a coordinate in whole units."""
        if letter not in line.values:
            return usual
        number = self.units(line.values[letter])
        if not self.control.rounds and number.denominator != 1:
            raise Fault("off-grid", line.places[letter])
        if abs(nearest(number)) > self.control.greatest:
            raise Fault("out-of-range", line.places[letter])
        return nearest(number)

    def name(self, line):
        """Takes a line that names values."""
        height = nearest(self.units(line.values["Z"])) if "Z" in line.values else None
        self.check(line, height)
        has_length = self.length.startswith("G43") and not self.control.has_one_length
        is_before_tool = self.mode == RAPID and not line.goes_across() and height is not None and height >= self.control.clear and not has_length
        if self.mode in CYCLES:
            self.drill(line)
        elif self.mode in TURNS:
            self.turn(line)
        else:
            self.go(self.mode, *(self.value(line, letter, it) for letter, it in zip("XYZ", self.place)))
            self.named = self.exact_end(line)
        self.note(line)
        self.has_named = self.has_named or not is_before_tool

    def exact_end(self, line):
        """Returns where a line ends, in units that aren't rounded: what it doesn't name is as it was named before."""
        return [self.units(line.values[letter]) if letter in line.values else it for letter, it in zip("XYZ", self.named)]

    def note(self, line):
        """Notes what is known behind a line, and under which offsets it names its values."""
        if "X" in line.values and "Y" in line.values:
            self.knows_across = True
        if "Z" in line.values:
            self.height = KNOWN
            if not self.premises.changes and self.premises.early is None:
                self.premises.early = self.line
        if "Z" in line.values or "R" in line.values:
            self.z_under = self.length, self.zero
            self.premises.lengths.setdefault(self.length, self.line)
        if line.goes_across():
            self.xy_under = self.zero
        self.premises.zeros.setdefault(self.zero, self.line)

    # ---- arcs

    def turn(self, line):
        """Takes a line of an arc: feeds along its chords."""
        control, end = self.control, self.exact_end(line)
        if self.strays > control.arc_rest >= 0:
            raise Fault("path-control")
        word, why = self.flaw_of_words(line, end)
        if why:
            raise Fault("arc", line.places.get(word), why)
        for letter in "XYZ":
            self.value(line, letter, None)
        plane = arcs.PLANES[self.plane]
        offsets = [self.units(line.values.get("IJK"[axis], Fraction(0))) for axis in plane[:2]]
        arc = arcs.Arc(*([int(it * control.nanometres) for it in some] for some in (self.named, end, offsets)), plane, TURNS[self.mode])
        flaw = arc.flaw(control.arc_tolerance * control.nanometres)
        if flaw:
            raise Fault("arc", None, flaw)
        self.go_round(arc)
        self.named = end

    def go_round(self, arc):
        """Makes the feeds along the chords of a sound arc."""
        try:
            places = arc.places(self.control.nanometres)
        except arcs.Endless:
            raise Fault("arc", None, "it has no end of chords") from None
        if any(abs(it) > self.control.greatest for place in places for it in place):
            raise Fault("out-of-range")
        self.premises.arcs = self.premises.arcs or self.line
        for place in places:
            self.go(FEED, *place)

    def flaw_of_words(self, line, end):
        """Returns which letter of an arc's line is at fault, or None, and why, or None where its words make an arc. `end` is
        where it ends, in units."""
        first, second, third = ("IJK"[axis] for axis in arcs.PLANES[self.plane])
        offsets = {it: self.units(line.values[it]) for it in "IJK" if it in line.values}
        values = {**offsets, **{it: length for it, length in zip("XYZ", end) if it in line.values}}
        is_whole = lambda it: (it * self.control.nanometres).denominator == 1
        if "R" in line.values:
            return "R", f"it tells a radius: its centre is told by {first} and {second}"
        if offsets.get(third):
            return third, f"{third} isn't 0 in the plane of {first} and {second}"
        if first not in offsets and second not in offsets:
            return None, f"neither {first} nor {second} tells its centre"
        if self.control.arc_rest < 0:
            return None, f"it needs a `slack` of at least {self.control.arc_tolerance + CHORDS}"
        for letter, length in offsets.items():
            if abs(length) > self.control.greatest:
                return letter, "its centre is farther off than a coordinate reaches"
        for letter, length in values.items():
            if not is_whole(length):
                return letter, "a number is finer than a nanometre"
        return None, None if all(map(is_whole, (*self.named, *end))) else "its start is finer than a nanometre"

    # ---- cycles

    def may_drill(self, x, y):
        """Whether the words of a series are whole, and all controls go the same way to and from a hole."""
        words, returns_high = self.series.words, self.returns_high
        needed = "RZQ" if self.mode in (PECKING, FAST_PECKING) else "RZ"
        if any(it not in words for it in needed) or ("Q" in needed and words["Q"] <= 0) or words["Z"] > words["R"]:
            return False
        if returns_high is None or self.plane != 17:
            return False
        is_under = self.place[2] < nearest(self.units(words["R"]))
        return not (is_under and [x, y] != self.place[:2]) and not (returns_high and self.place[2] != self.series.level)

    def drill(self, line):
        """Takes a line of a drilling cycle."""
        if self.series is None:
            self.series = Series(self.place[2], self.named[2])
        self.series.take(self.mode, line.values)
        x, y = (nearest(self.units(line.values[it])) if it in line.values else old for it, old in zip("XY", self.place))
        if not self.may_drill(x, y):
            raise Fault("cycle")
        for letter in "XYZR":
            self.value(line, letter, None)
        if "Q" in line.values and not self.control.rounds and self.units(line.values["Q"]).denominator != 1:
            raise Fault("off-grid", line.places["Q"])
        clearance = nearest(self.units(self.series.words["R"]))
        if self.place[2] < clearance:
            self.go(RAPID, *self.place[:2], clearance)
        self.go(RAPID, x, y, self.place[2])
        if self.place[2] > clearance:
            self.go(RAPID, x, y, clearance)
        self.cut_hole(x, y, clearance)
        self.go(RAPID, x, y, max(clearance, self.series.level) if self.returns_high else clearance)
        exact = self.units(self.series.words["R"])
        self.named = [*self.exact_end(line)[:2], max(exact, self.series.exact_level) if self.returns_high else exact]

    def cut_hole(self, x, y, clearance):
        """The feeds of a hole, and the ways back between them."""
        top, bottom = (self.units(self.series.words[it]) for it in "RZ")
        step, depth = self.units(self.series.words.get("Q", Fraction(0))), top
        has_pecks = self.mode in (PECKING, FAST_PECKING)
        if has_pecks and (top - bottom) / step * (3 if self.mode == PECKING else 1) > MOST_MOVES + 3:
            raise Fault("too-many-moves")
        while has_pecks and depth - step > bottom:
            depth -= step
            end = nearest(depth)
            self.go(FEED, x, y, end)
            if self.mode == PECKING:
                self.premises.pecks = self.premises.pecks or self.line
                self.go(RAPID, x, y, clearance)
                self.go(RAPID, x, y, min(clearance, end + self.control.peck_clearance))
        self.go(FEED, x, y, nearest(bottom))


def read(text, job):
    """Returns the Reading of a program, bytes, by a job's keys."""
    reader = Reader(Control(job))
    try:
        for line in text.split(b"\n"):
            reader.take(line)
            if reader.has_ended:
                return Reading(reader.moves, None, reader.premises)
        raise Fault("no-end")
    except Fault as fault:
        fault.line = reader.line
        return Reading(reader.moves, fault, reader.premises)


def fault_of(text, line, code, job):
    """Returns, in quotes, the word at fault on a line of a program, with its place in the line as words.Fault has it, where
    the first fault is of this line and code and a word is at fault; else None."""
    fault = read(text, job).fault
    if fault is None or (fault.line, fault.code) != (line, code):
        return None
    words, _ = scan(text.split(b"\n")[line - 1])
    if words and words[0].text == "/" and code == "not-in-profile":
        return WordFault("`/`", words[0].start, words[0].end)
    return None if fault.word is None else words_fault(words, fault.word, code)


def why_of(text, line, code, job):
    """Returns, in brackets and with a blank before, why an arc isn't taken, where that is the program's first fault; else nothing."""
    fault = read(text, job).fault
    return f" ({fault.why})" if fault and fault.why and (fault.line, fault.code) == (line, code) else ""


def words_fault(words, at, code):
    """Returns the words.Fault of a line's word: of a group or a letter with the one before it that it clashes with."""
    word = words[at]
    other = next((it for it in words[:at] if clashes(it.text, word.text)), None) if code in ("group", "twice") else None
    return WordFault(f"`{other.text}` and `{word.text}`" if other else f"`{word.text}`", word.start, word.end)


def clashes(one, other):
    """Whether two words of a line don't go together: of one letter, of one group, or an axis and what stands alone."""
    if one[0] not in "GM" and other[0] not in "GM":
        return one[0] == other[0]
    kinds = [kind_of(it) for it in (one, other)]
    return kinds[0] == kinds[1] or sorted(kinds, key=str) == sorted(("alone", "axis"), key=str)


def kind_of(word):
    """Returns the letter and the group of a word; "alone" of what no axis word stands beside, "axis" of an axis word."""
    letter, number = word[0], Fraction(word[1:])
    if letter in "XYZ" or letter == "G" and number in ALONE:
        return "axis" if letter in "XYZ" else "alone"
    return letter, 1 if letter == "G" and number in MODES else {"G": GROUPS, "M": M_GROUPS}.get(letter, {}).get(number)


def is_machine(job):
    """Whether a job's programs have machine words."""
    return job.get("words") == "machine"


def moves_of(text, job):
    """Returns the moves of a program by a job, whatever words it has."""
    return read(text, job).moves if is_machine(job) else texts.moves_of(text, texts.start_of(job), texts.Grid(job))
