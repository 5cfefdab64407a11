"""What a program's words say to a shop: where it goes, with which tool, spindle and feed. It reads more words than camtool
takes (arcs, cycles, inches, steps), so that a program that camtool refuses can be told too; it judges nothing.

Lengths are Decimals in millimetres. A line that moves by G28, G30 or G53 goes to a place of the machine, and is left out.
"""
import re
from decimal import Decimal, InvalidOperation

from camtool import cutters

# The words of group 1 that move, and how.
MODES = {"G0": "rapid", "G1": "feed", "G2": "feed", "G3": "feed", **{f"G{it}": "feed" for it in (73, 81, 82, 83, 84, 85, 86, 87, 88, 89)}}
ARCS, CYCLES = ("G2", "G3"), ("G73", "G81", "G82", "G83", "G84", "G85", "G86", "G87", "G88", "G89")
INCH = Decimal("25.4")


def spelled(letter, number):
    """Returns a G or M word in one spelling, `G01` as `G1`."""
    return f"{letter}{number.normalize():f}" if number else f"{letter}0"


def parts_of(line):
    """Returns a program's line, bytes, in its words, as pairs of a letter and a Decimal, and its comments."""
    text = line.decode("latin-1")
    comments = re.findall(r"\(([^()]*)\)?", text)
    bare, _, behind = re.sub(r"\([^()]*\)?", " ", text).partition(";")
    words = []
    for letter, number in re.findall(r"([A-Z])([-+]?(?:\d+\.?\d*|\.\d+))", re.sub(r"[ \t\r]", "", bare).upper()):
        try:
            words.append((letter, Decimal(number)))
        except InvalidOperation:
            pass
    return words, [it for it in (*comments, behind) if it.strip()]


class Facts:
    """What the text of a program says. Lines are counted from 1; a line is None where there is no such.

    moves, feeds     how many lines move, and how many of them feed
    low, high        the box of all places that it names, each a list of x, y, z; None where an axis isn't named
    cut_low, cut_high  the same of where it feeds
    first            the x and y, and the z, that it names first, as a list with None
    level            the highest z of a feed that goes sideways, or None
    decimals         the most digits behind the point of a coordinate
    unit             "mm", "inch" or None: what it says
    tools            pairs of a T's number and its line; `changes` those of an M6
    told             pairs of the Tool of a comment and its line; `named` the numbers of tools in comments
    spindle_line, first_feed, still   the lines of the first M3 or M4, of the first feed; that of the feed before which the
                     spindle isn't turning
    stop_line        the line of the last M5 (or M0, M1, M6) before that feed
    speeds, rates    the values of S, and of F in mm/min; unfed the line of a feed before any F
    words            the words for which others are sorry: "G91", "arcs", "cycles", as a set
    ends             whether an M2 or M30 is there
    is_freecad       whether a comment says that FreeCAD wrote it
    """

    def __init__(self, text):
        self.moves = self.feeds = self.decimals = 0
        self.low, self.high = [None] * 3, [None] * 3
        self.cut_low, self.cut_high = [None] * 3, [None] * 3
        self.first, self.level, self.unit = [None] * 3, None, None
        self.tools, self.changes, self.told, self.named = [], [], [], []
        self.spindle_line = self.spindle_word = self.first_feed = self.still = self.stop_line = self.last_stop = self.unfed = None
        self.speeds, self.rates, self.words, self.ends = [], [], set(), False
        self.is_freecad = b"exported by freecad" in text[:2000].lower()
        self.mode, self.here, self.turning, self.scale, self.in_steps = None, [None] * 3, False, Decimal(1), False
        for number, line in enumerate(text.split(b"\n"), 1):
            words, comments = parts_of(line)
            self.read_comments(number, comments)
            if self.read_line(number, words):
                break

    def read_comments(self, number, comments):
        """Takes in a line's comments."""
        for text in comments:
            tool = cutters.told(text)
            if tool:
                self.told.append((tool, number))
            if re.search(r"\bM0?6\b", text, re.I) and cutters.number_in(text) is not None:
                self.named.append(cutters.number_in(text))

    def read_line(self, number, words):
        """Takes in a line's words; returns whether the program ends there."""
        codes = [spelled(*it) for it in words if it[0] in "GM"]
        self.read_codes(number, codes, words)
        for letter, value in words:
            if letter == "T":
                self.tools.append((int(value), number))
            elif letter == "S" and "G4" not in codes:
                self.speeds.append(value)
            elif letter == "F":
                self.rates.append(value * self.scale)
        places = {"XYZ".index(letter): value for letter, value in words if letter in "XYZ"}
        # (a whole turn needs no end)
        is_turn = self.mode in ARCS and any(letter in "IJK" for letter, _ in words)
        if (places or is_turn) and self.mode and not {"G28", "G30", "G53", "G92", "G10", "G4"} & set(codes):
            self.read_move(number, places, dict(words))
        self.read_stops(number, codes)
        return self.ends

    def read_codes(self, number, codes, words):
        """Takes in a line's G words, and its M words but for those that stop."""
        for code in codes:
            if code in MODES or code == "G80":
                self.mode = code if code in MODES else self.mode if any(it in MODES for it in codes) else None
                self.words |= {"arcs"} if code in ARCS else {"cycles"} if code in CYCLES else set()
            elif code in ("G20", "G70"):
                self.unit, self.scale = "inch", INCH
            elif code in ("G21", "G71"):
                self.unit, self.scale = self.unit or "mm", Decimal(1)
            elif code in ("G90", "G91"):
                self.in_steps = code == "G91"
            elif code in ("M3", "M4"):
                self.turning, self.spindle_line, self.spindle_word = True, self.spindle_line or number, self.spindle_word or code
            elif code == "M6":
                self.changes.append(number)

    def read_stops(self, number, codes):
        """Takes in the words of a line that act behind its move: those that stop the spindle, and those that end."""
        stops = [it for it in codes if it in ("M5", "M0", "M1")] or (["M6"] if "M6" in codes and not {"M3", "M4"} & set(codes) else [])
        if stops:
            self.turning, self.last_stop = False, number
        self.ends = self.ends or "M2" in codes or "M30" in codes

    def read_move(self, number, places, others):
        """Takes in the end of a move; `others` are the line's words."""
        kind, self.moves = MODES[self.mode], self.moves + 1
        goal = list(self.here)
        for axis, value in places.items():
            self.decimals = max(self.decimals, -value.as_tuple().exponent)
            goal[axis] = value * self.scale + (self.here[axis] or 0 if self.in_steps else 0)
            self.first[axis] = goal[axis] if self.first[axis] is None else self.first[axis]
        self.words |= {"G91"} if self.in_steps else set()
        self.widen(self.low, self.high, goal)
        if kind == "feed":
            self.read_feed(number, places, goal)
        if self.mode in CYCLES and "R" in others and not self.in_steps:
            goal[2] = others["R"] * self.scale
        self.here = goal

    def read_feed(self, number, places, goal):
        """Takes in the end of a feed."""
        self.feeds, self.first_feed = self.feeds + 1, self.first_feed or number
        self.unfed = self.unfed or (None if any(self.rates) else number)
        if not self.turning and self.still is None:
            self.still, self.stop_line = number, self.last_stop
        for place in (goal,) if self.mode in CYCLES else (self.here, goal):
            self.widen(self.cut_low, self.cut_high, place)
        is_sideways = any(axis in places and goal[axis] != self.here[axis] for axis in (0, 1))
        if is_sideways and self.mode not in CYCLES and goal[2] is not None:
            self.level = goal[2] if self.level is None else max(self.level, goal[2])

    @staticmethod
    def widen(low, high, place):
        """Makes a box as large as it takes for a place to lie in it."""
        for axis, value in enumerate(place):
            if value is not None:
                low[axis] = value if low[axis] is None else min(low[axis], value)
                high[axis] = value if high[axis] is None else max(high[axis], value)

    @property
    def numbers(self):
        """The numbers of its tools, each once, in their order: of its T words, or else of its comments."""
        # (T0 is no tool: it empties the spindle)
        return list(dict.fromkeys([it for it, _ in self.tools if it] or self.named))

    @property
    def comments(self):
        """The Tools that its comments tell."""
        return [it for it, _ in self.told]
