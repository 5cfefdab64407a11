"""The numbers of a job: what each is, and how it is found from the part's box, the programs' words and the tool.

KEYS is the one table of the keys that camtool-new writes; a further key is a further row, and a method of Setup.
"""
import collections
from decimal import ROUND_CEILING, ROUND_FLOOR, Decimal
from functools import cached_property

from camtool import cutters, parts
from camtool.cutters import short

# How deep a program may cut the part where nobody says it, in millimetres. A path that slides along a wall touches it, to the
# rounding of the program's places, the part's corners and its facets, and without an overcut a touch is refused.
OVERCUT = {"hundredth": Decimal("0.05"), "thousandth": Decimal("0.015")}
# How many units a millimetre has; the greatest coordinate, the greatest distance and the greatest overcut, in millimetres.
UNITS = {"hundredth": 100, "thousandth": 1000}
REACH = {"hundredth": Decimal("1310.71"), "thousandth": Decimal("524.287")}
WIDEST = {"hundredth": Decimal(100), "thousandth": Decimal(10)}
DEEPEST = {"hundredth": Decimal(5), "thousandth": Decimal("0.5")}
# The pitches that are tried, in millimetres, the finest last; the most columns of a job, and as many as answer quickly.
PITCHES = [Decimal(it) for it in "5 4 2.5 2 1.5 1 0.8 0.5 0.4 0.3 0.25 0.2 0.15 0.1 0.08 0.05 0.04 0.02 0.01".split()]
COLUMNS, QUICK = 4_000_000, 300_000
# What is taken where nobody says it, in millimetres.
ALLOWANCE, BAND, ROUGH_STOCK, LIFT, OVER = (Decimal(it) for it in ("0.1", "0.1", "0.3", "0.05", "5"))
# FreeCAD's clearance height is so much over its stock, unless its user changed it.
FREECAD = Decimal(5)

# What is found for a key: a text, a length in millimetres, or a list of them; why; and whether it is a guess.
Value = collections.namedtuple("Value", "value why is_guess", defaults=("", False))
# A key of the job: its name, how its value is written, and the name of what finds it in a Setup.
Key = collections.namedtuple("Key", "name kind find")

# Every key that is written, in the order of the file. A further key is a further row, and a method of Setup that returns
# its Value, or None where the key is left out. Of the kinds `near`, `low` and `high` are lengths, rounded to the nearest
# unit, down or up; `places` are several lengths, `boxes` several boxes, rounded so that they hold what was measured;
# `whole`, `text` and `truth` are written as they are.
KEYS = (
    Key("unit", "text", "find_unit"),
    Key("cutter", "text", "find_cutter"),
    Key("radius", "low", "find_radius"),
    Key("rise", "whole", "find_rise"),
    Key("run", "whole", "find_run"),
    Key("holder_radius", "high", "find_holder_radius"),
    Key("stickout", "low", "find_stickout"),
    Key("floor", "low", "find_floor"),
    Key("top", "high", "find_top"),
    Key("clear", "high", "find_clear"),
    Key("area", "places", "find_area"),
    Key("home", "places", "find_home"),
    Key("pitch", "near", "find_pitch"),
    Key("sample", "near", "find_sample"),
    Key("allowance", "near", "find_allowance"),
    Key("band", "high", "find_band"),
    Key("overcut", "low", "find_overcut"),
    Key("keep_out", "boxes", "find_keep_out"),
    Key("rapids", "text", "find_rapids"),
    Key("start", "text", "find_start"),
    Key("spindle", "truth", "find_spindle"),
    Key("words", "text", "find_words"),
    Key("slack", "low", "find_slack"),
    Key("arc_tol", "whole", "find_arc_tol"),
    Key("layer", "near", "find_layer"),
    Key("rough_stock", "near", "find_rough_stock"),
    Key("max_cut", "near", "find_max_cut"),
    Key("raster", "near", "find_raster"),
    Key("lift", "near", "find_lift"),
)
STEP_KEYS = KEYS[1:5]


def rounded(value, step, way):
    """Returns the multiple of a step that is nearest to a value, or next to it on one side."""
    return (value / step).to_integral_value(way) * step


class Setup:
    """What is cut, by which tools and programs; and, from that, each number of the job. Lengths are Decimals in millimetres.

    `low` and `high` are the part's box, `triangles` its triangles; `programs` a list of Facts, `names` their files; `tools`
    a Tool for each program (of a plan one), `choices` a sentence or "" for each, on how it was chosen; `asked` has the
    options, as Asked does."""

    def __init__(self, triangles, names, programs, tools, choices, asked):
        self.triangles, (self.low, self.high) = triangles, parts.box_of(triangles)
        self.names, self.programs, self.tools, self.choices, self.asked = names, programs, tools, choices, asked
        self.is_plan = not programs

    # ---- the unit and the tools

    @cached_property
    def farthest(self):
        """The greatest coordinate of part and programs."""
        places = [self.low, self.high, *(box for it in self.programs for box in (it.low, it.high))]
        return max(abs(it) for place in places for it in place if it is not None)

    @cached_property
    def unit(self):
        """The job's unit: thousandths where they are wanted, and part and tools are small enough."""
        is_wide = any(it.diameter > 2 * WIDEST["thousandth"] for it in self.tools)
        is_far = self.farthest + 10 > REACH["thousandth"] or self.allowance > WIDEST["thousandth"]
        return "thousandth" if self.wants_thousandths and not is_wide and not is_far else "hundredth"

    @property
    def wants_thousandths(self):
        """Whether a program has three decimals, or a tool's radius is no whole hundredth."""
        return any(it.decimals > 2 or it.unit == "inch" for it in self.programs) or any(it.diameter * 50 % 1 for it in self.tools)

    @property
    def least(self):
        """One unit."""
        return Decimal(1) / UNITS[self.unit]

    def find_unit(self):
        """What one unit is."""
        if self.unit == "hundredth":
            return Value("hundredth", "lengths are hundredths of a millimetre")
        return Value("thousandth", "lengths are thousandths of a millimetre, as the program has three decimals" if self.programs else "lengths are thousandths of a millimetre")

    @property
    def tool(self):
        """The job's own tool: that of the first program."""
        return self.tools[0]

    def radius_of(self, tool):
        """A tool's radius as the job has it: its own, to a whole unit, so that the judged cutter holds it."""
        return rounded(tool.diameter / 2, self.least, ROUND_CEILING)

    @cached_property
    def radius(self):
        """The radius of the job's own tool."""
        return self.radius_of(self.tool)

    def find_cutter(self):
        """The cutter's form, and in the comment the tool."""
        more = "; list.toml has each program's own" if len(self.tools) > 1 else ""
        return Value(cutters.form_of(self.tool), cutters.called(self.tool) + more, bool(self.choices[0]))

    def find_radius(self):
        """The cutter's radius."""
        return Value(self.radius, f"half of {short(self.tool.diameter)} mm" + ("" if 2 * self.radius == self.tool.diameter else ", rounded up"))

    def slope(self):
        """The rise and the run of a cone; None of other forms."""
        return cutters.slope_of(self.tool.angle) if cutters.form_of(self.tool) == "cone" else None

    def find_rise(self):
        """How much a cone rises over each run."""
        is_guess = any(it.startswith("guessed") for it in self.tool.doubts)
        return self.slope() and Value(self.slope()[0], f"{short(self.tool.angle)} degrees between its sides: the nearest slope that is as blunt or blunter,", is_guess)

    def find_run(self):
        """The run of a cone."""
        return self.slope() and Value(self.slope()[1], "so that the judged cone holds the whole tool, and what passes the part is true of the tool")

    # ---- what holds the tool

    @cached_property
    def holder(self):
        """The widest holder and the least stickout of the tools that have one; None where none has, or it is too wide."""
        found = [it for it in map(cutters.holder_of, self.tools) if it]
        if not found:
            return None
        wide, out = max(it[0] for it in found) / 2, min(it[1] for it in found)
        return (wide, out) if max(map(self.radius_of, self.tools)) < wide <= WIDEST[self.unit] else None

    def find_holder_radius(self):
        """The holder's radius, where the table has a holder."""
        return self.holder and Value(self.holder[0], "half the width of what holds the tool, by the table")

    def find_stickout(self):
        """How far the holder is over the tip, where the table has a holder."""
        return self.holder and Value(self.holder[1], "how far the tool stands out, by the table")

    # ---- the stock

    @cached_property
    def stock(self):
        """The stock's least and greatest corner, and a sentence where it was guessed."""
        given = self.asked.stock
        if len(given) == 6:
            return given[:3], given[3:], ""
        if len(given) == 3:
            middle = [(self.low[axis] + self.high[axis]) / 2 for axis in (0, 1)]
            low = [*(middle[axis] - given[axis] / 2 for axis in (0, 1)), self.low[2]]
            return low, [low[axis] + given[axis] for axis in range(3)], "the part lies in the middle of the stock, on its underside"
        if given:
            return [it - given[0] for it in self.low], [it + given[0] for it in self.high], ""
        return self.guessed_stock

    @cached_property
    def guessed_stock(self):
        """The stock where nobody says it: FreeCAD's by its clearance height; else the part's box, up to the highest cut."""
        highest = [it.high[2] for it in self.programs if it.high[2] is not None]
        over = min(highest) - FREECAD - self.high[2] if highest else Decimal(-1)
        if 0 <= over <= FREECAD and any(it.is_freecad for it in self.programs):
            size = f"{short(over)} mm larger than the part" if over else "as large as the part"
            why = f"as FreeCAD's clearance height is {short(FREECAD)} mm over its stock: {size}"
            return [it - over for it in self.low], [it + over for it in self.high], why
        levels = [it.level for it in self.programs if it.level is not None and it.level > self.high[2]]
        high = [*self.high[:2], max([self.high[2], *levels])]
        return list(self.low), high, "up to the highest cut of the program" if levels else "as large as the part"

    def find_top(self):
        """The height of the uncut stock."""
        why = f"the stock's top, {short(self.stock[1][2])} mm, and a little"
        return Value(self.stock[1][2] + Decimal("0.01"), self.with_guess(why), bool(self.stock[2]))

    def with_guess(self, why):
        """A sentence with what was guessed of the stock behind it."""
        return f"{why}; {self.stock[2]}; --stock sets it" if self.stock[2] else why

    @cached_property
    def floor(self):
        """The lower one of the part's underside and the programs' lowest Z."""
        return min([self.low[2], *(it.low[2] for it in self.programs if it.low[2] is not None)])

    def find_floor(self):
        """The height under which no tip goes."""
        if self.floor == self.low[2]:
            return Value(self.floor, "the part's underside; what isn't part is cut down to here")
        return Value(self.floor, f"the lowest Z of the programs; the part's underside is at {short(self.low[2])} mm")

    @cached_property
    def clear(self):
        """The height at which a program starts, and whether that is a guess."""
        highest = [it.high[2] for it in self.programs if it.high[2] is not None]
        top = rounded(max(self.stock[1][2] + Decimal("0.01"), self.highest_box or self.stock[1][2]), self.least, ROUND_CEILING)
        return (max(highest), False) if highest and max(highest) >= top else (top + OVER, True)

    def find_clear(self):
        """The height at which a program starts."""
        value, is_guess = self.clear
        if is_guess:
            over = f"{short(OVER)} mm over the stock" + (" and what stands on the table" if self.asked.keep_out else "")
            return Value(value, over if self.is_plan else f"{over}; no Z of the programs is over it", True)
        return Value(value, "the highest Z of the programs; the tip stands there, over `home`, before the first line with X, Y or Z")

    def find_home(self):
        """Where a program starts."""
        if self.is_plan:
            return Value([Decimal(0)] * 2, "where the plan starts and ends, at `clear`", True)
        first = self.programs[0].first[:2]
        which = "the first program" if len(self.programs) > 1 else "the program"
        return Value([it or Decimal(0) for it in first], f"where {which} goes first, so that it may start from any place at `clear`")

    # ---- the columns

    @cached_property
    def wanted_area(self):
        """The least box in x and y that the columns are to fill: the stock; of a plan also part and radius."""
        low, high = self.stock[0][:2], self.stock[1][:2]
        if self.is_plan:
            low = [min(low[it], self.low[it] - self.radius) for it in (0, 1)]
            high = [max(high[it], self.high[it] + self.radius) for it in (0, 1)]
        return low, high

    def sides(self, pitch):
        """How many pitches the area has along x and y."""
        low, high = self.wanted_area
        return [max(int(((high[it] - low[it]) / pitch).to_integral_value(ROUND_CEILING)), 1) for it in (0, 1)]

    def columns(self, pitch):
        """How many columns a pitch makes."""
        along, rows = self.sides(pitch)
        return (along + 1) * (rows + 1)

    @cached_property
    def pitch(self):
        """The distance of the columns."""
        most = min([Decimal("0.5") if self.is_plan else Decimal("0.2"), *(self.radius_of(it) / 4 for it in self.tools)])
        tools = [it for it in self.tools if cutters.form_of(it) == "cone"]
        most = min([most, *(Decimal("0.14") * run / rise for rise, run in (cutters.slope_of(it.angle) for it in tools))])
        fits = [it for it in PITCHES if self.columns(it) <= COLUMNS]
        fine = [it for it in fits if it <= most]
        if not fine:
            return fits[-1]
        quick = [it for it in fine if self.columns(it) <= QUICK]
        if self.is_plan or not quick:
            return fine[0]
        # (one that divides the stock's sides, if it isn't much coarser, so that the columns end where the stock does)
        low, high = self.wanted_area
        even = [it for it in quick if it <= 2 * quick[-1] and not any((high[at] - low[at]) % it for at in (0, 1))]
        return (even or quick)[-1]

    def find_pitch(self):
        """The distance of the columns."""
        most = min(map(self.radius_of, self.tools)) / 4
        why = f"{self.columns(self.pitch):,} columns of stock; beside a cut edge a rapid may cut as far unseen"
        if self.pitch > most:
            why += f"; over a quarter of the radius, since a job has at most {COLUMNS:,} columns"
        return Value(self.pitch, why)

    def find_sample(self):
        """The distance of a move's samples."""
        return Value(self.pitch, "how far apart the cut stock is reckoned along a move")

    @cached_property
    def reach(self):
        """How far the area comes out of the wanted one, at most."""
        low, high = self.wanted_area
        return max((side * self.pitch - (high[it] - low[it])) / 2 for it, side in enumerate(self.sides(self.pitch)))

    def find_area(self):
        """The columns' box: sides of whole pitches that hold the wanted one."""
        low, high = self.wanted_area
        starts, ends = [], []
        for axis, side in enumerate(self.sides(self.pitch)):
            over = side * self.pitch - (high[axis] - low[axis])
            start = rounded(low[axis] - over / 2, self.least, ROUND_FLOOR)
            if start + side * self.pitch < high[axis]:
                side += 1
            starts.append(start)
            ends.append(start + side * self.pitch)
        why = "the stock, and the part with the cutter beside it" if self.is_plan else "the stock from above"
        more = ", as guessed for `top`" if self.stock[2] else ""
        return Value([*starts, *ends], f"{why}, in whole pitches{more}", bool(self.stock[2]))

    # ---- what may be left

    @cached_property
    def allowance(self):
        """How much may be left over the part."""
        return self.asked.allowance if self.asked.allowance is not None else ALLOWANCE

    @cached_property
    def through(self):
        """How far drills and cones come out under the part: their points leave more than the allowance over the floor."""
        is_pointed = any(it.kind in ("drill", "cone") for it in self.tools)
        return self.low[2] - self.floor if is_pointed and self.floor < self.low[2] else Decimal(0)

    def find_allowance(self):
        """How much may be left over part and floor."""
        why = "how much may be left standing over part and floor"
        value = rounded(self.allowance, self.least, ROUND_CEILING)
        return Value(min(value, WIDEST[self.unit]), why + ("" if self.asked.allowance is not None else "; --allowance sets it"), self.asked.allowance is None)

    @cached_property
    def has_corners(self):
        """Whether the cutter can't come into some corner of the part: a ball and a cone never do, where a wall meets a floor."""
        return all(cutters.form_of(it) != "flat" for it in self.tools) or parts.has_corners(self.triangles)

    def find_band(self):
        """How near a part point covers a column."""
        most = min(self.radius_of(it) for it in self.tools)
        if self.asked.band is not None:
            return Value(min(self.asked.band, most), "stock left so near to a wall isn't judged")
        if self.has_corners:
            return Value(min(rounded(most / 3, self.least, ROUND_CEILING), most), "a third of the smallest radius, since a round cutter can't come into inner corners; stock left so near to a wall isn't judged; --band sets it", True)
        wanted = max(BAND, rounded(self.reach * 3 / 2, self.least, ROUND_CEILING))
        return Value(min(wanted, most), "stock left so near to a wall isn't judged; --band sets it", True)

    # ---- how deep the part may be cut

    @cached_property
    def overcut(self):
        """How deep a program may cut the part: what is asked for, or as much as sliding paths take, if a job takes that."""
        # (what the machine may be off comes into the part too)
        strays = self.share * self.least if self.has_machine_words else 0
        wanted = OVERCUT[self.unit] + strays if self.asked.overcut is None else self.asked.overcut
        most = min(map(self.radius_of, self.tools)) - self.least
        return rounded(min(wanted, most, DEEPEST[self.unit]), self.least, ROUND_FLOOR)

    def find_overcut(self):
        """How deep a program may cut the part. A plan keeps off it, and takes none."""
        if self.is_plan or not self.overcut:
            return None
        why, is_asked = "how far the tool may come into the part", self.asked.overcut is not None
        return Value(self.overcut, why if is_asked else f"{why}, as by a path that slides along a wall; --overcut sets it", not is_asked)

    # ---- what stands on the machine, and how programs start

    @cached_property
    def highest_box(self):
        """The greatest height of what stands on the machine, or None."""
        return max((it[4] for it in self.asked.keep_out), default=None)

    def find_keep_out(self):
        """What stands on the machine, where that is said."""
        return Value(self.asked.keep_out, "what cutter and holder keep out of: clamps, vice, pins") if self.asked.keep_out else None

    def find_rapids(self):
        """How the machine goes on a rapid, where that is said."""
        return Value(self.asked.rapids, "how rapids go: straight, or each axis at its own speed") if self.asked.rapids else None

    def find_start(self):
        """From where a program starts, where that is said."""
        start = self.asked.start or ("anywhere" if self.has_machine_words else None)
        return Value(start, "from where a program starts") if start else None

    def find_spindle(self):
        """Whether each feed needs a spindle that turns, where that is asked for."""
        return Value("true", "no feed before M3 or M4, an S over 0 and an F over 0") if self.asked.spindle else None

    # ---- which words programs have

    @property
    def has_machine_words(self):
        """Whether programs are read in machine words."""
        return self.asked.words == "machine"

    def find_words(self):
        """Which words programs have, where that is said."""
        return Value(self.asked.words, "which words programs have: the short table's, or those that posts write") if self.asked.words else None

    @property
    def arc_tol(self):
        """By how many units the radii of an arc may differ: as much as the usual decimals make them, in inches four."""
        is_inches = any(it.unit == "inch" for it in self.programs)
        return 1 if self.unit == "hundredth" else 8 if is_inches else 3

    @property
    def has_arcs(self):
        """Whether a program has arcs that are read."""
        return self.has_machine_words and any("arcs" in it.words for it in self.programs)

    @property
    def share(self):
        """How many units of the slack the programs' numbers take: 3, or of an arc `arc_tol` and 2."""
        return max(self.arc_tol + 2, 3) if self.has_arcs else 3

    def find_slack(self):
        """How far the machine's tip may be off: with machine words as much as the text takes."""
        what = "arcs and the rounding of the programs' numbers take" if self.has_arcs else "the rounding of the program's numbers takes"
        return Value(self.share * self.least, f"what {what}; more where the machine strays, or G64 has a P", True) if self.has_machine_words else None

    def find_arc_tol(self):
        """By how many units the radii of an arc may differ, where it isn't the job's default."""
        is_usual = self.arc_tol == (1 if self.unit == "hundredth" else 3)
        return Value(self.arc_tol, "by how much four decimals of an inch make an arc's radii differ", True) if self.has_arcs and not is_usual else None

    # ---- what a plan takes

    def find_layer(self):
        """A plan's layer, where one is asked for."""
        return Value(self.asked.layer, "how much roughing takes off at a time") if self.asked.layer else None

    def find_rough_stock(self):
        """What a plan's roughing leaves."""
        return Value(ROUGH_STOCK, "what roughing leaves over the part", True) if self.asked.layer else None

    def find_max_cut(self):
        """How deep a plan's feeds cut at a time."""
        return Value(self.asked.layer + ROUGH_STOCK, "the layer and what roughing leaves: no feed cuts deeper", True) if self.asked.layer else None

    def find_raster(self):
        """How far apart a plan's rows are."""
        if not self.is_plan:
            return None
        if cutters.form_of(self.tool) == "flat":
            return Value(self.pitch, "the pitch, so that the path comes to walls", True)
        return Value(max(rounded(self.radius / 3, self.pitch, ROUND_FLOOR), self.pitch), "a third of the radius", True)

    def find_lift(self):
        """How much a plan leaves over the part."""
        return Value(min(LIFT, self.allowance), "what finishing leaves; a feed that touches the part all along is refused", True) if self.is_plan else None
