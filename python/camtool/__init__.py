"""camtool's proved calls, from Python.

Lengths are whole units of the caller's choice: 0.01 mm or 0.001 mm are those of camtool's own texts.
A coordinate's magnitude is at most MAX_COORDINATE.

An array is anything with the buffer protocol whose elements are whole numbers of 32 bits, in C's
order: array.array('i', ..), a memoryview, a ctypes array, a numpy array of int32. Its shape may be
any, so long as it has as many numbers as are asked for. One that may be written is passed as it
stands, and one that may only be read is copied first. A list is none: array.array('i', list) is.
A text is bytes, or another array of bytes, and no str.

Each call tests its arguments and raises an exception of one class for each cause, a CamtoolError;
an array for results is then as it was. No call keeps anything for the next one. A call lets other
threads run meanwhile, which must not write the arrays that it was given, nor read those that it
writes.

The shared library is that of tools/library, or the one that the environment's CAMTOOL_LIBRARY names. It is loaded
when the first call is made, which raises an ImportError where there is none. The package's other modules, which are
the commands camtool-where, camtool-job and so on, don't need it.
"""
import array
import ctypes
import operator
import os
import typing

from camtool.version import __version__

__all__ = [
    "MAX_COORDINATE", "BadArray", "BadCoordinate", "BadCutter", "BadFiber", "BadFloor", "BadHeight", "BadHolder", "BadJob",
    "BadLattice", "BadPlace", "BadProgram", "BadSnap", "BadText", "BadTriangle", "BadUnit", "BadWord", "CamtoolError",
    "Chain", "CutShort", "Held", "HighPart", "JobKind", "JobMissing", "JobRange", "JobRelation", "JobSyntax",
    "JobUnknown", "LongText", "NoMemory", "Part", "Runs", "TooManyMoves", "TooManyNodes", "TooManyTriangles", "Tool",
    "Uncut", "Verdict", "WrongCountsRoom", "WrongRoom", "ball", "cone", "drop_heights", "drop_map", "flat", "plan",
    "read_part", "runs", "verify", "waterline",
]

# The greatest magnitude of a coordinate, and of a floor.
MAX_COORDINATE = 524_287


class CamtoolError(Exception):
    """Why a call answers nothing. `status` is that of include/camtool.h; None where C has no such cause."""

    status = None


class BadArray(CamtoolError, TypeError):
    """An array isn't one of whole numbers of 32 bits in C's order, or a text's none of bytes, has a number too many or
    too few, can't be written, or overlaps another."""


class NoMemory(CamtoolError, MemoryError):
    """There was not enough memory."""

    status = 1


class BadCutter(CamtoolError, ValueError):
    """The cutter is of no kind, or its radius or its slope is out of range."""

    status = 2


class BadHolder(CamtoolError, ValueError):
    """The holder's radius or its stickout is out of range."""

    status = 3


class BadTriangle(CamtoolError, ValueError):
    """A coordinate of a triangle is out of range."""

    status = 4


class TooManyTriangles(CamtoolError, ValueError):
    """There are more triangles than 32 bits number."""

    status = 5


class BadPlace(CamtoolError, ValueError):
    """A coordinate of a place is out of range."""

    status = 6


class BadFloor(CamtoolError, ValueError):
    """The floor is out of range."""

    status = 7


class WrongRoom(CamtoolError, ValueError):
    """The array for the results is not as long as they are many."""

    status = 8


class BadUnit(CamtoolError, ValueError):
    """The number of the unit is neither 2 nor 3."""

    status = 9


class BadSnap(CamtoolError, ValueError):
    """The number that says how a coordinate between two units is read is neither 0 nor 1."""

    status = 10


class BadText(CamtoolError, ValueError):
    """A part's or a program's text is refused. `line` is that of its first fault, counted from 1."""

    line = None


class BadWord(BadText):
    """A word of a part's text is another one than the form has there."""

    status = 11


class BadCoordinate(BadText):
    """A word in a coordinate's place of a part's text is refused as a decimal."""

    status = 12


class LongText(BadText):
    """A part's text has more than 200,000 triangles."""

    status = 13


class CutShort(BadText):
    """A part's text ends before its first solid, or within a solid."""

    status = 14


class BadFiber(CamtoolError, ValueError):
    """A number of a fiber is out of range, or its first position is after its last."""

    status = 15


class WrongCountsRoom(CamtoolError, ValueError):
    """The array for the counts is not as long as the fibers are many."""

    status = 16


class BadJob(CamtoolError, ValueError):
    """A job's text is refused."""


class JobSyntax(BadJob):
    """A job's text is no TOML document, or isn't UTF-8."""

    status = 17


class JobUnknown(BadJob):
    """A job's text has a key that no job has."""

    status = 18


class JobMissing(BadJob):
    """A job's text lacks a key."""

    status = 19


class JobKind(BadJob):
    """The value at a key of a job's text is of another type."""

    status = 20


class JobRange(BadJob):
    """The value at a key of a job's text is out of its range."""

    status = 21


class JobRelation(BadJob):
    """The values at two keys of a job's text don't fit together."""

    status = 22


class HighPart(CamtoolError, ValueError):
    """The part's greatest height is over the job's top. `height` is that height, in the job's unit."""

    status = 23
    height = None


class BadProgram(BadText):
    """A program's text is refused."""

    status = 24


class BadHeight(CamtoolError, ValueError):
    """The height of a waterline is out of range."""

    status = 25


class BadLattice(CamtoolError, ValueError):
    """An end of the lattice is out of range, its ends are the wrong way round, or its step is under a unit."""

    status = 26


class TooManyNodes(CamtoolError, ValueError):
    """The lattice, or one that the paths of a plan go over, has more than 4,000,000 nodes. `nodes` is how many the
    plan's has."""

    status = 27
    nodes = None


class TooManyMoves(CamtoolError, ValueError):
    """The plan has more than 1,000,000 moves."""

    status = 28


class Uncut(CamtoolError, ValueError):
    """The plan leaves a column of the stock higher than it may. `row` and `column` are its numbers, counted from 0, and
    `top` is its top, in the job's unit."""

    status = 29
    row = column = top = None


class Held(CamtoolError, ValueError):
    """On a move of the plan the holder would touch what the moves before it left of a column. `move`, `row` and `column`
    are their numbers, counted from 0."""

    status = 30
    move = row = column = None


_ERRORS = {error.status: error for error in (
    NoMemory, BadCutter, BadHolder, BadTriangle, TooManyTriangles, BadPlace, BadFloor, WrongRoom, BadUnit, BadSnap,
    BadWord, BadCoordinate, LongText, CutShort, BadFiber, WrongCountsRoom, JobSyntax, JobUnknown, JobMissing, JobKind,
    JobRange, JobRelation, HighPart, BadProgram, BadHeight, BadLattice, TooManyNodes, TooManyMoves, Uncut, Held)}


# The structs of include/camtool.h, by the same names.
class _Triangle(ctypes.Structure):
    _fields_ = [("corners", ctypes.c_int32 * 9)]


class _Place(ctypes.Structure):
    _fields_ = [("x", ctypes.c_int32), ("y", ctypes.c_int32)]


class _Tool(ctypes.Structure):
    _fields_ = [(name, ctypes.c_int32) for name in (
        "kind", "radius", "rise", "run", "holder_radius", "stickout")]


class _Reading(ctypes.Structure):
    _fields_ = [(name, ctypes.c_uint64) for name in ("triangles", "rounded", "line")]


class _Fiber(ctypes.Structure):
    _fields_ = [(name, ctypes.c_int32) for name in ("axis", "at", "z", "first", "last")]


class _Run(ctypes.Structure):
    _fields_ = [("first", ctypes.c_int32), ("last", ctypes.c_int32)]


class _Lattice(ctypes.Structure):
    _fields_ = [(name, ctypes.c_int32) for name in ("x0", "y0", "x1", "y1", "step")]


class _Point(ctypes.Structure):
    _fields_ = [(name, ctypes.c_int32) for name in ("x", "y", "z")]


class _Chain(ctypes.Structure):
    _fields_ = [("points", ctypes.c_uint64), ("closed", ctypes.c_uint64)]


class _Counts(ctypes.Structure):
    _fields_ = [("chains", ctypes.c_uint64), ("points", ctypes.c_uint64)]


class _Planned(ctypes.Structure):
    _fields_ = [(name, ctypes.c_uint64) for name in ("bytes", "moves", "columns", "nodes", "at", "line")] + [
        (name, ctypes.c_int32) for name in ("most_left", "top", "height")] + [
        (name, ctypes.c_uint32) for name in ("row", "column")]


class Chain(typing.NamedTuple):
    """A chain of a waterline: whether its last point is joined to its first, and an array.array('i') of 3 numbers
    for each point: x, y and z."""

    closed: bool
    points: array.array


class _Verdict(ctypes.Structure):
    _fields_ = [(name, ctypes.c_int32) for name in ("test", "most_left", "top", "height")] + [
        (name, ctypes.c_uint32) for name in ("triangle", "row", "column", "depth")] + [
        (name, ctypes.c_uint64) for name in ("leaf", "at", "moves", "columns", "line")] + [("fixture", ctypes.c_uint32)]


# The names of the tests that enum camtool_test numbers, from 1.
_TESTS = dict(enumerate(("floor", "gouge", "holder", "rapid", "cut", "holder-stock", "left", "fixture", "holder-fixture"), 1))


class Verdict(typing.NamedTuple):
    """What is said of a program. What isn't told is None. Moves, triangles, rows, columns and boxes are counted from 0,
    and lengths are in the job's unit.

    accepted   whether every test passes
    test       the first test that fails: "floor", "gouge", "holder", "fixture", "holder-fixture", "rapid", "cut" or
               "holder-stock" of a move, in this order, or "left" after the last one
    move       the move that fails
    triangle   the triangle that it doesn't pass
    row        the row of the column of stock that it doesn't pass, or that is left too high
    column     its column
    leaf       a pair (d, k): the segment of the move that is blocked, from the moment k / 2^d to (k + 1) / 2^d
    top        the top of the column that is left too high
    most_left  how much is left at most on a column of an accepted program, over what covers it
    moves      how many moves an accepted program has
    columns    how many columns the stock has, where the program is accepted
    box        the box of the job's keep_out that the move doesn't pass
    """

    accepted: bool
    test: typing.Optional[str] = None
    move: typing.Optional[int] = None
    triangle: typing.Optional[int] = None
    row: typing.Optional[int] = None
    column: typing.Optional[int] = None
    leaf: typing.Optional[tuple] = None
    top: typing.Optional[int] = None
    most_left: typing.Optional[int] = None
    moves: typing.Optional[int] = None
    columns: typing.Optional[int] = None
    box: typing.Optional[int] = None


class Runs(typing.NamedTuple):
    """How many runs each fiber has, and the first and the last position of each, fiber after fiber."""

    counts: array.array
    runs: array.array


class Part(typing.NamedTuple):
    """What a part's text means: its triangles, and how many of their coordinates were rounded."""

    triangles: array.array
    rounded: int


class Tool:
    """A cutter, located by its tip, and its holder if it has one. `flat`, `ball` and `cone` make one.

    `holder` is None, or a pair: the radius of a cylinder, from 1 to 10,000, and how far its lower face
    is over the cutter's tip, from 1 to MAX_COORDINATE.
    """

    __slots__ = ("kind", "radius", "rise", "run", "holder")

    def __init__(self, kind, radius, rise=0, run=0, holder=None):
        self.kind, self.radius, self.rise, self.run = kind, radius, rise, run
        self.holder = holder

    def __repr__(self):
        words = [repr(self.radius)] + [repr(self.rise), repr(self.run)] * (self.kind == 3)
        words += [f"holder={self.holder!r}"] * (self.holder is not None)
        return f"{ {1: 'flat', 2: 'ball', 3: 'cone'}.get(self.kind, 'Tool') }({', '.join(words)})"


def flat(radius, holder=None):
    """A flat end mill; its radius is from 1 to 10,000."""
    return Tool(1, radius, holder=holder)


def ball(radius, holder=None):
    """A ball end mill; its radius is from 1 to 10,000."""
    return Tool(2, radius, holder=holder)


def cone(radius, rise, run, holder=None):
    """A cone that rises by `rise` over each `run`, both from 1 to 100 and the rise at most 16 times the
    run, until it reaches its radius, from 1 to 10,000, and then goes straight up."""
    return Tool(3, radius, rise, run, holder=holder)


def read_part(text, unit=2, snap=0):
    """Reads a part from a text of ASCII STL, of at most 200,000 triangles.

    text   bytes, or another array of bytes
    unit   how many decimals of a millimetre stand for whole units: 2 for 0.01 mm, 3 for 0.001 mm
    snap   how a coordinate between two units is read: 0 refuses it, 1 rounds it to the nearest

    It returns a Part; its triangles are an array.array('i') of 9 numbers for each, in the order of the
    text: x, y and z of each corner.
    """
    letters, count = _letters("text", text)
    numbers, told = (_number(unit, BadUnit), _number(snap, BadSnap)), _Reading()
    # The first call finds the count: it has no room for any triangle. It is the whole of a part of none.
    status = _library.camtool_read_part(letters, count, *numbers, (_Triangle * 1)(), 0, told)
    corners = array.array("i", bytes(36 * told.triangles))
    if status == WrongRoom.status:
        room = (_Triangle * told.triangles).from_buffer(corners)
        status = _library.camtool_read_part(letters, count, *numbers, room, told.triangles, told)
    _tell(status, told.line or None)
    return Part(corners, told.rounded)


def drop_heights(triangles, tool, places, floor, out=None):
    """Drop heights: for each place the least whole height, from the floor on, at which the tool with its
    tip there doesn't gouge the part, neither by its cutter nor by its holder, exactly.

    triangles  an array of shape (n, 3, 3), or of 9 n numbers in that order: x, y and z of each corner
    tool       a Tool
    places     an array of shape (m, 2), or of 2 m numbers in that order: x and y of each place
    floor      a whole number, of at most MAX_COORDINATE in magnitude
    out        an array of m numbers that may be written, to which the heights go; with none, a new
               array.array('i') of m numbers

    It returns the array with the heights, in the order of the places.
    """
    corners, triangles_count = _read("triangles", triangles, _Triangle)
    spots, places_count = _read("places", places, _Place)
    heights = array.array("i", bytes(4 * places_count)) if out is None else out
    room, heights_count = _written("out", heights, (corners, spots))
    _tell(_library.camtool_drop_heights(
        corners, triangles_count, _numbers_of(tool), spots, places_count,
        _number(floor, BadFloor), room, heights_count))
    return heights


def runs(triangles, tool, fibers):
    """Runs along fibers: for each fiber the maximal runs of whole positions from its first to its last at
    which the tool, with its tip there, gouges the part, by its cutter or by its holder, ascending, exactly.

    triangles  an array of shape (n, 3, 3), or of 9 n numbers in that order: x, y and z of each corner
    tool       a Tool
    fibers     an array of shape (m, 5), or of 5 m numbers in that order: the axis, 1 for a line along x
               and 2 for one along y; the other one of the coordinates x and y; z; the first and the last
               position along the axis

    It returns Runs: an array.array('Q') of m counts, and an array.array('i') of 2 numbers for each run.
    """
    corners, triangles_count = _read("triangles", triangles, _Triangle)
    lines, fibers_count = _read("fibers", fibers, _Fiber)
    counts, told = array.array("Q", bytes(8 * fibers_count)), ctypes.c_uint64()
    counted = (ctypes.c_uint64 * fibers_count).from_buffer(counts) if fibers_count else (ctypes.c_uint64 * 1)()

    def called(room, count):
        """Calls with this room, in runs."""
        return _library.camtool_runs(
            corners, triangles_count, _numbers_of(tool), lines, fibers_count, counted, fibers_count, room, count, told)

    # The first call finds how many runs there are: it has no room for any. It is the whole where there are none.
    status = called((_Run * 1)(), 0)
    found = array.array("i", bytes(8 * told.value))
    if status == WrongRoom.status:
        status = called((_Run * told.value).from_buffer(found), told.value)
    _tell(status)
    return Runs(counts, found)


def drop_map(triangles, tool, area, step, floor):
    """Drop heights over a lattice: those of `drop_heights` at each of its nodes.

    triangles  an array of shape (n, 3, 3), or of 9 n numbers in that order: x, y and z of each corner
    tool       a Tool
    area       x0, y0, x1 and y1: the ends of the lattice
    step       how far nodes are apart, at least 1: the positions in x are x0, x0 + step, x0 + 2 step and so on up to
               x1, and x1 itself where it isn't one of them; likewise in y
    floor      a whole number, of at most MAX_COORDINATE in magnitude

    It returns an array.array('i') with a height for each node, row by row with y ascending, and with x ascending
    along each row.
    """
    corners, triangles_count = _read("triangles", triangles, _Triangle)
    lattice, told, numbers = _lattice(area, step), ctypes.c_uint64(), _numbers_of(tool)
    floor = _number(floor, BadFloor)
    # The first call finds how many nodes there are: a lattice has one at least.
    status = _library.camtool_drop_map(corners, triangles_count, numbers, lattice, floor, (ctypes.c_int32 * 1)(), 0, told)
    heights = array.array("i", bytes(4 * told.value))
    if status == WrongRoom.status:
        room = (ctypes.c_int32 * told.value).from_buffer(heights)
        status = _library.camtool_drop_map(corners, triangles_count, numbers, lattice, floor, room, told.value, told)
    _tell(status)
    return heights


def waterline(triangles, tool, z, area, step):
    """A waterline at height z: the chains of the places between nodes of a lattice at which the tool gouges the part
    and neighbours at which it doesn't, each at the last free place before the blocked ones, which are on the left of
    the way, exactly. The way from one place to the next isn't looked at.

    triangles  an array of shape (n, 3, 3), or of 9 n numbers in that order: x, y and z of each corner
    tool       a Tool
    z          the height of the tool's tip, of at most MAX_COORDINATE in magnitude
    area, step the lattice, as in `drop_map`

    It returns a list of Chains, in the order of their first points.
    """
    corners, triangles_count = _read("triangles", triangles, _Triangle)
    lattice, told, numbers = _lattice(area, step), _Counts(), _numbers_of(tool)
    z = _number(z, BadHeight)

    def called(chains, chains_count, points, points_count):
        """Calls with this room, in chains and in points."""
        return _library.camtool_waterline(
            corners, triangles_count, numbers, z, lattice, chains, chains_count, points, points_count, told)

    # The first call finds how many there are: it has no room for any. It is the whole where there are none.
    status = called((_Chain * 1)(), 0, (_Point * 1)(), 0)
    heads, points = (_Chain * (told.chains or 1))(), array.array("i", bytes(12 * told.points))
    if status == WrongRoom.status:
        room = (_Point * told.points).from_buffer(points)
        status = called(heads, told.chains, room, told.points)
    _tell(status)
    found, start = [], 0
    for head in heads[:told.chains]:
        found.append(Chain(bool(head.closed), points[3 * start:3 * (start + head.points)]))
        start += head.points
    return found


def verify(job, part, program):
    """The verdict on a program for a job and a part, each by its text, as the command verify prints it: the first
    test that fails, or that the program is accepted, exactly.

    job      bytes, or another array of bytes: a TOML document
    part     the same: an ASCII STL, which is read in the job's unit and by its snap
    program  the same: a G-code, read from the job's home and by its rapids, start and spindle

    It returns a Verdict. Where a text is refused, an exception says why: that of the first one, in this order.
    """
    told = _Verdict()
    texts = [given for name, text in (("job", job), ("part", part), ("program", program)) for given in _letters(name, text)]
    _tell(_library.camtool_verify(*texts, told), told.line or None, height=told.height)
    if told.test == 0:
        return Verdict(True, most_left=told.most_left, moves=told.moves, columns=told.columns)
    test = _TESTS[told.test]
    if test == "left":
        return Verdict(False, test, row=told.row, column=told.column, top=told.top)
    if test == "floor":
        return Verdict(False, test, told.at)
    leaf = told.depth, told.leaf
    if test in ("gouge", "holder"):
        return Verdict(False, test, told.at, triangle=told.triangle, leaf=leaf)
    if test in ("fixture", "holder-fixture"):
        return Verdict(False, test, told.at, box=told.fixture, leaf=leaf)
    return Verdict(False, test, told.at, row=told.row, column=told.column, leaf=leaf)


def plan(job, part):
    """The text of the program that the planner writes for a job and a part, each by its text, as the command plan
    stores it. `verify` accepts it with the same two texts.

    job   bytes, or another array of bytes: a TOML document
    part  the same: an ASCII STL, which is read in the job's unit and by its snap

    It returns bytes. Where a text is refused or there is no plan, an exception says why. A job that asks for a spindle
    has none, since a plan names no feed: JobMissing.
    """
    told = _Planned()
    texts = [given for name, text in (("job", job), ("part", part)) for given in _letters(name, text)]
    # The first call finds how many bytes there are: it has no room for any. The second one plans anew.
    room = (ctypes.c_uint8 * 1)()
    status = _library.camtool_plan(*texts, room, 0, told)
    if status == WrongRoom.status:
        room = (ctypes.c_uint8 * told.bytes)()
        status = _library.camtool_plan(*texts, room, told.bytes, told)
    _tell(status, told.line or None, height=told.height, nodes=told.nodes, move=told.at, row=told.row,
          column=told.column, top=told.top)
    return bytes(room)[:told.bytes]


def _letters(name, text):
    """An array of C's bytes, of at least one, and how many were given."""
    try:
        view = memoryview(text)
    except (TypeError, ValueError):
        raise BadArray(f"{name}: no array of bytes") from None
    if view.itemsize != 1 or not view.c_contiguous:
        raise BadArray(f"{name}: no bytes in a row")
    count = view.nbytes
    if count == 0:
        return (ctypes.c_uint8 * 1)(), 0
    kinds = ctypes.c_uint8 * count
    return (kinds.from_buffer_copy if view.readonly else kinds.from_buffer)(view), count


def _tell(status, line=None, **numbers):
    """Raises the exception of a status other than 0, with the line of a text's fault and the numbers that it speaks of."""
    if status:
        error = _ERRORS[status]
        told = {} if line is None else {"line": line}
        told.update((name, number) for name, number in numbers.items() if hasattr(error, name))
        cause = " ".join(error.__doc__.split()).partition(" `")[0]
        where = ", ".join(f"{name} {number}" for name, number in told.items())
        raised = error(f"{where}: {cause}" if where else cause)
        for name, number in told.items():
            setattr(raised, name, number)
        raise raised


def _number(value, error):
    """A whole number that 32 bits hold; one that they don't is out of every range."""
    try:
        value = operator.index(value)
    except TypeError:
        raise error(f"{value!r} is no whole number") from None
    if not -(1 << 31) <= value < 1 << 31:
        raise error(error.__doc__)
    return value


def _lattice(area, step):
    """C's lattice, of an area and a step."""
    try:
        x0, y0, x1, y1 = area
    except (TypeError, ValueError):
        raise BadLattice("an area is four numbers: x0, y0, x1 and y1") from None
    x0, y0, x1, y1 = (_number(value, BadLattice) for value in (x0, y0, x1, y1))
    return _Lattice(x0, y0, x1, y1, _number(step, BadLattice))


def _numbers_of(tool):
    """C's tool, of a Tool."""
    if not isinstance(tool, Tool):
        raise BadCutter("the tool is no Tool: flat, ball and cone make one")
    cutter = [_number(value, BadCutter) for value in (tool.kind, tool.radius, tool.rise, tool.run)]
    if tool.holder is None:
        return _Tool(*cutter, 0, 0)
    try:
        radius, stickout = tool.holder
    except (TypeError, ValueError):
        raise BadHolder("a holder is two numbers: its radius and its stickout") from None
    radius, stickout = _number(radius, BadHolder), _number(stickout, BadHolder)
    if radius == 0 and stickout == 0:
        raise BadHolder(BadHolder.__doc__)
    return _Tool(*cutter, radius, stickout)


def _seen(name, value):
    """An array's numbers, where they stand in a row and have 32 bits."""
    try:
        view = memoryview(value)
    except (TypeError, ValueError):
        raise BadArray(f"{name}: no array of whole numbers of 32 bits") from None
    if view.itemsize != 4 or view.format.lstrip("@=<") not in ("i", "l"):
        raise BadArray(f"{name}: an array of format {view.format}, and not of whole numbers of 32 bits")
    if not view.c_contiguous:
        raise BadArray(f"{name}: the numbers don't stand in C's order")
    return view


def _read(name, value, kind):
    """An array of C's elements of this kind, of at least one, and how many were given."""
    view = _seen(name, value)
    count, over = divmod(view.nbytes, ctypes.sizeof(kind))
    if over:
        raise BadArray(f"{name}: {view.nbytes // 4} numbers, which is no multiple of {ctypes.sizeof(kind) // 4}")
    if count == 0:
        return (kind * 1)(), 0
    kinds = kind * count
    return (kinds.from_buffer_copy if view.readonly else kinds.from_buffer)(view), count


def _written(name, value, others):
    """An array of C's numbers that may be written, of at least one, and how many were given."""
    view = _seen(name, value)
    if view.readonly:
        raise BadArray(f"{name}: it can't be written")
    count = view.nbytes // 4
    if count == 0:
        return (ctypes.c_int32 * 1)(), 0
    room = (ctypes.c_int32 * count).from_buffer(view)
    if any(_overlap(room, other) for other in others):
        raise BadArray(f"{name}: it overlaps another array of the call")
    return room, count


def _overlap(one, other):
    """Whether two arrays of C's have bytes in common."""
    start, other_start = ctypes.addressof(one), ctypes.addressof(other)
    return start < other_start + ctypes.sizeof(other) and other_start < start + ctypes.sizeof(one)


def _loaded():
    """The shared library, with the kinds of its calls' arguments."""
    root = os.path.dirname(os.path.dirname(os.path.dirname(os.path.abspath(__file__))))
    built = os.path.join(root, "crates", "mill_ffi", "out", "libcamtool.so")
    path = os.environ.get("CAMTOOL_LIBRARY", built)
    try:
        library = ctypes.CDLL(path)
    except OSError as error:
        raise ImportError(f"no library of camtool at {path}, where tools/library puts it: {error}") from None
    number, numbers, size = ctypes.c_int32, ctypes.POINTER(ctypes.c_int32), ctypes.c_size_t
    library.camtool_read_part.restype = number
    library.camtool_read_part.argtypes = [
        ctypes.POINTER(ctypes.c_uint8), size, number, number, ctypes.POINTER(_Triangle), size, ctypes.POINTER(_Reading)]
    library.camtool_drop_heights.restype = number
    library.camtool_drop_heights.argtypes = [
        ctypes.POINTER(_Triangle), size, ctypes.POINTER(_Tool), ctypes.POINTER(_Place), size,
        number, numbers, size]
    library.camtool_runs.restype = number
    library.camtool_runs.argtypes = [
        ctypes.POINTER(_Triangle), size, ctypes.POINTER(_Tool), ctypes.POINTER(_Fiber), size,
        ctypes.POINTER(ctypes.c_uint64), size, ctypes.POINTER(_Run), size, ctypes.POINTER(ctypes.c_uint64)]
    library.camtool_drop_map.restype = number
    library.camtool_drop_map.argtypes = [
        ctypes.POINTER(_Triangle), size, ctypes.POINTER(_Tool), ctypes.POINTER(_Lattice), number, numbers, size,
        ctypes.POINTER(ctypes.c_uint64)]
    library.camtool_waterline.restype = number
    library.camtool_waterline.argtypes = [
        ctypes.POINTER(_Triangle), size, ctypes.POINTER(_Tool), number, ctypes.POINTER(_Lattice),
        ctypes.POINTER(_Chain), size, ctypes.POINTER(_Point), size, ctypes.POINTER(_Counts)]
    library.camtool_verify.restype = number
    library.camtool_verify.argtypes = [ctypes.POINTER(ctypes.c_uint8), size] * 3 + [ctypes.POINTER(_Verdict)]
    library.camtool_plan.restype = number
    library.camtool_plan.argtypes = [ctypes.POINTER(ctypes.c_uint8), size] * 3 + [ctypes.POINTER(_Planned)]
    return library


class _Library:
    """The shared library, before the first call is made."""

    def __getattr__(self, name):
        """Loads it, and gives a call of it."""
        global _library
        _library = _loaded()
        return getattr(_library, name)


_library = _Library()
