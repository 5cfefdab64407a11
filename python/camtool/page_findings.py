"""What fails, told in a shop's words, and each cause once.

A cause is one test that moves fail in one way: as deep, in the same direction. Lengths are in the job's units.
"""
import collections
import math

from camtool import page_map, page_read, texts
from camtool.command import counted
from camtool.page_solid import Cylinder, Hit, Near, Shape, hit_on, steepness_of

# Of how many failing moves it is measured how far the part reaches into the tool, and how many are listed of a cause.
MEASURED, LISTED = 4_000, 200
# At how many places of a move it is looked at how deep it comes into stock.
PLACES = 64
# How far two units' widening, and the rounding of a path, may let a touch look like a cut, beside the overcut: in units, by
# their decimals.
TOUCH = {2: 8, 3: 24}
# The tests that meet a box of `keep_out`.
BOXED = ("fixture", "holder-fixture")
# How many pieces of stock that are left too high are told.
PIECES = 12
# What to do, by the test that fails or by what is left.
ADVICE = {
    "floor": "A tip goes down to Z{z}; the job's `floor` is Z{floor}. Where the cut is meant to go through, lower `floor`.",
    "rapid": "Lift the rapid over the stock, make it a feed, or cut the stock away first. "
    "Where the tool does cut there before, a smaller `sample` may help.",
    "cut": "Cut in steps, or take a first pass higher up. A smaller `sample` may help where an earlier pass does cut there.",
    "holder-stock": "The tool stands out {stickout} mm. Cut the stock beside it first, or let the tool stand out further and write the new `stickout`.",
    "touch": "The path slides along the part; camtool tests with a cutter up to 2 units wider. Write `overcut = {passes}` in the job: "
    "the tool may then come {deep} into the part, and no more. Or keep the path {off} off it.",
    "brush": "The holder goes along the part; camtool tests with one up to 2 units wider. Let the tool stand out further, or keep "
    "the path {off} off the part.",
    "deep": "Raised by that much, at both ends, {who} the part. Are the part's zero and the program's the same?",
    "near": "Keep the path three or four units off the part, or write an `overcut` of 5 units: the tool may then come so far into it.",
    "box": "Lift the move until {tool} is over Z{z}, or lead it round the box. Does the clamp stand where the box does? No `overcut` counts there.",
    "bent": "The job has `rapids = \"axes\"`: each axis may run at its own speed, so the tip may be anywhere in the box of the "
    "rapid's two ends. Write it in two lines: up first, with Z alone, and then across.",
    "Holder": "Let the tool stand out further, or take a narrower holder.",
    "Cutter": "Move the path {deep} mm away, or take a smaller tool. Is the job's `radius` that of the tool?",
    "small": "Smaller than the tool. A hole that a drill makes? Put the drilling into a list for `camtool rest`, or close the hole "
    "in the part's file. A rib or a corner? Take a smaller tool for it, or say with `band` that it may stay.",
    "left": "Cut it. If the tool does cut there, take a smaller `sample`; if it is meant to stand, put it into the part's file, "
    "or say so with `band` or `allowance`.",
}
# A piece of stock that is left too high: its least and greatest x and y, how wide it is along each, the most that it
# stands over the part, its top there, and its columns, each x, y and top.
Piece = collections.namedtuple("Piece", "low high sides over top columns")
# A failing move that was measured: the item, the way ("side", "deep", "stock", "bent", ..), how far, and where.
Measured = collections.namedtuple("Measured", "item way amount hit")
# A cause: a key for its kind, its title, sentences, what to do, its moves (of them that which fails most stands first),
# and the columns that it is about, each x, y and top.
Finding = collections.namedtuple("Finding", "kind title told advice moves columns")


def findings_of(seen):
    """Returns what fails, in the order of the program, and then what is left too high."""
    measured = measure_all(seen)
    least = [it.item for it in measured if may_touch(seen, it)]
    page_read.look_at_touches(seen, {(it.step, it.move) for it in least})
    groups = grouped([with_touch(seen, it) for it in measured])
    return [finding_of(seen, it) for it in groups] + left_over(seen)


# ---- how far


def measure_all(seen):
    """Returns the failing moves, measured; of very many only some are measured, and the others are taken for the like
    of the one before them."""
    every, found = max(1, -(-len(seen.items) // MEASURED)), []
    for number, item in enumerate(seen.items):
        last = found[-1] if found else None
        is_like = last and (last.item.step, last.item.test) == (item.step, item.test)
        found.append(last._replace(item=item) if number % every and is_like else measured_of(seen, item))
    if every > 1:
        seen.notes.append(f"Of the {len(seen.items):,} moves that fail each {every}th was measured; the others are told as the one before.")
    return found


def measured_of(seen, item):
    """Returns a failing move with how far it fails, and where."""
    step = seen.steps[item.step]
    move = step.moves[item.move]
    if item.test != "floor" and texts.bends(seen.job, move):
        return measured_bent(seen, item, move)
    if item.test in ("gouge", "holder"):
        return measured_part(seen, step.job, item, move)
    if item.test in BOXED:
        return measured_box(step.job, item, move)
    if item.test == "floor":
        low = min(move.start, move.end, key=lambda it: it[2])
        return Measured(item, "floor", step.job["floor"] - low[2], Hit(low, 0, 0, low, 0))
    return measured_stock(seen, step.job, item, move)


def measured_bent(seen, item, move):
    """Returns a rapid that may go any way in the box of its ends, with the place of that box's underside that is nearest to what is
    in the way. How far it comes into that isn't known."""
    if item.box is not None:
        x0, y0, x1, y1, z = seen.job["keep_out"][item.box]
        corners = [(x0, y0, z), (x1, y1, z)]
    elif item.column:
        corners = [(*item.column[2:4], seen.job["top"] if item.column[4] is None else item.column[4])]
    else:
        corners = seen.triangles[item.triangle]
    tip, place = [], []
    for axis in (0, 1):
        low, high = sorted((move.start[axis], move.end[axis]))
        least, most = min(it[axis] for it in corners), max(it[axis] for it in corners)
        tip.append(min(max(least, low), high))
        place.append(min(max(tip[axis], least), most))
    under = min(move.start[2], move.end[2])
    return Measured(item, "bent", 0, Hit((*tip, under), 0, 0, (*place, max(it[2] for it in corners)), 0))


def measured_stock(seen, job, item, move):
    """Returns a move that meets a column of stock with how deep it comes into it: at the deepest of some places, from its
    first piece that fails on. Where the column's top isn't told, it is taken for that of the stock."""
    lift = job["stickout"] if item.test == "holder-stock" else 0
    shape = Cylinder(job["holder_radius"]) if lift else Shape(job)
    x, y, top = item.column[2:]
    top = seen.job["top"] if top is None else top
    start, best = item.segment[0] if item.segment else move.start, (-1, ())
    tips = [tuple(a + (b - a) * it / PLACES for a, b in zip(start, move.end)) for it in range(PLACES + 1)]
    for tip in [*tips, *(item.segment or ())]:
        away = math.hypot(x - tip[0], y - tip[1])
        if away <= shape.radius + 2:
            best = max(best, (top - tip[2] - lift - shape.height(min(away, shape.radius)), tip))
    tip = best[1] or move.end
    return Measured(item, "stock", max(best[0], 0), Hit(tip, 0, 0, (x, y, top), 0))


def measured_part(seen, job, item, move):
    """Returns a move that meets the part with how far it does: the lesser of the two ways out, sideways and upward."""
    lift = job["stickout"] if item.test == "holder" else 0
    shape = Cylinder(job["holder_radius"]) if lift else Shape(job)
    raised = [(*it[:2], it[2] + lift) for it in (item.segment[0] if item.segment else move.start, move.end)]
    hit = hit_on(shape, *raised, seen.near)
    if hit is None:
        place = item.segment[1] if item.segment else move.end
        return Measured(item, "side", 0, Hit(place, 0, 0, place, steepness_of(seen.triangles[item.triangle])))
    hit = hit._replace(tip=(*hit.tip[:2], hit.tip[2] - lift))
    up = item.lift if item.lift is not None else hit.up
    return Measured(item, "deep", up, hit) if up <= hit.side else Measured(item, "side", hit.side, hit)


def measured_box(job, item, move):
    """Returns a move that meets a box of `keep_out` with how far it does: the lesser of the two ways out, sideways and upward."""
    lift = job["stickout"] if item.test == "holder-fixture" else 0
    shape, box = Cylinder(job["holder_radius"]) if lift else Shape(job), job["keep_out"][item.box]
    raised = [(*it[:2], it[2] + lift) for it in (item.segment[0] if item.segment else move.start, move.end)]
    hit = hit_on(shape, *raised, Near(texts.faces_of(box)))
    if hit is None:
        place = item.segment[1] if item.segment else move.end
        return Measured(item, "side", 0, Hit(place, 0, 0, (*place[:2], box[4]), 0))
    hit = hit._replace(tip=(*hit.tip[:2], hit.tip[2] - lift))
    return Measured(item, "deep", hit.up, hit) if hit.up <= hit.side else Measured(item, "side", hit.side, hit)


def may_touch(seen, measured):
    """Returns whether a failing move may only touch: it meets the part little, and isn't too deep over a level face."""
    is_little = measured.item.test in ("gouge", "holder") and measured.amount <= TOUCH[seen.grid.places] + seen.job.get("overcut", 0)
    return is_little and measured.way != "bent" and not (measured.way == "deep" and is_level(measured.hit))


def with_touch(seen, measured):
    """Returns a failing move as a touch, where it is one: how much is then by how much more overcut it passes."""
    more = seen.touches.get((measured.item.step, measured.item.move))
    return measured._replace(way="touch", amount=more) if more else measured


# ---- one cause


def are_alike(one, other, is_near):
    """Returns whether two amounts may have one cause; of neighbours more may."""
    return abs(one - other) <= max(5, (0.5 if is_near else 0.2) * max(one, other))


def grouped(measured):
    """Returns the failing moves in groups of one cause each, in the order of their first ones: lists."""
    groups, by_key = [], collections.defaultdict(list)
    for one in measured:
        key = one.item.step, one.item.test, one.way, one.item.box
        same = by_key[key]
        near = [it for it in same[-1:] if one.item.move - it[-1].item.move <= 4 and are_alike(one.amount, it[-1].amount, True)]
        like = near or [it for it in same if are_alike(one.amount, it[0].amount, False)]
        if one.way == "touch":
            like = same
        if like:
            like[0].append(one)
            continue
        groups.append([one])
        same.append(groups[-1])
    return groups


def ranges_of(numbers):
    """Returns line numbers as a text: "12", "20 to 40" or "20 to 40, 55 and 60"; of many stretches their number."""
    runs = []
    for number in sorted(set(numbers)):
        if runs and number - runs[-1][1] <= 1:
            runs[-1][1] = number
        else:
            runs.append([number, number])
    if len(runs) > 8:
        return f"{runs[0][0]} to {runs[-1][1]}, in {len(runs):,} stretches"
    said = [str(a) if a == b else f"{a} to {b}" for a, b in runs]
    return said[0] if len(said) == 1 else f"{', '.join(said[:-1])} and {said[-1]}"


def short(seen, units):
    """Returns a length that was measured roughly: millimetres with at most two decimals."""
    return f"{units / 10**seen.grid.places:.2f}".rstrip("0").rstrip(".")


def is_level(hit):
    """Returns whether what the tool meets is a level face."""
    return hit.steepness < 0.2


def surface_of(seen, measured):
    """Returns what the tool meets: a level face and its height, a wall or a slope."""
    steep, place = measured.hit.steepness, measured.hit.place
    if measured.way == "deep" and is_level(measured.hit):
        return f"the level face at Z{seen.grid.millimetres(round(place[2]))}"
    return "a wall" if steep > 0.98 else "a slope" if steep >= 0.2 else f"an edge at Z{seen.grid.millimetres(round(place[2]))}"


def finding_of(seen, group):
    """Returns the cause that a group has."""
    worst = max(group, key=lambda it: it.amount)
    title, advice = words_of(seen, group, worst)
    lines = ranges_of(it.item.line for it in group)
    kinds = collections.Counter(seen.steps[it.item.step].moves[it.item.move].kind for it in group)
    kind = " and ".join(counted(count, it, f"{it}s") for it, count in kinds.items())
    one = "line" if lines.isdigit() else "lines"
    program = f" of {seen.steps[worst.item.step].name}" if seen.is_list else ""
    way = "part" if worst.way in ("side", "deep") else worst.way
    moves = [worst, *(it for it in group if it is not worst)]
    return Finding(way, title, f"{kind}, {one} {lines}{program}.", advice, moves, [])


def words_of(seen, group, worst):
    """Returns the title and the advice of a cause."""
    mm = lambda it: f"{seen.grid.millimetres(round(it))} mm"
    job, test = seen.steps[worst.item.step].job, worst.item.test
    if worst.way == "touch":
        return words_of_touch(job, worst, mm)
    if worst.way == "bent":
        return words_of_bent(worst)
    if test in ("gouge", "holder"):
        return words_of_part(seen, group, worst, mm)
    if test in BOXED:
        return words_of_box(seen, worst)
    z = seen.grid.millimetres
    # (where no report tells the column's top, the depth is the most that it may be)
    deep = ("up to " if worst.item.column and worst.item.column[4] is None else "") + mm(worst.amount)
    title = {
        "floor": f"Under the floor by {deep}",
        "rapid": f"Rapid into stock, {deep} deep",
        "cut": f"Cut {deep} deep; `max_cut` allows {mm(job.get('max_cut', 0))}",
        "holder-stock": f"Holder into stock, {deep} deep",
    }[test]
    return title, ADVICE[test].format(z=z(worst.hit.tip[2]), floor=z(job["floor"]), stickout=z(job.get("stickout", 0)))


def words_of_touch(job, worst, mm):
    """Returns the title and the advice of moves that only touch."""
    off = mm(worst.amount + 1)
    if worst.item.test == "holder":
        return f"Only a touch of the holder: passes with one {mm(worst.amount)} less in radius", ADVICE["brush"].format(off=off)
    passes = job.get("overcut", 0) + worst.amount
    return f"Only a touch: passes with an overcut of {mm(passes)}", ADVICE["touch"].format(passes=passes, deep=mm(passes), off=off)


def words_of_bent(worst):
    """Returns the title and the advice of rapids that may go any way in the box of their ends."""
    test, box = worst.item.test, worst.item.box
    tool = "Holder" if test.startswith("holder") else "Cutter"
    what = f"box {box} of `keep_out`" if box is not None else "stock" if worst.item.column else "the part"
    return f"{tool} may come into {what} on a rapid, whose axes run apart", ADVICE["bent"]


def words_of_part(seen, group, worst, mm):
    """Returns the title and the advice of moves that meet the part."""
    tool = "Holder" if worst.item.test == "holder" else "Cutter"
    surface = surface_of(seen, worst)
    if worst.way == "deep":
        lifts = sorted({it.amount for it in group})
        by = f"by {mm(lifts[0])} to {mm(lifts[-1])}" if len(lifts) > 1 else f"by {mm(lifts[0])}"
        return f"{tool} too deep {by}, into {surface}", ADVICE["deep"].format(who="each of these moves passes" if len(group) > 1 else "the move passes")
    if worst.amount < 3:
        return f"{tool} along {surface}, nearer than camtool can tell from a cut", ADVICE["near"]
    deep = short(seen, worst.amount)
    return f"{tool} into {surface}, about {deep} mm sideways", ADVICE[tool].format(deep=deep)


def words_of_box(seen, worst):
    """Returns the title and the advice of moves that meet a box of `keep_out`."""
    tool = "Holder" if worst.item.test == "holder-fixture" else "Cutter"
    box, much = f"box {worst.item.box} of `keep_out`", short(seen, worst.amount)
    height = seen.grid.millimetres(seen.job["keep_out"][worst.item.box][4])
    title = f"{tool} into {box}, about {much} mm {'too deep' if worst.way == 'deep' else 'sideways'}"
    if worst.amount < 3:
        title = f"{tool} along {box}, nearer than camtool can tell from a cut"
    return title, ADVICE["box"].format(tool=f"the {tool.lower()}", z=height)


# ---- what is left


def left_over(seen):
    """Returns what is left too high, a finding for each piece."""
    if seen.is_accepted:
        return []
    columns, tops = left_columns(seen)
    if not tops:
        return []
    pieces = [piece_of(seen, columns, tops, it) for it in page_map.pieces_of(columns, tops)]
    groups = collections.defaultdict(list)
    for piece in pieces:
        groups[piece.sides, piece.over // columns.pitch].append(piece)
    found = [piece_finding(seen, it) for it in list(groups.values())[:PIECES]]
    if len(groups) > PIECES:
        seen.notes.append(f"Of {len(pieces):,} pieces that are left too high the largest are listed; the map shows them all.")
    return found


def left_columns(seen):
    """Returns the columns that are left too high: how they are numbered, and the top of each number."""
    if seen.report:
        columns, told = page_map.columns_of(seen.job), seen.report["left_too_high"]
        if told["count"] > len(told["columns"]):
            seen.notes.append(f"{told['count']:,} columns are left too high; the first {len(told['columns']):,} are listed.")
        return columns, {it["row"] * columns.along + it["column"]: page_read.units(seen.grid, it["top"]) for it in told["columns"]}
    kinds = seen.kinds or b""
    return seen.columns, {at: seen.tops[at] for at, kind in enumerate(kinds) if kind in (page_map.HIGH, page_map.FULL)}


def piece_of(seen, columns, tops, numbers):
    """Returns a piece of stock that is left, of neighbouring columns with these numbers."""
    places = [(columns.x0 + at % columns.along * columns.pitch, columns.y0 + at // columns.along * columns.pitch) for at in numbers]
    floor = seen.job["floor"]
    overs = [tops[at] - max(seen.near.height(*place) or floor, floor) for at, place in zip(numbers, places)]
    low, high = [min(it) for it in zip(*places)], [max(it) for it in zip(*places)]
    most = max(range(len(numbers)), key=lambda it: overs[it])
    sides = tuple(round(b - a + columns.pitch) for a, b in zip(low, high))
    return Piece(low, high, sides, round(overs[most]), tops[numbers[most]], [(*place, tops[at]) for at, place in zip(numbers, places)])


def middle_of(seen, piece):
    """Returns the middle of a piece in x and y, as `X1 Y2`."""
    return " ".join(f"{axis}{short(seen, (a + b) / 2)}" for axis, a, b in zip("XY", piece.low, piece.high))


def piece_finding(seen, pieces):
    """Returns what is told of pieces that are left too high, of one size and height: of the first, and where the others are."""
    one, mm = pieces[0], seen.grid.millimetres
    full = ", full stock" if one.top >= seen.job["top"] else ""
    times = f", {len(pieces)} pieces" if len(pieces) > 1 else ""
    size = " by ".join(short(seen, it) for it in one.sides)
    title = f"Left standing at {middle_of(seen, one)}{times}: about {size} mm, {short(seen, one.over)} mm over the part"
    said = f"From X{mm(one.low[0])} Y{mm(one.low[1])} to X{mm(one.high[0])} Y{mm(one.high[1])}, up to Z{mm(one.top)}{full}; {counted(len(one.columns), 'column', 'columns')}."
    others = [middle_of(seen, it) for it in pieces[1:8]] + ([f"{len(pieces) - 8:,} more places"] if len(pieces) > 8 else [])
    said += f" The like stands at {', '.join(others)}." if others else ""
    return Finding("left", title, said, advice_on(seen, one.sides, one.over), [], one.columns)


def advice_on(seen, sides, over):
    """Returns what is to be done with a piece that is left, by its sides and its height over the part."""
    wide = 2 * max(it.job["radius"] for it in seen.steps)
    is_small = max(sides) < wide and over > seen.job["allowance"] + seen.job["pitch"]
    return ADVICE["small" if is_small else "left"]


def hidden(seen):
    """Returns what the band hides of an accepted program: the pieces that stand highest over the part, at most three."""
    if not seen.is_accepted or not seen.kinds:
        return []
    over = lambda at: seen.tops[at] - seen.heights[at]
    chosen = [at for at, kind in enumerate(seen.kinds) if kind == page_map.HIDDEN]
    pieces = sorted(page_map.pieces_of(seen.columns, chosen), key=lambda it: -max(map(over, it)))
    return [hidden_piece(seen, it, over) for it in pieces[:3]]


def hidden_piece(seen, piece, over):
    """Returns what is told of neighbouring columns that the band hides; the highest over the part stands first."""
    columns, mm = seen.columns, seen.grid.millimetres
    at = max(piece, key=over)
    places = [(columns.x0 + it % columns.along * columns.pitch, columns.y0 + it // columns.along * columns.pitch, seen.tops[it]) for it in (at, *piece)]
    low, high = [min(it) for it in zip(*places)], [max(it) for it in zip(*places)]
    title = f"Up to {short(seen, over(at))} mm stand by a wall at X{short(seen, places[0][0])} Y{short(seen, places[0][1])}"
    said = f"From X{mm(low[0])} Y{mm(low[1])} to X{mm(high[0])} Y{mm(high[1])}; {counted(len(piece), 'column', 'columns')}."
    return Finding("hidden", title, said, "Meant so? If not, judge with a smaller `band`.", [], places)
