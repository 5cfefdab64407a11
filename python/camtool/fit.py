"""Whether part, job and program lie in one place, in one unit and on one side; and which change would bring them together.

`by_box` compares boxes alone. `suspects` moves, turns, mirrors or scales copies of the part (or of part and job, where it is
the program that is off) in a temporary folder, has camtool judge them, and tells the changes that are clearly better. It
says nothing of files that camtool accepts, and changes none.

A place is three floats in millimetres; a box is two of them, its least and its greatest corner.
"""
import bisect
import collections
import math
import os
import re
import tempfile

from camtool import parts, programs, texts
from camtool.facts import Facts

# What a length is multiplied by, and what it was then taken for.
SCALES = ((25.4, "inches"), (1000, "metres"), (10, "centimetres"))
# The ways to turn a part: what is said of it, and for each new axis the old one and its sign.
TURNS = (
    ("", ((0, 1), (1, 1), (2, 1))),
    ("mirrored in X", ((0, -1), (1, 1), (2, 1))),
    ("mirrored in Y", ((0, 1), (1, -1), (2, 1))),
    ("turned by 180 degrees", ((0, -1), (1, -1), (2, 1))),
    ("turned by 90 degrees counterclockwise", ((1, -1), (0, 1), (2, 1))),
    ("turned by 90 degrees clockwise", ((1, 1), (0, -1), (2, 1))),
    ("with X and Y swapped", ((1, 1), (0, 1), (2, 1))),
    ("turned upside down about X", ((0, 1), (1, -1), (2, -1))),
    ("turned upside down about Y", ((0, -1), (1, 1), (2, -1))),
    ("mirrored in Z", ((0, 1), (1, 1), (2, -1))),
)
# The most columns of the copies that are judged, and how many copies are; and the most triangles of a part of which copies
# are made, so that an answer takes seconds.
COLUMNS, JUDGED, TRIANGLES = 1_500, 6, 20_000
# The keys for a machine that isn't exact.
MARGINS = ("slack", "overcut", "graze")
# By how much of all columns a changed part has to agree better with what the program leaves.
BETTER = 0.04

# A change: how it is told, its turn, its scale, its shift, and whether the job goes with the part; and the one that changes nothing.
Change = collections.namedtuple("Change", "told turn scale shift with_job", defaults=(False,))
SAME = Change("", TURNS[0][1], 1, (0, 0, 0))
# A verdict: its line; how far it came, 3 accepted, 2 all moves pass, 1 a move fails, 0 refused; and how many moves pass.
Verdict = collections.namedtuple("Verdict", "line stage moves")


def moved(place, change):
    """Returns where a change brings a place."""
    return tuple(sign * change.scale * place[axis] + shift for (axis, sign), shift in zip(change.turn, change.shift))


def box_after(box, change):
    """Returns the box of a box that was changed."""
    ends = [moved(it, change) for it in box]
    return tuple(tuple(pick(it[axis] for it in ends) for axis in range(3)) for pick in (min, max))


def is_within(inner, outer, slack, axes=(0, 1, 2)):
    """Returns whether a box lies in another that is larger by `slack` on each side."""
    return all(inner[0][it] >= outer[0][it] - slack and inner[1][it] <= outer[1][it] + slack for it in axes)


# ---- by boxes alone


def cut_box(facts):
    """Returns the box of the feeds of programs, a list of Facts; None where none of them feeds along all three axes."""
    ends = []
    for name, pick in (("cut_low", min), ("cut_high", max)):
        values = [[getattr(it, name)[axis] for it in facts if getattr(it, name)[axis] is not None] for axis in range(3)]
        if not all(values):
            return None
        ends.append(tuple(float(pick(it)) for it in values))
    return tuple(ends)


def by_box(low, high, facts):
    """Returns sentences on how a part's box, two lists of three lengths, and the feeds of programs don't go together."""
    part, cut = tuple(tuple(map(float, it)) for it in (low, high)), cut_box(facts)
    if cut is None:
        return []
    return [*by_size(part, cut), *by_place(part, cut, facts)][:1]


def sides_of(box):
    """Returns the three sides of a box."""
    return [box[1][it] - box[0][it] for it in range(3)]


def size_told(box):
    """Returns a box's sides in x and y as they are told."""
    return " by ".join(f"{it:.2f}" for it in sides_of(box)[:2]) + " mm"


def by_size(part, cut):
    """Sentences on another unit, or another side."""
    ratios = [path / size if size > 0 else 0 for path, size in zip(sides_of(cut)[:2], sides_of(part)[:2])]
    for scale, unit in SCALES:
        large = tuple(tuple(scale * it for it in end) for end in part)
        reach = max(abs(it) for end in cut for it in end[:2]) / max(max(abs(it) for end in large for it in end[:2]), 1e-9)
        is_apart = not is_within(cut, part, min(sides_of(part)[:2]), (0, 1))
        is_as_high = 0.3 * large[1][2] < cut[1][2] < 4 * large[1][2] and cut[0][2] < large[1][2]
        if is_apart and reach > 0.2 and is_as_high and is_within(cut, large, 0.25 * min(sides_of(large)[:2]), (0, 1)):
            yield f"the part measures {size_told(part)}, the program's feeds go over {size_told(cut)}: is the part in {unit}? export it in millimetres"
    # (numbers in inches under G21: no feed comes over the part, and 25.4 times as large they all lie in it)
    large = tuple(tuple(25.4 * it for it in end) for end in cut)
    if cut[1][2] < part[1][2] < 1.1 * large[1][2] and max(ratios) < 0.1 and is_within(large, part, 0.2 * min(sides_of(part)[:2]), (0, 1)):
        yield f"the program's feeds go over {size_told(cut)}, the part measures {size_told(part)}: are the program's numbers inches? post it in millimetres"
    swapped = (cut[0][1], cut[0][0]), (cut[1][1], cut[1][0])
    side = min(sides_of(part)[:2])
    if not is_within(cut, part, 0.2 * side, (0, 1)) and is_within(swapped, part, 0.1 * side, (0, 1)):
        yield f"the program's feeds go over {size_told(cut)}, the part measures {size_told(part)}: are X and Y swapped, or is the part turned by 90 degrees?"


def by_place(part, cut, facts):
    """Sentences on another zero."""
    levels = [float(it.level) for it in facts if it.level is not None]
    height = part[1][2] - part[0][2]
    if cut[0][2] >= part[1][2] and height > 0:
        yield f"the program's lowest feed, Z{cut[0][2]:.2f}, isn't under the part's top, Z{part[1][2]:.2f}: is the part's Z0 on its top, and the program's on the stock's underside?"
    elif levels and max(levels) <= part[0][2] and cut[0][2] < part[0][2] - 0.2 * height:
        yield f"the program's feeds go along at Z{max(levels):.2f} and lower, under the part's underside, Z{part[0][2]:.2f}: is the program's Z0 on the stock's top, and the part's on its underside?"
    apart = [axis for axis in (0, 1) if cut[1][axis] <= part[0][axis] or cut[0][axis] >= part[1][axis]]
    middles = [[(box[0][it] + box[1][it]) / 2 for it in (0, 1)] for box in (part, cut)]
    far = [abs(middles[0][it] - middles[1][it]) for it in (0, 1)]
    if apart:
        yield f"in {'XY'[apart[0]]} the program's feeds, from {cut[0][apart[0]]:.2f} to {cut[1][apart[0]]:.2f} mm, don't meet the part, from {part[0][apart[0]]:.2f} to {part[1][apart[0]]:.2f} mm: have they the same zero?"
    elif all(abs(far[it] - sides_of(part)[it] / 2) < 0.2 * sides_of(part)[it] < sides_of(cut)[it] for it in (0, 1)):
        yield "the middle of the program's feeds lies half a part away from the part's: is one zero in the middle, and the other in a corner?"


# ---- what is judged


def verdict_of(line):
    """Returns the Verdict of a line that camtool prints."""
    found = re.match(r"accepted (?:files \d+ )?moves (\d+)", line)
    if found:
        return Verdict(line, 3, int(found[1]))
    if line.startswith("rejected left"):
        return Verdict(line, 2, math.inf)
    found = re.match(r"rejected (?:file (\d+) )?[a-z-]+ move (\d+)", line)
    if found:
        return Verdict(line, 1, 1_000_000 * int(found[1] or 0) + int(found[2]))
    return Verdict(line, 0, -1)


def bytes_of(name):
    """Returns the bytes of a file."""
    with open(name, "rb") as file:
        return file.read()


class Case:
    """A job, a part and a program that are judged in changed copies in a folder."""

    def __init__(self, job, part, program, folder):
        self.program, self.folder = os.path.abspath(program), folder
        self.is_list, self.is_whole = program.endswith(".toml"), False
        text = bytes_of(part)
        self.job, self.triangles = texts.job_of(bytes_of(job)), parts.triangles_of(text)
        # (a binary part camtool doesn't read)
        self.own = os.path.abspath(part) if parts.count_of(text) is None else None
        names = [it["program"] for it in self.steps()] if self.is_list else [program]
        self.facts = [Facts(bytes_of(it)) for it in names]
        self.mm = 1 / 10 ** texts.Grid(self.job).places
        self.part = tuple(map(tuple, ([float(it) for it in end] for end in parts.box_of(self.triangles))))
        area = self.job["area"]
        self.stock = tuple(tuple(it * self.mm for it in (*area[at : at + 2], self.job[name])) for at, name in ((0, "floor"), (2, "top")))
        self.cut = cut_box(self.facts)

    def steps(self):
        """The steps of the list."""
        return texts.steps_of(bytes_of(self.program))

    def coarse(self):
        """The job's keys with few columns; as they are, where the case is to be judged as a whole."""
        job = dict(self.job)
        if self.is_whole:
            return job
        sides = [job["area"][it + 2] - job["area"][it] for it in (0, 1)]
        pitch = max(job["pitch"], math.isqrt(max(sides[0] * sides[1] // COLUMNS, 1)), 1)
        return {**job, "pitch": min(pitch, max(job["radius"], job["pitch"])), "sample": max(job["sample"], min(pitch, job["radius"]) // 2, 1)}

    def job_after(self, change):
        """The coarse job's keys, changed with the part where the change says so; in thousandths where it is scaled."""
        job = self.coarse()
        if not change.with_job:
            return job
        fine = 1 if job.get("unit") == "thousandth" or change.scale == 1 else 10
        units = lambda it: round(it / self.mm * fine)
        box = box_after(self.stock, change)
        for key in ("radius", "pitch", "sample", "allowance", "band", "holder_radius", "stickout", "max_cut", "layer", *MARGINS):
            if key in job:
                job[key] = max(round(job[key] * change.scale * fine), 1 if job[key] else 0)
        home = moved([it * self.mm for it in (*job["home"], 0)], change)
        over = (job["clear"] - job["top"]) * change.scale * fine
        job.update(area=[units(it) for end in box for it in end[:2]], floor=units(box[0][2]), top=units(box[1][2]), home=[units(it) for it in home[:2]])
        job["clear"] = job["top"] + round(over)
        job.update({"unit": "thousandth"} if fine == 10 else {})
        return {key: value for key, value in job.items() if key not in ("levels", "layer")}

    def store_job(self, change):
        """Writes the changed job; returns its name."""
        name = os.path.join(self.folder, "job.toml")
        with open(name, "w", encoding="utf-8") as file:
            file.write(texts.job_text(self.job_after(change)))
        return name

    def store_part(self, change):
        """Writes the changed part; returns its name, or that of the part's own text where nothing is changed."""
        if change == SAME and self.own:
            return self.own
        name = os.path.join(self.folder, "part.stl")
        with open(name, "w", encoding="ascii") as file:
            file.write("solid part\n")
            for tri in self.triangles:
                corners = "\n".join("vertex {:.5f} {:.5f} {:.5f}".format(*moved(it, change)) for it in tri)
                file.write(f"facet normal 0 0 1\nouter loop\n{corners}\nendloop\nendfacet\n")
            file.write("endsolid part\n")
        return name

    def judged(self, change):
        """Returns camtool's Verdict on a changed copy."""
        done = programs.run("camtool", "rest" if self.is_list else "verify", self.store_job(change), self.store_part(change), self.program)
        return verdict_of(done.stdout.decode("utf-8", "replace").partition("\n")[0])

    def tops(self, change):
        """Returns what the program leaves of the stock, places to heights in millimetres; {} where camtool doesn't say."""
        surface = os.path.join(self.folder, "stock.stl")
        if self.is_list or programs.run("camtool", "stock", self.store_job(change), self.program, surface).returncode:
            return {}
        return {corner[:2]: corner[2] for tri in parts.triangles_of(bytes_of(surface)) for corner in tri}

    def agreement(self, change, tops):
        """Returns the share of columns at which the changed part and what the program leaves are as high; 0 where nothing is known."""
        if not tops:
            return 0.0
        job = self.job_after(change)
        mm = 10.0 ** -texts.Grid(job).places
        heights = heights_of([[moved(it, change) for it in tri] for tri in self.triangles], tops, job["floor"] * mm)
        slack = max(min(job["allowance"] * mm, 0.2), 0.1) * (change.scale if change.with_job else 1)
        return sum(abs(top - heights[place]) <= slack for place, top in tops.items()) / len(tops)


def heights_of(triangles, places, floor):
    """Returns how high the triangles stand over each place; `floor` where none does."""
    heights = dict.fromkeys(places, floor)
    rows = collections.defaultdict(list)
    for x, y in sorted(places):
        rows[x].append(y)
    columns = sorted(rows)
    for one, two, three in triangles:
        area = (two[0] - one[0]) * (three[1] - one[1]) - (two[1] - one[1]) * (three[0] - one[0])
        if abs(area) < 1e-9:
            continue
        for x in between(columns, (one[0], two[0], three[0])):
            for y in between(rows[x], (one[1], two[1], three[1])):
                second = ((x - one[0]) * (three[1] - one[1]) - (y - one[1]) * (three[0] - one[0])) / area
                third = ((two[0] - one[0]) * (y - one[1]) - (two[1] - one[1]) * (x - one[0])) / area
                if second >= -1e-6 and third >= -1e-6 and second + third <= 1 + 1e-6:
                    z = one[2] + second * (two[2] - one[2]) + third * (three[2] - one[2])
                    heights[x, y] = max(heights[x, y], z)
    return heights


def between(values, ends):
    """Returns those of sorted values that lie from the least to the greatest of these ends."""
    return values[bisect.bisect_left(values, min(ends) - 1e-6) : bisect.bisect_right(values, max(ends) + 1e-6)]


# ---- which changes there are


def shifts_to(box, stock):
    """Returns the shifts that bring a box to the stock: by its middle in x and y, and to floor, to top, or not in z."""
    middle = [sum(it[axis] for it in stock) / 2 - sum(it[axis] for it in box) / 2 for axis in (0, 1)]
    heights = (0.0, stock[0][2] - box[0][2], round(stock[1][2] - box[1][2], 1), -box[0][2], -box[1][2])
    for sideways in ((0.0, 0.0), tuple(middle), tuple(-it for it in box[0][:2])):
        yield from ((*sideways, up) for up in heights)


def told_of(turn, scale, shift):
    """Returns how a change is told."""
    told = [turn] if turn else []
    told += [f"{scale:g} times as large"] if scale != 1 else []
    by = " ".join(f"{axis}{value:+.2f}" for axis, value in zip("XYZ", shift) if abs(value) > 0.005)
    return " and ".join(told + ([f"moved by {by}"] if by else []))


def part_changes(case):
    """Yields the changes of the part alone whose box then lies in the stock and holds most of what it has to."""
    seen = set()
    for scale in (1, *(it for it, _ in SCALES), 1 / 25.4, 0.001):
        for turn, axes in TURNS if scale == 1 else TURNS[:1]:
            plain = box_after(case.part, Change("", axes, scale, (0, 0, 0)))
            for shift in shifts_to(plain, case.stock):
                change = Change(told_of(turn, scale, shift), axes, scale, shift)
                key = (axes, scale, tuple(round(it, 2) for it in shift))
                box = box_after(case.part, change)
                is_large = all(sides_of(box)[it] >= 0.3 * sides_of(case.stock)[it] for it in (0, 1))
                # (a part may reach under the floor)
                is_in = is_within(box, case.stock, 0.02, (0, 1)) and case.stock[0][2] < box[1][2] <= case.stock[1][2] + 0.02
                if change.told and key not in seen and is_large and is_in:
                    seen.add(key)
                    yield change


def program_changes(case):
    """Yields the changes of part and job together, whose stock then holds the program's feeds: of those turns about the zero
    alone where it did before."""
    around = 2 * case.job["radius"] * case.mm + 1
    # (a feed begins over the stock, so that only its least height counts)
    cut = (case.cut[0], (*case.cut[1][:2], case.cut[0][2]))
    fits = lambda box, scale: is_within(cut, box, around * scale, (0, 1)) and box[0][2] - 0.02 <= cut[0][2] < box[1][2]
    if fits(case.stock, 1):
        turned = (Change(told, axes, 1, (0, 0, 0), True) for told, axes in TURNS[1:7])
        yield from (it for it in turned if fits(box_after(case.stock, it), 1))
        return
    middle = [sum(it[axis] for it in case.stock) / 2 for axis in (0, 1)]
    for scale, turns in ((1, TURNS[:7]), (1 / 25.4, TURNS[:1])):
        for turn, axes in turns:
            for up in (0, -case.part[1][2], -case.stock[1][2], -case.part[0][2], -case.stock[0][2]):
                for aside in ((0, 0), [-it for it in middle], [-it for it in case.stock[0][:2]], [-it for it in case.part[0][:2]]):
                    shift = (*aside, round(up, 1)) if axes == TURNS[0][1] and scale == 1 else (0, 0, 0)
                    change = Change(told_of(turn, scale, shift), axes, scale, shift, True)
                    if change.told and fits(box_after(case.stock, change), scale):
                        yield change


def ranked(case, changes, base):
    """Returns changes and their agreement, the best first, those alone that agree better than `base` or of which nothing is known."""
    found, tops = [], {}
    for change in dict.fromkeys(changes):
        if change.with_job or not tops:
            tops = case.tops(change)
        found.append((case.agreement(change, tops), change))
    # (of changes that agree as well the simplest: one that moves the part least often, and turns it least)
    found.sort(key=lambda it: (-round(it[0], 2), sum(abs(shift) > 0.005 for shift in it[1].shift), it[1].turn != TURNS[0][1]))
    return [it for it in found if it[0] > base + BETTER or not tops][:JUDGED]


def sentence_of(change, verdict):
    """Returns a sentence on a change and what camtool says with it."""
    how = {3: "the program is accepted", 2: "all its moves pass, and only stock is left too high"}.get(verdict.stage, "nearly all of the program fits")
    unit = next((unit for scale, unit in SCALES if abs(change.scale - scale) < 1e-6), None)
    if change.with_job:
        if change.scale != 1:
            return f"with part and job {change.told} {how}: the program's numbers seem to be inches; post it in millimetres"
        return f"with part and job {change.told} {how}: the program has another zero or side than the part; have both in one"
    if unit:
        return f"with the part {change.told} {how}: it seems to be in {unit}; export it in millimetres"
    if change.scale != 1:
        return f"with the part {change.told} {how}: it seems to be too large by that; export it in millimetres"
    return f"with the part {change.told} {how}: export it so, or move the program's zero to the part's"


def suspects(job, part, program):
    """Returns sentences on which change of the part (or of part and job) brings part and program together: one that camtool
    accepts, or with which clearly more of the program passes; mostly none or one. `job`, `part` and `program` are names of
    files; a program that ends in .toml is a list, whose names are looked for from the current folder. It runs camtool, on
    few columns, so it takes a second or a few; of a part of over TRIANGLES it makes no copies, and says so. Raises OSError
    where a file can't be read or there is no camtool, and ValueError where a text can't be."""
    with tempfile.TemporaryDirectory() as folder:
        case = Case(job, part, program, folder)
        if not case.triangles or case.cut is None:
            return []
        base = case.judged(SAME)
        if base.stage == 3:
            return []
        plain = by_box(*case.part, case.facts)
        if base.line.startswith(("refused program", "refused job", "refused list", "read fault")):
            return plain if base.stage == 0 else []
        if len(case.triangles) > TRIANGLES:
            return [*plain, f"the part has over {TRIANGLES:,} triangles, so no changed copy of it was tried; a coarser export of it may tell more"]
        change = best_of(case, base)
        # (what is told is the verdict with all columns)
        case.is_whole = True
        return [sentence_of(change, case.judged(change))] if change else plain


def best_of(case, base):
    """Returns the change with which a case is judged best, clearly better than as it is, a Verdict; None where there is none."""
    agreed = case.agreement(SAME, case.tops(SAME))
    found = []
    for changes in (part_changes(case), program_changes(case)):
        for share, change in ranked(case, changes, agreed):
            found.append((case.judged(change), share, change))
            if found[-1][0].stage == 3:
                break
    good = [it for it in found if is_better(it, base, agreed)]
    return max(good, key=lambda it: it[0].stage)[2] if good else None


def is_better(found, base, agreed):
    """Returns whether a changed copy is clearly better than the files as they are."""
    verdict, share, _ = found
    if verdict.stage == 3:
        return True
    return verdict.stage == 2 and share > agreed + 2 * BETTER and (base.stage < 2 or share > 0.8)
