"""A table of mistakes that people make on the way from a part and a program to a verdict, each as a change of one case.

The case is a block of 50 x 34 x 8 mm with a pocket that isn't in its middle, and the program that FreeCAD posted for the
pocket of examples/freecad. Each change is what a person does by mistake: to the export, the post, the job, or the call.
"""
import os
import re
import struct
import typing

ROOT = os.path.dirname(os.path.dirname(os.path.abspath(__file__)))
JOB = """cutter = "flat"
radius = 300
floor = 0
top = 800
clear = 2000
area = [0, 0, 5000, 3400]
home = [0, 0]
pitch = 50
sample = 50
allowance = 5
band = 100
overcut = 2
"""
LIST = """[[steps]]
program = "program.ngc"
cutter = "flat"
radius = 300
[[steps]]
program = "corners.ngc"
cutter = "flat"
radius = 150
"""


def example(name):
    """The text of a file of examples/freecad."""
    with open(os.path.join(ROOT, "examples", "freecad", name), encoding="utf-8") as file:
        return file.read()


def block():
    """The triangles of the block with its pocket, in millimetres, as a closed mesh."""
    xs, ys = (0, 8, 32, 50), (0, 8, 22, 34)
    high = lambda i, j: 4 if (i, j) == (1, 1) else 8 if 0 <= i < 3 and 0 <= j < 3 else 0
    found = []

    def add(a, b, c, d):
        """Adds the two triangles of a face of four corners."""
        found.extend([(a, b, c), (a, c, d)])

    for i in range(-1, 3):
        for j in range(-1, 3):
            if i >= 0 and j >= 0:
                for z in (0, high(i, j)):
                    add((xs[i], ys[j], z), (xs[i + 1], ys[j], z), (xs[i + 1], ys[j + 1], z), (xs[i], ys[j + 1], z))
            z, east, north = high(i, j), high(i + 1, j), high(i, j + 1)
            if j >= 0 and z != east:
                x = xs[i + 1]
                add((x, ys[j], z), (x, ys[j + 1], z), (x, ys[j + 1], east), (x, ys[j], east))
            if i >= 0 and z != north:
                y = ys[j + 1]
                add((xs[i], y, z), (xs[i + 1], y, z), (xs[i + 1], y, north), (xs[i], y, north))
    return found


class Case:
    """The files of a call, as texts, and how it is made. A change changes them."""

    def __init__(self):
        self.triangles, self.job, self.list = block(), JOB, None
        self.program = example("pocket.ngc").replace("TC: Default Tool", "T1 6 mm endmill")
        # By name what other files there are, as bytes; and what becomes of the texts when they are written.
        self.others, self.written, self.names, self.folder = {}, {}, ["job.toml", "part.stl", "program.ngc"], "."

    def key(self, key, value):
        """Puts another value at a key of the job."""
        self.job = re.sub(rf"^{key} = .*$", f"{key} = {value}", self.job, flags=re.M)

    def points(self, change):
        """Changes each corner of the part, by a function of x, y and z."""
        self.triangles = [tuple(change(*corner) for corner in triangle) for triangle in self.triangles]

    def words(self, letters, change, places=2):
        """Changes the number of each word of the program's moves with one of these letters, to so many decimals."""
        self.program = re.sub(rf"(?m)^(?!\().*$", lambda line: re.sub(
            rf"([{letters}])(-?[0-9.]+)", lambda it: f"{it[1]}{change(float(it[2])):.{places}f}", line[0]), self.program)

    def replace(self, one, other):
        """Replaces a text in the program, which must be there."""
        assert one in self.program, one
        self.program = self.program.replace(one, other)

    def steps(self, text=LIST):
        """Makes it a list of two programs, with no band."""
        self.list, self.names = text, ["job.toml", "part.stl", "list.toml"]
        self.others["corners.ngc"] = example("corners.ngc").encode()
        self.key("band", 0)

    def part(self):
        """The part's text, as ASCII STL."""
        lines = ["solid Mesh"]
        for triangle in self.triangles:
            corners = (f"vertex {' '.join(f'{it:.6f}' for it in corner)}" for corner in triangle)
            lines += ["facet normal 0 0 1", "outer loop", *corners, "endloop", "endfacet"]
        return "\n".join([*lines, "endsolid Mesh", ""])

    def store(self, folder):
        """Writes the files, each as the change has it."""
        texts = {"job.toml": self.job, "part.stl": self.part(), "program.ngc": self.program, **({"list.toml": self.list} if self.list else {})}
        texts = {name: text.encode("utf-8") for name, text in texts.items()}
        for name, change in self.written.items():
            texts[name] = change(texts[name])
        for name, text in {**texts, **self.others}.items():
            if text is not None:
                os.makedirs(os.path.dirname(os.path.join(folder, name)), exist_ok=True)
                with open(os.path.join(folder, name), "wb") as file:
                    file.write(text)


class Mistake(typing.NamedTuple):
    """A mistake: what it is, the change that makes it, and the pieces that the answer must have, as patterns: the cause, and
    the key, the word or the value to change. `now` is what becomes of it: "told", or where that isn't so "caught" or "silent";
    "taken" is one that is harmless, and accepted."""

    what: str
    change: typing.Callable
    says: tuple = ()
    now: str = "told"

    @property
    def taken(self):
        """Whether it is harmless."""
        return self.now == "taken"


def binary(text):
    """A part's text as binary STL."""
    numbers = re.findall(rb"vertex (\S+) (\S+) (\S+)", text)
    body = b"".join(struct.pack("<3f", 0, 0, 1) + b"".join(struct.pack("<3f", *map(float, it)) for it in numbers[at:at + 3]) + b"\0\0"
                    for at in range(0, len(numbers), 3))
    return b"MESH".ljust(80, b"-") + struct.pack("<I", len(numbers) // 3) + body


def many(text):
    """A part's text with its facets over and over, until there are over 200,000."""
    head, rest = text.split(b"\n", 1)
    facets, end = rest.rsplit(b"endsolid", 1)
    return head + b"\n" + facets * (200_001 // facets.count(b"endfacet") + 1) + b"endsolid" + end


def post(name):
    """A change that takes a program of another post, as FreeCAD wrote it."""

    def change(case):
        """Puts the post's program into the case."""
        with open(os.path.join(ROOT, "tests", "posts", name), encoding="utf-8") as file:
            case.program = file.read()

    return change


def swap(one, other):
    """A change that gives two files in each other's place."""

    def change(case):
        """Swaps two names of the call."""
        case.names[one], case.names[other] = case.names[other], case.names[one]

    return change


def written(name, change):
    """A change of a file's bytes."""
    return lambda case: case.written.update({name: change})


def key(name, value):
    """A change of a key of the job."""
    return lambda case: case.key(name, value)


def crlf(text):
    """A text with the ends of lines that Windows writes."""
    return text.replace(b"\n", b"\r\n")


def in_whole_millimetres(case):
    """The job has millimetres, and no hundredths."""
    case.job = re.sub(r"\b(\d+)00\b", r"\1", case.job).replace("= 50", "= 1").replace("= 5\n", "= 1\n")


def with_misspelt_key(case):
    """A key of the job has another letter."""
    case.job = case.job.replace("allowance", "allowence")


def with_comment_in_latin_1(case):
    """A comment of the job isn't in UTF-8."""
    case.job += "# Fr\xe4ser\n"
    case.written["job.toml"] = lambda text: text.decode("utf-8").encode("latin-1")


def cut_short(case):
    """The program's end is lost."""
    case.program = case.program[: case.program.index("G1 X29.00 Y13.70 Z4.00")]


def all_tools_in_one(case):
    """What Grbl's post writes of two tools: where the other is put in stands in a comment alone."""
    case.program = case.program.replace("M6 T1", "( M6 T1 )").replace("M2\n", "")
    case.program += "(T2 3 mm endmill)\n( M6 T2 )\n" + "\n".join(example("corners.ngc").split("\n")[3:])
    case.key("band", 0)


def in_another_folder(case):
    """The list stands in a folder beside its programs, and the call is made from outside."""
    case.steps()
    case.names[2] = "lists/list.toml"
    case.others |= {"lists/list.toml": LIST.encode(), "lists/corners.ngc": case.others.pop("corners.ngc"), "lists/program.ngc": case.program.encode()}
    case.written["program.ngc"] = case.written["list.toml"] = lambda text: None


def with_wrong_tool_unjudged(case):
    """Another tool is put in, and what is left isn't judged."""
    case.key("radius", 250)
    case.key("allowance", 10000)


def with_a_lesser_radius(case):
    """The radius is less than the tool's, for a path that slides along walls."""
    case.key("radius", 298)
    case.key("overcut", 0)


def cutting_air(case):
    """The program goes 10 mm too high, and what is left isn't judged."""
    case.words("Z", lambda z: z + 10)
    case.key("allowance", 10000)
    case.key("clear", 3000)


def too_low(case):
    """The part lies 13 mm too low, and what is left isn't judged."""
    case.points(lambda x, y, z: (x, y, z - 13))
    case.key("allowance", 10000)


def in_inches(case):
    """The post wrote inches, of three decimals, and G21; the job is in thousandths for them."""
    case.job = 'unit = "thousandth"\n' + re.sub(r"\b([1-9][0-9]*)\b", r"\g<1>0", case.job)
    case.words("XYZ", lambda length: length / 25.4, 3)


def with_axes_swapped(case):
    """The program's X is its Y."""
    case.program = re.sub(r"([XY])([-0-9.]+)", lambda word: f"{'YX'['XY'.index(word[1])]}{word[2]}", case.program)


def spaces_in_names(case):
    """The files' names have blanks."""
    case.others = {"my job.toml": case.job.encode(), "my part.stl": case.part().encode(), "my program.ngc": case.program.encode()}
    case.names = list(case.others)


def with_a_pass_in_air(case):
    """The CAM program has 2 mm more stock, and a pass for it."""
    first = "G1 X11.00 Y16.40 Z6.00 F200.00"
    case.replace(first, f"{first.replace('Z6', 'Z9')}\nG1 X29.00 Y16.40\nG0 Z11.00\nG0 X11.00 Y16.40\n{first}")


def with_2_mm_more_stock(case):
    """The stock is higher than the CAM program's, under a limit on the depth of a cut."""
    case.key("top", 1000)
    case.job += "max_cut = 250\n"


# What the answer must have of a program of each post that is none of camtool's, with its default options.
POSTS = {
    "bracket.centroid.t2.cnc": (r"`G53`",),
    "bracket.mach3_mach4.t2.nc": (r"`G43`|`M6`|`X|`T2`|decimals",),
    "bracket.marlin.t2.gcode": (r"`G4`|decimals",),
    "bracket.smoothie.t2.nc": (r"`M6`|`T2\.0`|decimals|`G98`",),
    "bracket.opensbp.t2.sbp": (r"OpenSBP", r"LinuxCNC"),
    "bracket.uccnc.t2.nc": (r"%prog1", r"take out"),
}

# By class, as a trial by new users found them: A is told what to do, B was caught and its cause not named, C passed without a
# word, and D is harmless and rightly taken.
MISTAKES = {
    "A": [
        Mistake("a binary STL", written("part.stl", binary), (r"a binary STL", r"--write-ascii-stl")),
        Mistake("over 200,000 facets", written("part.stl", many), (r"over 200,000 triangles", r"coarser tolerance")),
        Mistake("an STL 25.4 times too large", lambda it: it.points(lambda *at: [25.4 * c for c in at]), (r"25\.4|in millimetres",)),
        Mistake("a comma in the STL", written("part.stl", lambda it: it.replace(b".", b",")), (r"`8,000000`|`0,000000`", r"comma.*point")),
        Mistake("inches under G20", lambda it: it.replace("G21", "G20"), (r"`G20`", r"inches.*G21")),
        Mistake("the post with no option", lambda it: setattr(it, "program", example("default.ngc")), (r"`G43`|`H1`|--no-tlo|precision|thousandth",)),
        Mistake("three decimals", lambda it: it.replace("X11.00 Y16.40", "X11.001 Y16.400"), (r"`X11\.001`", r"two decimals.*thousandth")),
        Mistake("the program of another post", post("bracket.centroid.t2.cnc"), POSTS["bracket.centroid.t2.cnc"]),
        Mistake("a job in whole millimetres", in_whole_millimetres, (r"`top`", r"hundredths|0\.08")),
        Mistake("a radius of 2.96", key("radius", "2.96"), (r"`radius`", r"3\.0 mm is 300")),
        Mistake("a cutter \"Flat\"", key("cutter", '"Flat"'), (r"`cutter`", r'"flat", "ball" or "cone"')),
        Mistake("a cutter \"endmill\"", key("cutter", '"endmill"'), (r"`cutter`", r'"flat", "ball" or "cone"')),
        Mistake("a misspelt key", with_misspelt_key, (r"`allowence`", r"`allowance`\?")),
        Mistake("no quotes", key("cutter", "flat"), (r"cutter = flat", r"in quotes")),
        Mistake("a job in Latin-1", with_comment_in_latin_1, (r"UTF-8",)),
        Mistake("a program that is cut short", cut_short, (r"no end", r"whole\?")),
        Mistake("lines that end with CR alone", written("program.ngc", lambda it: it.replace(b"\n", b"\r")), (r"CR alone", r"LF")),
        Mistake("a missing file", lambda it: it.names.__setitem__(2, "pocket.nc"), (r"pocket\.nc: No such file",)),
        Mistake("a folder", lambda it: it.names.__setitem__(1, "."), (r"a folder",)),
        Mistake("part and program swapped", swap(1, 2), (r"is a program", r"camtool verify job\.toml part\.stl program\.ngc")),
    ],
    "B": [
        Mistake("an STL in inches", lambda it: it.points(lambda *at: [c / 25.4 for c in at]), (r"25\.4 times as large.*inches; export it in millimetres",)),
        Mistake("an STL in metres", lambda it: it.points(lambda *at: [c / 1000 for c in at]), (r"1000 times as large.*metres; export it in millimetres",)),
        Mistake("the part's Z0 on its top", lambda it: it.points(lambda x, y, z: (x, y, z - 8)), (r"the part moved by Z\+8\.00",)),
        Mistake("the part about its middle", lambda it: it.points(lambda x, y, z: (x - 25, y - 17, z)), (r"the part moved by X\+25\.00 Y\+17\.00",)),
        Mistake("the part upside down", lambda it: it.points(lambda x, y, z: (x, 34 - y, 8 - z)), (r"the part turned upside down",)),
        Mistake("the part turned by 90 degrees", lambda it: it.points(lambda x, y, z: (34 - y, x, z)), (r"the part turned by 90 degrees",)),
        Mistake("the part mirrored", lambda it: it.points(lambda x, y, z: (50 - x, y, z)), (r"the part mirrored in X",)),
        Mistake("the program's Z0 on top", lambda it: it.words("Z", lambda z: z - 8), (r"part and job moved by Z-8\.00",)),
        Mistake("inches under G21", in_inches, (r"numbers inches\? Post it in millimetres",)),
        Mistake("X and Y swapped", with_axes_swapped, (r"with X and Y swapped the program is accepted",)),
        Mistake("a comma in the program", lambda it: it.replace("X11.00", "X11,00"), (r"`X11,00`", r"`X11\.00`", r"comma")),
        Mistake("a comma in the job", key("radius", "2,98"), (r"radius = 2,98", r"comma", r"`radius = 298`")),
        Mistake("the diameter for the radius", key("radius", "600"), (r"`radius = 300`", r"is 6\.00 mm the cutter's diameter")),
        Mistake("a byte order mark", written("program.ngc", lambda it: b"\xef\xbb\xbf" + it), (r"byte order mark", r"without one")),
        Mistake("UTF-16", written("program.ngc", lambda it: it.decode().encode("utf-16")), (r"UTF-16", r"UTF-8")),
        Mistake("job and part swapped", swap(0, 1), (r"is a part", r"camtool verify job\.toml part\.stl program\.ngc")),
        Mistake("a list in another folder", in_another_folder, (r"looked for from the folder", r"lists/program\.ngc")),
        Mistake("tools swapped in a list", lambda it: it.steps(LIST.replace("300", "0").replace("150", "300").replace("= 0\n", "= 150\n")), (r"radii of steps 0 and 1 swapped",)),
        Mistake("a tool of 5 mm for 6", key("radius", "250"), (r"6 mm across, and the job's radius is 2\.50 mm",)),
        Mistake("a cutter of 0.6 mm", key("radius", "30"), (r"`radius = 30`", r"0\.60 mm across")),
        Mistake("all tools in one Grbl file", all_tools_in_one, (r"the tools T1, T2; camtool judges one cutter a program",)),
    ],
    "C": [
        Mistake("no M3", lambda it: it.replace("M3 S6000 \n", ""), (r"no M3 or M4: the spindle stands still",)),
        Mistake("M5 for M3", lambda it: it.replace("M3 S6000", "M5"), (r"no M3 or M4: the spindle stands still",)),
        Mistake("no F", lambda it: setattr(it, "program", re.sub(r" F[0-9.]+", "", it.program)), (r"has no F before line",)),
        Mistake("T7 for T1", lambda it: it.replace("M6 T1", "M6 T7"), (r"calls T7, and its comment says",)),
        Mistake("an area smaller than the part", key("area", "[0, 0, 3000, 2000]"), (r"part: it reaches out of area",)),
        Mistake("a pitch of 5 mm", key("pitch", "500"), (r"note: pitch: the cutter fits between four columns",)),
        Mistake("a tool of 5 mm for 6, allowance 10000", with_wrong_tool_unjudged, (r"`allowance` is as high as the whole stock", r"6 mm across, and the job's radius is 2\.50 mm")),
        Mistake("a radius of 2.98 for a tool of 6 mm", with_a_lesser_radius, (r"radius is 0\.02 mm less than half of that", r"`overcut = 2`")),
        Mistake("cuts only air, allowance 10000", cutting_air, (r"`allowance` is as high as the whole stock", r"lowest feed, Z14\.00, isn't under top: it cuts nothing")),
        Mistake("a part 13 mm too low, allowance 10000", too_low, (r"`allowance` is as high as the whole stock", r"lies under floor")),
    ],
    "D": [
        Mistake("CRLF in the program", written("program.ngc", crlf), now="taken"),
        Mistake("CRLF in the STL", written("part.stl", crlf), now="taken"),
        Mistake("CRLF in the job", written("job.toml", crlf), now="taken"),
        Mistake("spaces in names", spaces_in_names, now="taken"),
        Mistake("stock lower than in CAM", with_a_pass_in_air, now="taken"),
        Mistake("clear at top", key("clear", "800"), now="taken"),
        Mistake("2 mm more stock, with max_cut", with_2_mm_more_stock, (r"is cut too deep",)),
    ],
}
