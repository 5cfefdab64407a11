"""Judges again with one thing changed, where a program is rejected, and tells what passes then.

So it is camtool that says whether a wall is only touched, a diameter stands for a radius, or two tools are swapped. The
user's files stay as they are: what is changed is a copy of the job or of the list, in a folder for the while.
"""
import itertools
import os
import re
import tempfile

from camtool import machine_words, programs, texts

# By how many units an overcut is raised for a touch, by the unit's decimals; in thousandths facets and chords are more.
TOUCH = {2: (1, 2, 3, 4, 5), 3: (1, 2, 3, 4, 5, 10, 15)}


def changed(text, key, value, number=0):
    """Returns the bytes of a job or of a list with another whole number at a key, of those with this key the one of this
    number from 0; None where there is none."""
    found = list(re.finditer(rb"^([ \t]*" + key.encode("ascii") + rb"[ \t]*=[ \t]*)[-+]?[0-9_]+", text, re.M))
    if number >= len(found):
        return None
    it = found[number]
    return text[: it.end(1)] + str(value).encode("ascii") + text[it.end():]


def with_key(text, key, value):
    """Returns the bytes of a job with a whole number at a key, which is put behind the others where it isn't there."""
    return changed(text, key, value) or b"%s\n%s = %d\n" % (text, key.encode("ascii"), value)


class Judging:
    """A job, a part and a program or a list, to be judged with one of the texts changed.

    names  the names of the three files
    step   the number of the step of a list that is rejected, or None for a program
    """

    def __init__(self, names, step, folder):
        self.names, self.step, self.folder, self.texts = names, step, folder, []
        for name in (names[0], names[2]):
            with open(name, "rb") as file:
                self.texts.append(file.read())
        self.is_list = names[2].endswith(".toml")
        job = texts.job_of(self.texts[0])
        self.grid, self.overcut = texts.Grid(job), job.get("overcut", 0)
        # (a step's place among those in the list's text)
        self.cutters = texts.steps_of(self.texts[1]) if self.is_list else [job]

    def radius(self):
        """Returns the radius of the cutter that is rejected, in units."""
        return self.cutters[self.step or 0]["radius"]

    def verdict(self, job=None, steps=None):
        """Returns camtool's line with another job's or list's bytes in the place of those that are there."""
        names = list(self.names)
        for at, text in ((0, job), (2, steps)):
            if text is not None:
                names[at] = os.path.join(self.folder, ("job.toml", "", "list.toml")[at])
                with open(names[at], "wb") as file:
                    file.write(text)
        ended = programs.run("camtool", "rest" if self.is_list else "verify", *names)
        return ended.stdout.decode("utf-8", "replace").strip()

    def with_overcut(self, more):
        """Returns camtool's line with an overcut that is so many units more."""
        return self.verdict(job=with_key(self.texts[0], "overcut", self.overcut + more))

    def with_radius(self, radius, more=0):
        """Returns camtool's line with another radius of the cutter, and with an overcut that is so many units more, or ""
        where that can't be asked."""
        job = with_key(self.texts[0], "overcut", self.overcut + more) if more else self.texts[0]
        if self.is_list:
            steps = changed(self.texts[1], "radius", radius, self.step)
            return self.verdict(job=job if more else None, steps=steps) if steps else ""
        job = changed(job, "radius", radius)
        return self.verdict(job=job) if job else ""


def is_past(line, verdict):
    """Returns whether a line says that what a verdict rejects passes: it accepts, or rejects something later."""
    if line.startswith("accepted"):
        return True
    moves = [re.match(r"rejected(?: file (\d+))? \S+ move (\d+)", it) for it in (line, verdict)]
    if moves[0] is None or moves[1] is None:
        return bool(moves[1]) and re.match(r"rejected (file \d+ )?left", line) is not None
    return tuple(int(it or 0) for it in moves[0].groups()) > tuple(int(it or 0) for it in moves[1].groups())


def passes(line):
    """Returns what a line says of the whole, in words."""
    return "the whole program passes" if line.startswith("accepted") else f"this move passes, and then the answer is: {line}"


def tell_touch(judging, verdict):
    """Returns the line on an overcut that is only a little more and passes, or none. A move that goes too deep into a level face
    would pass so too, and is no touch: so there is a line where a lesser radius passes, as along a wall, and of a cone."""
    tried, is_cone = TOUCH[judging.grid.places], judging.cutters[judging.step or 0]["cutter"] == "cone"
    if not is_cone and not is_past(judging.with_radius(max(judging.radius() - tried[-1], 1)), verdict):
        return []
    lines = {more: judging.with_overcut(more) for more in tried}
    whole = [more for more, line in lines.items() if line.startswith("accepted")]
    past = whole or [more for more, line in lines.items() if is_past(line, verdict)]
    if not past:
        return []
    overcut = judging.overcut + past[0]
    return [f"it is only a touch: with `overcut = {overcut}`, by which the part may be cut {judging.grid.millimetres(overcut)} mm deep, {passes(lines[past[0]])}"]


def tell_diameter(judging):
    """Returns the line on a radius that may be a diameter, or none: with half of it, or with a touch too, the whole passes."""
    half = judging.radius() // 2
    for more in (0, 2, TOUCH[judging.grid.places][-1]):
        if half and judging.with_radius(half, more).startswith("accepted"):
            and_touch = f" and `overcut = {judging.overcut + more}`," if more else ""
            return [f"with half the radius, `radius = {half}`,{and_touch} the whole program passes: is {judging.grid.millimetres(judging.radius())} mm the cutter's diameter?"]
    return []


def tell_tenfold(judging):
    """Returns the line on a radius that may be ten times too small, or none."""
    radius = judging.radius()
    if not judging.with_radius(10 * radius).startswith("accepted"):
        return []
    return [f"with ten times the radius, `radius = {10 * radius}`, the whole program passes: this one is {judging.grid.millimetres(radius)} mm"]


def tell_swapped(judging):
    """Returns the line on two tools of a list that may be swapped, or none."""
    for one, other in itertools.combinations(range(len(judging.cutters)), 2):
        text = judging.texts[1]
        for at, value in ((one, judging.cutters[other]["radius"]), (other, judging.cutters[one]["radius"])):
            text = text and changed(text, "radius", value, at)
        if text and text != judging.texts[1] and judging.verdict(steps=text).startswith("accepted"):
            return [f"with the radii of steps {one} and {other} swapped (counted from 0), all programs pass: are their tools swapped?"]
    return []


def tell_inches(judging):
    """Returns the line on a program whose numbers may be inches, or none: its greatest height is under the stock's top, and
    times 25.4 its places lie over the stock."""
    if judging.is_list:
        return []
    job, grid = texts.job_of(judging.texts[0]), judging.grid
    ends = [it.end for it in machine_words.moves_of(judging.texts[1], job)]
    high = max((it[2] for it in ends), default=job["clear"])
    around = 2 * job["radius"]
    is_over = all(job["area"][axis] - around <= 25.4 * it[axis] <= job["area"][axis + 2] + around for it in ends for axis in (0, 1))
    if not (0 < high < job["top"] <= 25.4 * high and is_over and min(25.4 * it[2] for it in ends) < job["top"]):
        return []
    return [f"the program's greatest height, Z{grid.millimetres(high)}, is under the stock's top, Z{grid.millimetres(job['top'])}, and 25.4 times as much is over it: are its numbers inches? Post it in millimetres"]


def tell_again(names, verdict):
    """Returns the lines on what passes with one thing changed, for a rejection of camtool's; none where nothing does, or it
    can't be asked.

    names    the names of the job, the part, and the program or the list
    verdict  camtool's line, of a list with the number of its file
    """
    found = re.match(r"rejected (?:file (\d+) )?(\S+)", verdict)
    if not found:
        return []
    step, test = int(found[1]) if found[1] else None, found[2]
    with tempfile.TemporaryDirectory(prefix="camtool-") as folder:
        try:
            judging = Judging(names, step, folder)
            said = tell_swapped(judging) if judging.is_list else tell_inches(judging)
            # (no overcut counts for a holder)
            if not said and test == "gouge":
                said = tell_touch(judging, verdict)
            if not said and test in ("gouge", "holder", "fixture"):
                said = tell_diameter(judging)
            if not said and test in ("left", "rapid") and step is None and not judging.is_list:
                said = tell_tenfold(judging)
        except (OSError, ValueError, KeyError, TypeError, IndexError, AttributeError):
            return []
    return said
