"""Finds all that camtool refuses of a program. camtool names the first fault; that is struck in a copy, and camtool is
asked again, until it takes the copy or MOST faults are found. What is refused and where, camtool says alone.

What is struck may leave a gap in which camtool then refuses what comes after it, as I and J behind a G2. So a word is
mostly not taken out, but one that is taken stands in for it; and a refusal that may come from a gap says so.
"""
import collections
import os
import re
import tempfile

from camtool import causes, machine_words, programs, texts
from camtool.command import quoted
from camtool.sentences import refusal_of, sentence_of
from camtool.words import fault_of, name_of, scan, why_not

# At how many faults it ends.
MOST = 200
# One fault: the number of its line, from 1, and that line as it stands in the program; camtool's code; what is at fault,
# in quotes, or None; what it means and what to do; and the struck word from which it may come, or None.
Refused = collections.namedtuple("Refused", "line text code told sentence after")
# What stands in for a word that is struck, so that the lines behind it are read as they were meant.
STAND_INS = {"G2": "G1", "G3": "G1", "G20": "G21", "G91": "G90"}
# What is put before a line that lacks it.
LACKING = {"no-units": "G21", "no-absolute": "G90", "no-motion": "G1", "no-spindle": "S1 M3", "no-feed": "F1"}
CYCLES = "G73 G76 G81 G82 G83 G84 G85 G86 G87 G88 G89"
# From which struck words a refusal may come, by its code or, of a word that isn't in the profile, by its letter.
BEFORE = {
    "no-units": "G20",
    "no-absolute": "G91",
    "no-motion": f"G0 G1 G2 G3 G33 G38 {CYCLES}",
    "no-end": "M98 M99 O %",
    "I": "G2 G3 G5 G76 G87",
    "J": "G2 G3 G5 G76 G87",
    "K": f"G2 G3 G33 {CYCLES}",
    "R": f"G2 G3 {CYCLES} G98 G99",
    "Q": f"{CYCLES} G64",
    "L": f"{CYCLES} G10 M98",
    "P": f"G2 G3 G4 G10 G64 {CYCLES} M98",
    "H": "G43 G43.1 G43.2",
    "D": "G41 G42",
}
# The keys of a job by which it reads a program.
HABITS = ("start", "clear", "spindle", "words", "slack", "peck_clearance", "lengths", "arc_tol")
# A job that judges nothing: one column of stock, far below where the program starts, and no part.
JOB = """unit = "{unit}"
cutter = "flat"
radius = 1000
floor = -{most}
top = -{most}
clear = {clear}
area = [0, 0, 0, 0]
home = [0, 0]
pitch = 1
sample = 10000
allowance = 10000
band = 0
"""
PART = b"solid\nendsolid\n"


class Asking:
    """A folder in which camtool is asked about copies of a program, with a job and a part that judge nothing. `habits` are
    those keys of a job by which it reads a program, of HABITS."""

    def __init__(self, folder, unit, habits):
        self.folder, self.job, self.habits = folder, {"clear": 0, **habits, "unit": unit}, habits
        self.store_job()
        self.store("part.stl", PART)

    def store_job(self):
        """Stores the job, with its habits as they are."""
        most = 524_287 if self.job["unit"] == "thousandth" else 131_071
        start, clear = self.habits.get("start", "home"), self.habits.get("clear", most)
        keys = JOB.format(unit=self.job["unit"], most=most, clear=clear if start != "home" else most)
        keys += f'start = "{start}"\n' if start != "home" else ""
        keys += "spindle = true\n" if self.habits.get("spindle") else ""
        if machine_words.is_machine(self.habits):
            keys += texts.job_text({key: self.habits[key] for key in ("words", "slack", "peck_clearance", "lengths", "arc_tol") if key in self.habits})
        self.store("job.toml", keys.encode("ascii"))

    def start_at_home(self):
        """Takes from now on that a program starts over the job's home: how it starts has been told."""
        self.habits = {**self.habits, "start": "home"}
        self.store_job()

    def store(self, name, text):
        """Stores bytes under a name in the folder."""
        with open(os.path.join(self.folder, name), "wb") as file:
            file.write(text)

    def refusal(self, text):
        """Returns camtool's Refusal of a program's text, or None where it takes it. Raises OSError where there is no
        camtool, and RuntimeError where it answers nothing."""
        self.store("program.ngc", text)
        line = programs.run("camtool", "verify", "job.toml", "part.stl", "program.ngc", folder=self.folder).stdout
        line = line.decode("utf-8", "replace").strip()
        if not line:
            raise RuntimeError("camtool printed no line")
        return refusal_of(line)


class Copy:
    """The lines of a program, in which what is refused is struck."""

    def __init__(self, text):
        self.lines, self.struck, self.seen = text.split(b"\n"), [], set()

    def text(self):
        """Returns the copy's bytes."""
        return b"\n".join(self.lines)

    def line(self, number):
        """Returns a line by its number from 1; one behind the last is empty."""
        return self.lines[number - 1] if number <= len(self.lines) else b""

    def note(self, number, code, told):
        """Notes what was struck on a line, in quotes or None, and by which code."""
        if code == "arc":
            self.struck.append((number, "G2", f"the arc of line {number}"))
            return
        name = name_of(told.strip("`")) if told and re.fullmatch(r"`[A-Z][-+0-9.]+`", told) else told or ""
        self.struck.append((number, name, told))

    def before(self, number, code, told):
        """Returns the struck word from which a refusal on a line may come, or None."""
        letter = told[1:2] if told and code == "not-in-profile" else ""
        from_names = BEFORE.get(letter or code, "").split()
        if code in ("word", "no-axis", "long-line"):
            return next((it for line, _, it in reversed(self.struck) if line == number), None)
        return next((it for line, name, it in reversed(self.struck) if line <= number and name in from_names), None)

    def put(self, number, start, end, text):
        """Puts a text in the place of a piece of a line."""
        line = self.line(number)
        self.lines[number - 1] = line[:start] + text + line[end:]

    def strike(self, number, code, fault):
        """Strikes what is at fault on a line, so that camtool comes to what stands behind it. Where that has been tried,
        or nothing is known to be at fault, it empties the line."""
        line = self.line(number)
        key = (number, code, line)
        is_new, self.seen = key not in self.seen, self.seen | {key}
        if code == "no-end":
            self.lines.append(b"M2")
        elif code in LACKING and is_new:
            words, _ = scan(line)
            at = words[0].start if words else 0
            self.put(number, at, at, LACKING[code].encode("ascii") + b" ")
        elif code == "long-line" and is_new and len(re.sub(rb"\([^()]*\)|;.*", b"", line)) < len(line):
            self.lines[number - 1] = re.sub(rb"\([^()]*\)|;.*", b"", line)
        elif code == "arc" and is_new:
            self.lines[number - 1] = straightened(line)
        elif fault and is_new:
            self.put(number, *self.piece(line, code, fault))
        else:
            self.lines[number - 1] = b""

    def piece(self, line, code, fault):
        """Returns the piece of a line that is struck, and what stands in for it."""
        if code == "word":
            # (a foreign control's comment, as behind an apostrophe, goes to the line's end)
            is_first = not scan(line)[0] and not line[fault.start:fault.start + 1].isalnum()
            is_rest = is_first or line[fault.start:fault.start + 1] == b"(" or "33rd" in fault.told
            length = len(line) - fault.start if is_rest else len(re.match(rb"[^ \t(;]*", line[fault.start:])[0])
            return fault.start, fault.start + max(length, 1), b" "
        word = line[fault.start:fault.end].decode("latin-1").upper()
        if code in ("off-grid", "out-of-range"):
            return fault.start, fault.end, f"{word[0]}0".encode("ascii")
        return fault.start, fault.end, STAND_INS.get(name_of(word) if word[:1].isalpha() else word, " ").encode("ascii")


def straightened(line):
    """Returns an arc's line as a feed straight to its end."""
    words, _ = scan(line)
    names = [name_of(it.text) for it in words]
    for word, name in reversed(list(zip(words, names))):
        stand_in = {"G2": b"G1", "G3": b"G1", **dict.fromkeys("IJKR", b"")}.get(name)
        line = line if stand_in is None else line[:word.start] + stand_in + line[word.end:]
    # (a mode that an earlier line has set ends here)
    at = words[0].start if words else 0
    return line if {"G2", "G3"} & set(names) else line[:at] + b"G1 " + line[at:]


def refused_of(copy, refusal, text, job):
    """Returns the Refused of camtool's refusal of a copy. `text` has the lines of the program as they were."""
    line = text[refusal.line - 1] if refusal.line <= len(text) else b""
    fault, is_machine = fault_of(refusal.code, copy.line(refusal.line), texts.Grid(job)), machine_words.is_machine(job)
    if is_machine and refusal.code != "word":
        fault = machine_words.fault_of(copy.text(), refusal.line, refusal.code, job)
    told = fault and fault.told
    cause = causes.cause_of_word(copy.line(refusal.line), fault.start) if fault and refusal.code == "word" else None
    after = copy.before(refusal.line, refusal.code, told)
    why = why_not(after or told, is_machine) if refusal.code == "not-in-profile" else ""
    if is_machine and refusal.code == "arc":
        why = machine_words.why_of(copy.text(), refusal.line, refusal.code, job)
    sentence = cause or sentence_of(refusal, job, told, why) or "docs/FORMATS.md says what this refusal means"
    found = Refused(refusal.line, quoted(line), refusal.code, told, sentence, after)
    if refusal.code != "start":
        copy.strike(refusal.line, refusal.code, fault)
        copy.note(refusal.line, refusal.code, told)
    return found


def refused_in(name, text, unit, folder, habits):
    """Returns all that camtool refuses of a program, and whether it takes what is left of it.

    name    the program's name
    text    its bytes
    unit    the job's unit, "hundredth" or "thousandth"
    folder  an empty folder for copies
    habits  those keys of a job that are in HABITS
    """
    asking, copy, lines, found = Asking(folder, unit, habits), Copy(text), text.split(b"\n"), []
    while len(found) < MOST:
        refusal = asking.refusal(copy.text())
        if refusal is None:
            return found, True
        encoding = causes.cause_of_encoding(name, text) if not found else None
        if encoding:
            found.append(Refused(refusal.line, quoted(lines[0]), "encoding", None, encoding, None))
            copy = Copy(causes.decoded(text)[1])
            lines = copy.lines[:]
            continue
        if refusal.kind != "program" or refusal.code in ("memory", "too-many-moves"):
            found.append(Refused(refusal.line, "", refusal.code, None, sentence_of(refusal, asking.job) or "", None))
            return found, False
        found.append(refused_of(copy, refusal, lines, asking.job))
        if refusal.code == "start" and machine_words.is_machine(asking.habits):
            # (where the place isn't known, no later line says anything)
            return found, False
        if refusal.code == "start":
            asking.start_at_home()
    return found, False


def all_refused(name, text, unit=None, habits=None):
    """Returns all that camtool refuses of a program of this name, whether it takes what is left of it, and the unit of the job that it
    was asked with: that which is given, or hundredths where the program has no finer number. `habits` are those keys of
    the job that are in HABITS.

    Raises OSError where there is no camtool, and RuntimeError where it answers nothing.
    """
    with tempfile.TemporaryDirectory(prefix="camtool-") as folder:
        found, is_taken = refused_in(name, text, unit or "hundredth", folder, habits or {})
        if unit is None and any(it.code == "off-grid" for it in found):
            return (*refused_in(name, text, "thousandth", folder, {}), "thousandth")
    return found, is_taken, unit or "hundredth"


def kind_of(refused):
    """Returns what makes two refusals alike, so that only the first is told at length."""
    if refused.code != "not-in-profile" or not refused.told:
        return refused.code, refused.told if refused.code == "word" else ""
    word = refused.told.strip("`")
    return refused.code, name_of(word) if word[:1].isalpha() else word


def tell_alike(name, alike):
    """Returns the lines on refusals that are alike: the first at length, and where the others are."""
    first = alike[0]
    follows = f"; it may follow from what was struck before it: {first.after}" if first.after else ""
    said = [f"{name} line {first.line}: {first.text}", f"{first.sentence}{follows}"]
    lines = list(dict.fromkeys(it.line for it in alike))[1:]
    if lines:
        more = f" and {len(lines) - 8:,} more" if len(lines) > 8 else ""
        said.append(f"the same on line{'s' if len(lines) > 1 else ''} {', '.join(map(str, lines[:8]))}{more}")
    return said


def tell_all(name, found, is_taken, unit):
    """Returns the lines on all that is refused of a program of this name, in the order of the text."""
    groups = {}
    for it in found:
        groups.setdefault(kind_of(it), []).append(it)
    told = [tell_alike(name, it) for it in groups.values()]
    # (what the profile takes, and what a line may have, are told once)
    said, known = [], set()
    for lines in told:
        for usual in re.findall(r"; it takes G0 G1 [^;]*|: a line has at most 32 words.*on its line", lines[1]):
            lines[1] = lines[1].replace(usual, "") if usual in known else lines[1]
            known.add(usual)
        said += lines
    if unit == "thousandth":
        said.append(f"{name} has numbers finer than 0.01 mm: its job needs `unit = \"thousandth\"`")
    count = f"{name}: {len(found):,} {'refusal' if len(found) == 1 else 'refusals'}"
    if not found:
        said.append(f"{name}: camtool refuses nothing of it")
    elif is_taken:
        said.append(f"{count}; without them camtool takes the text, and hasn't judged it")
    elif len(found) >= MOST:
        said.append(f"{count}, and the search ends there: there may be more")
    else:
        said.append(f"{count}; camtool goes no further")
    return said
