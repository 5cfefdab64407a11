"""Tells of a refusal where it points, in the files that it is on: the line, the word at fault, and what to do."""
import codecs
import itertools
import os
import re

from camtool import causes, machine_words, texts
from camtool.command import quoted, stop
from camtool.command import read as text_of
from camtool.sentences import sentence_of
from camtool.words import coordinate_at_fault, fault_of, why_not

# A line whose value is a text without quotes.
BARE = re.compile(rb"\s*[\w-]+\s*=\s*(?!true\b|false\b|inf\b|nan\b)[A-Za-z]")


def job_read(names):
    """Returns the job's keys, or none where it has no form."""
    try:
        return texts.job_of(text_of(names[0]))
    except (ValueError, RecursionError):
        return {}


def named_file(asked, steps, kind):
    """Returns the name of the file of a kind, which may be a program of a list with its number."""
    kind, _, number = kind.partition(" ")
    if number:
        return texts.steps_of(text_of(asked.names[2]))[int(number)]["program"]
    if kind == "program" and steps:
        return steps[0]["program"]
    at = ("job", "part", "list", "program").index(kind)
    if min(at, 2) >= len(asked.names):
        stop(f"the line is on a {kind}, and none is named")
    return asked.names[min(at, 2)]


def lines_with(name, key):
    """Returns the first lines of a job or a list on which a key stands."""
    text = text_of(name)
    form = rb"^[ \t]*[\"']?" + re.escape(key.encode("utf-8", "surrogateescape")) + rb"[\"']?[ \t]*=[^\n]*"
    found = itertools.islice(re.finditer(form, text, re.M), 4)
    return [f"{name} line {text.count(bytes([10]), 0, it.start()) + 1}: {quoted(it[0])}" for it in found]


def tell_syntax(name):
    """Returns where Python's reader of TOML finds the fault of a document, if it does."""
    text = text_of(name)
    try:
        texts.job_of(text)
    except UnicodeDecodeError as error:
        number, why = text.count(b"\n", 0, error.start) + 1, "it isn't UTF-8"
    except (ValueError, RecursionError) as error:
        found = re.search(r" \(at line (\d+), column \d+\)", str(error))
        number, why = (int(found[1]), str(error).replace(found[0], "")) if found else (0, str(error))
    else:
        # (where Python has no reader of TOML, as before 3.11, that finds the most usual fault alone)
        bare = [at for at, line in enumerate(text.split(b"\n"), 1) if BARE.match(line)]
        return [f"{name} line {bare[0]}: {quoted(text.split(bytes([10]))[bare[0] - 1])}"] if bare else [name]
    line = f" line {number}: {quoted(text.split(bytes([10]))[number - 1])}" if number else ""
    return [f"{name}{line}", f"Python's reader of TOML says: {why}"]


def step_without(name, key):
    """Returns which is the first step of a list that lacks a key, where one does. A cone's keys only a cone has."""
    for number, step in enumerate(texts.steps_of(text_of(name)) if key != "steps" else []):
        if key not in step and (key not in ("rise", "run") or step.get("cutter") == "cone"):
            return f": step {number}, counted from 0"
    return ""


def tell_keys(name, refusal):
    """Returns the lines of a job or of a list on which the keys of a refusal stand."""
    if refusal.code == "syntax":
        return tell_syntax(name)
    if refusal.code == "missing":
        return [f"{name}{step_without(name, refusal.rest) if refusal.kind == 'list' else ''}"]
    keys = refusal.rest.split(" ") if refusal.code == "relation" else [refusal.rest]
    return [line for key in keys for line in lines_with(name, key)] or [name]


def tell_radius(job):
    """Returns the line on how large the cutter of a job is, where its radius is at odds with another key; or none."""
    radius, grid = job.get("radius"), texts.Grid(job)
    if not isinstance(radius, int):
        return []
    one = 3 * 10**grid.places
    return [f"`radius = {radius}` is {grid.millimetres(radius)} mm, a cutter {grid.millimetres(2 * radius)} mm across; 3.0 mm is {one}"]


def tell_high_part(names, job):
    """Returns the lines on the highest corner of the part, and on the job's top."""
    grid, text = texts.Grid(job), text_of(names[1])
    triangles = texts.triangles_of(text, grid)
    if not triangles:
        stop(f"{names[1]} has no triangle: the files aren't those of the verdict")
    number = max(range(len(triangles)), key=lambda it: max(corner[2] for corner in triangles[it]))
    corner = max(triangles[number], key=lambda it: it[2])
    vertex = next(itertools.islice(re.finditer(rb"vertex\s", text, re.I), 3 * number + triangles[number].index(corner), None))
    line = text.count(b"\n", 0, vertex.start()) + 1
    cause = causes.cause_of_height(job, triangles)
    place = f"{names[1]} line {line}: the highest corner, {grid.point(corner)}, of triangle {number}"
    return [place, *lines_with(names[0], "top"), *([cause] if cause else [])]


def tell_unread(name):
    """Returns the line on why a file can't be opened, where that is still so."""
    try:
        os.stat(name)
    except OSError as error:
        return [f"{name}: {error.strerror}"]
    why = "a folder" if os.path.isdir(name) else "it can be opened now" if os.access(name, os.R_OK) else "it may not be read"
    return [f"{name}: {why}"]


def tell_line(name, refusal, job):
    """Returns the lines on the line of a part or of a program, and on what is wrong there."""
    text, grid = text_of(name), texts.Grid(job)
    lines = text.split(b"\n")
    line = lines[refusal.line - 1] if refusal.line <= len(lines) else b""
    place = f"{name} line {refusal.line}: {quoted(line)}"
    if refusal.kind == "part":
        word = coordinate_at_fault(refusal.code, line, grid)
        if word and "," in word:
            return [place, f"{word} has a comma: a number has a point; export the part again, in a language that writes points"]
        return [place, sentence_of(refusal, job, word)]
    is_machine = machine_words.is_machine(job)
    fault = fault_of(refusal.code, line, grid)
    if is_machine and refusal.code != "word":
        fault = machine_words.fault_of(text, refusal.line, refusal.code, job)
    word = fault and fault.told
    why = why_not(word, is_machine) if refusal.code == "not-in-profile" else machine_words.why_of(text, refusal.line, refusal.code, job) if is_machine else ""
    cause = causes.cause_of_word(line, fault.start) if fault and refusal.code == "word" else None
    return [place, cause or sentence_of(refusal, job, word, why)]


def cause_of(asked, name, refusal):
    """Returns the lines on a cause that is no fault of one line: the file's encoding, or that it is another than the one
    that is meant; or none."""
    text = text_of(name)
    what = causes.binary_of(text) if refusal.kind == "part" else None
    encoding = causes.cause_of_encoding(name, text)
    # (before a job or a list camtool takes a byte order mark)
    if encoding and not (refusal.kind in ("job", "list") and text.startswith(codecs.BOM_UTF8)):
        return [encoding]
    if what:
        return [f"{name}: {what}", causes.BINARY.format(name)]
    if not all(map(os.path.isfile, asked.names)):
        return []
    order = causes.cause_of_order(refusal.kind, asked.names, [text_of(it) for it in asked.names])
    return [order] if order else []


def tell_comma(name, refusal):
    """Returns the line of a job or of a list on which a number has a comma, and what to write; or none."""
    found = causes.comma_of_job(text_of(name)) if refusal.code == "syntax" else None
    return [f"{name} line {found[0]}: {quoted(found[1])}", found[2]] if found else []


def tell_missing(asked, name, refusal, job):
    """Returns the lines on a file that couldn't be read."""
    is_listed = refusal.rest.startswith("program ") and not os.path.exists(name)
    folder = causes.cause_of_folder(name, asked.names[2]) if is_listed else None
    return [*tell_unread(name), *([folder] if folder else []), sentence_of(refusal, job)]


def tell_refusal(asked, steps, refusal):
    """Returns the lines on a refusal, of which the last is the sentence, or None where it has none."""
    kind = refusal.kind
    job = job_read(asked.names) if (kind, refusal.rest) not in (("read fault", "job"), ("too-long", "job")) else {}
    if kind in ("part", "program", "job", "list"):
        name = named_file(asked, steps, kind)
        cause = cause_of(asked, name, refusal)
        if cause:
            return cause
        if kind in ("part", "program"):
            return tell_line(name, refusal, job)
        is_on_radius = refusal.code == "relation" and kind == "job" and "radius" in refusal.rest.split(" ")
        size = tell_radius(job) if is_on_radius else []
        return tell_comma(name, refusal) or [*tell_keys(name, refusal), *size, sentence_of(refusal, job)]
    if kind == "read fault":
        return tell_missing(asked, named_file(asked, steps, refusal.rest), refusal, job)
    said = []
    if kind == "part-top":
        said = tell_high_part(asked.names, job)
    elif kind == "too-long":
        said = [named_file(asked, steps, refusal.rest)]
    return [*said, sentence_of(refusal, job)]
