"""What may have gone wrong where a text is refused: another encoding, a comma in a number, files in another order.

Each answer is a sentence for a person, and rests on the text alone. Where nothing is known there is none.
"""
import os
import re
import shlex

from camtool import texts
from camtool.command import counted, quoted
from camtool.words import scan

BINARY = "camtool reads ASCII STL alone: `admesh --no-check --write-ascii-stl=ascii.stl {}` writes it, and so does FreeCAD under a name in .ast (docs/CAM.md)"
WHAT = {"job": "a job", "part": "a part (STL)", "program": "a program", "list": "a list of steps"}
# How many lines of a text are looked at to tell what it is, and how many bytes.
LINES, BYTES = 40, 20_000


def binary_of(text):
    """Returns what a part's file is that is no text, or None."""
    count = int.from_bytes(text[80:84], "little")
    if len(text) >= 84 and len(text) == 84 + 50 * count:
        return f"a binary STL of {counted(count, 'triangle', 'triangles')}"
    return "a file with zero bytes, which is no text" if b"\0" in text[:10_000] else None


def decoded(text):
    """Returns the name of a text's encoding where it isn't the one that camtool reads, and the text as it should be; or
    None and the text."""
    if text.startswith((b"\xff\xfe", b"\xfe\xff")):
        return "UTF-16", text.decode("utf-16", "replace").encode("utf-8")
    if text.startswith(b"\xef\xbb\xbf"):
        return "a byte order mark", text[3:]
    zeros = text[:BYTES].count(0)
    for at, name in ((1, "utf-16-le"), (0, "utf-16-be")):
        if zeros and zeros == text[at:BYTES:2].count(0) and 3 * zeros > len(text[:BYTES]):
            return "UTF-16", text.decode(name, "replace").encode("utf-8")
    return None, text


def cause_of_encoding(name, text):
    """Returns the sentence on a text's encoding, or None where that is as it should be."""
    encoding, file = decoded(text)[0], shlex.quote(name)
    if encoding == "UTF-16":
        return f"{name} is in UTF-16, as PowerShell writes it: store it in UTF-8, as by `iconv -f UTF-16 -t UTF-8 {file} >OTHER`"
    if encoding:
        return (f"{name} begins with a byte order mark (the bytes EF BB BF), which camtool doesn't take: store it in UTF-8 without one "
                f"(editors call that \"UTF-8\", and the other \"UTF-8 with BOM\"), as by `tail -c +4 {file} >OTHER`")
    return None


def kind_of(text):
    """Returns what a text seems to be, "job", "list", "part" or "program"; None where it is like none of them."""
    text = decoded(text)[1]
    head = text[:BYTES].decode("latin-1")
    if re.match(r"\s*solid\b", head, re.I) or len(text) >= 84 and len(text) == 84 + 50 * int.from_bytes(text[80:84], "little"):
        return "part"
    if re.search(r"^\s*(\[\[?\s*steps\b|steps\s*=)", head, re.M):
        return "list"
    if len(set(re.findall(r"^\s*(cutter|radius|floor|top|clear|area|home|pitch|sample|allowance|band)\s*=", head, re.M))) > 1:
        return "job"
    lines = [it for it in text[:BYTES].split(b"\n") if it.strip()][:LINES]
    read = [scan(it) for it in lines]
    is_read = sum(not fault for _, fault in read) * 2 > len(lines)
    return "program" if is_read and any(word.text[0] in "GMXYZ" for words, _ in read for word in words) else None


def cause_of_order(kind, names, files):
    """Returns the sentence on files that stand in another order, or None.

    kind   what is refused: "job", "part", "program" or "list"
    names  the names of the call: the job's, the part's, and the program's or the list's
    files  the bytes of each of them
    """
    kinds = [kind_of(it) for it in files]
    at = ("job", "part").index(kind) if kind in ("job", "part") else 2
    if at >= len(kinds) or kinds[at] in (None, kind) or (at == 2 and kinds[at] in ("list", "program")):
        return None
    said = f"{names[at]} is {WHAT[kinds[at]]}, and stands in the place of the {kind}: the words are JOB PART FILE"
    last = "list" if "list" in kinds else "program"
    if sorted(map(str, kinds)) != sorted(["job", "part", last]):
        return f"{said}, in this order"
    ordered = [shlex.quote(names[kinds.index(it)]) for it in ("job", "part", last)]
    return f"{said}, so write `camtool {'rest' if last == 'list' else 'verify'} {' '.join(ordered)}`"


def cause_of_comma(line, start=0):
    """Returns the sentence on a comma in a number of a program's line, which is at fault at a place; or None."""
    text = line.decode("latin-1")
    found = re.search(r"([A-Za-z]) *([+-]?\d*),(\d+)(?![\d.,])", text[max(start - 24, 0):])
    if text[start:start + 1] != "," or not found:
        return None
    right = f"{found[1]}{found[2] or '0'}.{found[3]}".upper()
    return f"`{quoted(found[0])}` has a comma: a number has a point, `{right}`; set the post, or the language that it runs in, to write points"


def cause_of_start(line, start):
    """Returns the sentence on a line of another control's language, which is at fault at a place; or None."""
    character = line[start:start + 1]
    if character == b"'":
        return "`'` begins a comment of another control's language (OpenSBP of ShopBot): have the program written by a post for G-code, as LinuxCNC's or Grbl's"
    if character == b"%" and line.strip() != b"%":
        return f"`{quoted(line)}`: a line with `%` has nothing else on it: take out what stands beside `%`, or the line"
    return None


def cause_of_word(line, start):
    """Returns the sentence on what stands at a place of a program's line where no word may, or None."""
    return cause_of_comma(line, start) or cause_of_start(line, start)


def comma_of_job(text):
    """Returns the number of the line of a job on which a number has a comma, that line, and the sentence; or None."""
    for number, line in enumerate(text.decode("utf-8", "replace").split("\n"), 1):
        found = re.match(r"\s*(\w+)\s*=\s*([+-]?\d+),(\d+)\s*(#.*)?$", line)
        if found:
            grid = texts.Grid({"unit": "thousandth"} if re.search(rb'^\s*unit\s*=\s*"thousandth"', text, re.M) else {})
            units = grid.units(f"{found[2]}.{found[3]}")
            right = f", so {found[2]}.{found[3]} mm is `{found[1]} = {int(units)}`" if units == int(units) else ""
            return number, line, f"`{found[2]},{found[3]}` has a comma: a job has whole numbers of {('hundredths', 'thousandths')[grid.places - 2]} of a millimetre{right}"
    return None


def cause_of_folder(program, list_name):
    """Returns the sentence on a list's program that isn't found: from where its name is looked for, or None."""
    if os.path.isabs(program):
        return None
    said = f"a list's names are looked for from the folder that camtool is run in, here {os.getcwd()}"
    folder = os.path.dirname(list_name)
    beside = os.path.join(folder, program)
    if folder and os.path.exists(beside):
        return f"{said}: {beside} is there, so run camtool in {folder}, or write `program = \"{beside}\"`"
    return f"{said}, and not from the list's: mend the name, or run camtool in the folder of the programs"


def cause_of_words(line):
    """Returns the sentence on a number of the command line that was taken for an option, by what camtool printed; or None."""
    found = re.match(r"error: unexpected argument '(-[0-9.,]+)' found", line)
    if found is None:
        return None
    right = found[1].replace(",", ".")
    return f"a number below zero stands behind `=`, as `--x={right}`: behind a blank it is taken for an option (and `-- {found[1]}`, which is the usual tip, doesn't help)"


def cause_of_height(job, triangles):
    """Returns the sentence on a part that stands over the stock's top, where another unit explains that; or None.

    job        the job's keys
    triangles  the part's, in units, at least one
    """
    grid, top, area = texts.Grid(job), job["top"], job.get("area", [0, 0, 0, 0])
    sides = [[corner[axis] for triangle in triangles for corner in triangle] for axis in range(3)]
    high, size = max(sides[2]), [max(it) - min(it) for it in sides]
    one = 10**grid.places
    if 0 < top < high <= top * one <= 1.5 * high:
        return f"`top = {top}` is {grid.millimetres(top)} mm: lengths are whole {('hundredths', 'thousandths')[grid.places - 2]} of a millimetre, so {top} mm is {top * one}"
    for factor, what in ((25.4, "were its millimetres taken for inches?"), (10, "was it exported in another unit?"), (1000, "was it exported in another unit?")):
        fits = high <= top * factor and all(size[axis] <= factor * (area[axis + 2] - area[axis]) for axis in (0, 1))
        if fits and 2 * high > top * factor:
            return f"{factor:g} times smaller the part fits the stock: {what} Export it in millimetres"
    return None
