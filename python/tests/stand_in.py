#!/usr/bin/env python3
"""A stand-in for camtool and camreport in the tests of pages and sheets: it judges roughly, of small examples alone.

It knows `verify`, `rest` and `stock` of camtool, and camreport where its name ends with that. Of the tests it makes
those of the floor, of the part and of the boxes, and that of what is left, over the part at its column alone.
"""
import hashlib
import json
import math
import os
import sys

sys.path.insert(0, os.path.join(os.path.dirname(os.path.dirname(os.path.realpath(__file__)))))
from camtool import page_map, texts
from camtool.page_solid import Near, Shape, hit_on


def read(name):
    with open(name, "rb") as file:
        return file.read()


def tops_after(job, moves, columns, tops):
    """Lowers the tops of the columns that lie under the samples of the moves."""
    shape = Shape(job)
    for move in moves:
        count = max(-(-int(math.dist(move.start, move.end)) // job["sample"]), 1)
        for tip in ([a + (b - a) * it / count for a, b in zip(move.start, move.end)] for it in range(count + 1)):
            for row in range(max(math.ceil((tip[1] - shape.radius - columns.y0) / columns.pitch), 0), columns.rows):
                dy = columns.y0 + row * columns.pitch - tip[1]
                if dy > shape.radius:
                    break
                for column in range(columns.along):
                    away = math.hypot(columns.x0 + column * columns.pitch - tip[0], dy)
                    if away < shape.radius:
                        at = row * columns.along + column
                        tops[at] = min(tops[at], int(tip[2] + shape.height(away)))
    return tops


def item_of(grid, job, near, text, number, move):
    """Returns the item of a report on a move; None where it passes."""
    wider = Shape({**job, "radius": job["radius"] + 2 - job.get("overcut", 0)})
    low = min(move.start[2], move.end[2])
    hit = hit_on(wider, move.start, move.end, near)
    box = None
    if low >= job["floor"] and hit is None:
        box = next((at for at, it in enumerate(job.get("keep_out", [])) if hit_on(Shape(job), move.start, move.end, Near(texts.faces_of(it)))), None)
        if box is None:
            return None
    test = "floor" if low < job["floor"] else "gouge" if box is None else "fixture"
    mm = grid.millimetres
    words = text.split(b"\n")[move.line - 1].decode("utf-8", "replace")
    segment = None if test == "floor" else [[mm(it) for it in end] for end in (move.start, move.end)]
    triangle = {"corners": [], "number": 0} if test == "gouge" else None
    return {
        **({} if box is None else {"box": box}), "column": None, "leaf": None, "lift": mm(math.ceil(hit.up)) if test == "gouge" else None, "line": move.line, "move": number,
        "segment": segment, "test": test, "triangle": triangle, "words": words}


def left_of(grid, job, columns, tops, heights):
    """Returns the columns that are left too high."""
    cover = page_map.covers(heights, columns, job["band"])
    numbers = [at for at, top in enumerate(tops) if top - min(top, cover[at]) > job["allowance"]]
    mm = grid.millimetres
    places = [(at // columns.along, at % columns.along, tops[at]) for at in numbers]
    return [
        {"column": column, "row": row, "top": mm(top), "x": mm(columns.x0 + column * columns.pitch), "y": mm(columns.y0 + row * columns.pitch)}
        for row, column, top in places]


def line_of(failing, left, moves, columns, cutters=""):
    """Returns the line of a verdict."""
    if failing:
        one = failing[0]
        place = {"floor": "z 0.00", "gouge": "triangle 0 leaf 0 0", "fixture": f"box {one.get('box')} leaf 0 0"}[one["test"]]
        return f"rejected {cutters}{one['test']} move {one['move']} {place}"
    if left:
        return f"rejected left row {left[0]['row']} column {left[0]['column']} top {left[0]['top']}"
    return f"accepted moves {moves} columns {columns.along * columns.rows} left 0.00 band 0.00 allowance 0.00"


def judged(names, programs):
    """Returns the failing moves of each program, the columns that are left, the number of moves and the columns."""
    job = texts.job_of(read(names[0]))
    grid, columns = texts.Grid(job), page_map.columns_of(job)
    triangles = texts.triangles_of(read(names[1]), grid)
    near, tops, failing, count = Near(triangles), page_map.array.array("i", [job["top"]]) * (columns.along * columns.rows), [], 0
    for text, cutter in programs:
        own = {**job, **cutter}
        moves = texts.moves_of(text, texts.start_of(job), grid)
        failing.append([it for it in (item_of(grid, own, near, text, *one) for one in enumerate(moves)) if it])
        tops, count = tops_after(own, moves, columns, tops), count + len(moves)
    heights = page_map.part_heights(triangles, columns, job["floor"])
    return failing, left_of(grid, job, columns, tops, heights), count, columns


def report(names):
    """Returns the report on a job, a part and a program."""
    text = read(names[2])
    if b"G99" in text:
        return {"line": "refused program line 1 not-in-profile", "status": 4}
    failing, left, count, columns = judged(names, [(text, {})])
    line = line_of(failing[0], left, count, columns)
    sums = {kind: hashlib.sha256(read(name)).hexdigest() for kind, name in zip(("job", "part", "program"), names)}
    return {
        "columns": columns.along * columns.rows, "failing": failing[0], "left": None, "left_too_high": {"columns": left, "count": len(left)},
        "line": line, "moves": count, "sha256": sums, "status": 3 if failing[0] or left else 0, "unit": "0.01"}


def rest(names):
    """Returns the line of the verdict on a list."""
    steps = texts.steps_of(read(names[2]))
    failing, left, count, columns = judged(names, [(read(it["program"]), it) for it in steps])
    for number, one in enumerate(failing):
        if one:
            return line_of(one, left, count, columns, f"file {number} ")
    return line_of([], left, count, columns).replace("accepted", f"accepted files {len(steps)}").split(" band")[0]


def stock(job_name, program, out):
    """Stores the vertices of the stock's surface, each once, and returns the line."""
    job = texts.job_of(read(job_name))
    grid, columns = texts.Grid(job), page_map.columns_of(job)
    tops = tops_after(job, texts.moves_of(read(program), texts.start_of(job), grid), columns, [job["top"]] * (columns.along * columns.rows))
    place = lambda at: (columns.x0 + at % columns.along * columns.pitch, columns.y0 + at // columns.along * columns.pitch, tops[at])
    with open(out, "w", encoding="ascii") as file:
        for at in range(len(tops)):
            file.write(f"vertex {' '.join(map(grid.millimetres, place(at)))}\n")
    return f"stock triangles {2 * (columns.along - 1) * (columns.rows - 1)}"


def main(words):
    if sys.argv[0].endswith("camreport"):
        told = report(words)
        print(json.dumps(told))
        return told["status"]
    if words[0] == "--version":
        line = "camtool 0.0.0 (a stand-in)"
    elif words[0] == "stock":
        line = stock(*words[1:])
    else:
        line = rest(words[1:]) if words[0] == "rest" else report(words[1:])["line"]
    print(line)
    return {"rejected": 3, "refused": 4}.get(line.split()[0], 0)


if __name__ == "__main__":
    sys.exit(main(sys.argv[1:]))
