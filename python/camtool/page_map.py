"""The map of what is left: how high the stock and the part stand at each column, and how the two compare.

All lengths are in the job's units. A grid is an array of numbers, row by row from the least y, in each row from the
least x. The verdict is camtool's: a column is shown as too high only where camtool says, or may say, that it is.
"""
import array
import collections
import math
import re

# The most triangles of a stock's surface that camtool stores.
MOST = 200_000
# What a column is shown as.
WANTED, HIDDEN, HIGH, FULL, CUT = range(5)

Columns = collections.namedtuple("Columns", "x0 y0 pitch along rows")


def columns_of(job, step=1):
    """Returns the columns of a job, or each `step`-th of them."""
    x0, y0, x1, y1 = job["area"]
    pitch = job["pitch"] * step
    return Columns(x0, y0, pitch, (x1 - x0) // pitch + 1, (y1 - y0) // pitch + 1)


def shown_step(job):
    """Returns how many times the job's pitch the map's is, so that the surface of the stock can be stored."""
    step = 1
    while 2 * (columns_of(job, step).along - 1) * (columns_of(job, step).rows - 1) > MOST:
        step += 1
    return step


def tops_of(text, columns):
    """Returns the tops that the surface of a stock tells, in units; None where it tells none of a column."""
    tops = array.array("i", bytes(4 * columns.along * columns.rows))
    seen = bytearray(len(tops))
    for x, y, z in re.findall(rb"vertex (-?[\d.]+) (-?[\d.]+) (-?[\d.]+)", text):
        # (all three have the unit's decimals)
        column = (int(x.replace(b".", b"")) - columns.x0) // columns.pitch
        at = (int(y.replace(b".", b"")) - columns.y0) // columns.pitch * columns.along + column
        tops[at] = int(z.replace(b".", b""))
        seen[at] = 1
    return tops if all(seen) else None


def lower_of(one, other):
    """Returns the lower of two tops of each column: what two programs leave of one stock."""
    return array.array("i", map(min, one, other))


def crossed(triangle, y):
    """Returns the least and the greatest x of a triangle on the line at y; None where it doesn't meet it."""
    found = []
    for (ax, ay, _), (bx, by, _) in zip(triangle, (*triangle[1:], triangle[0])):
        if ay == y:
            found.append(ax)
        if (ay < y) != (by < y):
            found.append(ax + (bx - ax) * (y - ay) / (by - ay))
    return (min(found), max(found)) if found else None


def raise_by(heights, triangle, columns):
    """Raises the heights of the columns that a triangle lies over to it."""
    (ax, ay, az), (bx, by, bz), (cx, cy, cz) = triangle
    twice = (bx - ax) * (cy - ay) - (cx - ax) * (by - ay)
    if not twice:
        return
    along_x = ((bz - az) * (cy - ay) - (cz - az) * (by - ay)) / twice
    along_y = ((bx - ax) * (cz - az) - (cx - ax) * (bz - az)) / twice
    first = max(math.ceil((min(ay, by, cy) - columns.y0) / columns.pitch), 0)
    last = min((max(ay, by, cy) - columns.y0) // columns.pitch, columns.rows - 1)
    for row in range(first, last + 1):
        y = columns.y0 + row * columns.pitch
        ends = crossed(triangle, y)
        if ends is None:
            continue
        begin = max(math.ceil((ends[0] - columns.x0) / columns.pitch - 1e-9), 0)
        end = min(math.floor((ends[1] - columns.x0) / columns.pitch + 1e-9), columns.along - 1)
        base = az + along_y * (y - ay) + along_x * (columns.x0 - ax)
        for at in range(row * columns.along + begin, row * columns.along + end + 1):
            height = round(base + along_x * (at - row * columns.along) * columns.pitch)
            if height > heights[at]:
                heights[at] = height


def part_heights(triangles, columns, floor):
    """Returns the part's height at each column; the floor where there is no part, or where it is lower."""
    heights = array.array("i", [floor]) * (columns.along * columns.rows)
    for triangle in triangles:
        if max(it[2] for it in triangle) > floor:
            raise_by(heights, triangle, columns)
    return heights


def widest(row, reach):
    """Returns the greatest of the numbers within `reach` places of each place of a row."""
    padded = [row[0]] * reach + list(row) + [row[-1]] * reach
    width, wanted = 1, 2 * reach + 1
    while 2 * width <= wanted:
        padded = list(map(max, padded, padded[width:]))
        width *= 2
    return list(map(max, padded, padded[wanted - width :])) if wanted > width else padded


def covers(heights, columns, band):
    """Returns the greatest height within the band of each column: what covers what stands there, at most."""
    reach = band // columns.pitch
    if not reach:
        return heights
    along, rows = columns.along, columns.rows
    lines = [list(heights[it * along : (it + 1) * along]) for it in range(rows)]
    found = [list(it) for it in lines]
    for up in range(reach + 1):
        half = int(math.sqrt(band**2 - (up * columns.pitch) ** 2) // columns.pitch)
        wide = [widest(it, half) for it in lines]
        for row in range(rows):
            for other in {row - up, row + up}:
                if 0 <= other < rows:
                    found[row] = list(map(max, found[row], wide[other]))
    return array.array("i", [it for row in found for it in row])


def kind_of(top, part, cover, job, judged):
    """Returns what a column is shown as by its top, the part's height at it and what covers it."""
    if top < part - 3 and judged:
        return CUT
    if top - part <= job["allowance"]:
        return WANTED
    if not judged or top - min(top, cover) <= job["allowance"]:
        return HIDDEN
    return FULL if top >= job["top"] else HIGH


def kinds_of(tops, heights, columns, job, judged, left):
    """Returns what each column is shown as. `judged` is whether the verdict may say that columns are cut into or left
    too high; `left` has the columns that it does say so of, or is None where that is to be worked out."""
    cover = covers(heights, columns, job["band"]) if judged and left is None else heights
    kinds = bytearray(map(lambda top, part, over: kind_of(top, part, over, job, judged), tops, heights, cover))
    if left is None:
        return kinds
    for at, kind in enumerate(kinds):
        if kind in (HIGH, FULL) and at not in left:
            kinds[at] = HIDDEN
    for at in left:
        kinds[at] = FULL if tops[at] >= job["top"] else HIGH
    return kinds


def spare(kinds, tops, heights, columns, overcut, height_at):
    """Changes what columns are shown as, from cut into to wanted, where the job's overcut allows that: so near to such a
    column the part is no higher than it stands. `height_at` returns the part's height over a place, or None."""
    # (a wall lies nearer than along the nearest of eight ways)
    far = (overcut + 2) * 1.09
    ways = [(far * math.cos(it * math.pi / 4), far * math.sin(it * math.pi / 4)) for it in range(8)]
    for at in [it for it, kind in enumerate(kinds) if kind == CUT]:
        most, near = tops[at] + max(overcut, 3), neighbours(at, columns)
        x, y = columns.x0 + at % columns.along * columns.pitch, columns.y0 + at // columns.along * columns.pitch
        # (far from an edge of the part all neighbours are higher, and of those there may be many)
        is_edge = len(near) < 8 or min(heights[it] for it in near) <= most
        asides = (height_at(x + dx, y + dy) for dx, dy in ways) if is_edge else ()
        if heights[at] <= most or any(it is None or it <= most for it in asides):
            kinds[at] = WANTED


def neighbours(at, columns):
    """Returns the numbers of the columns round one, at most eight."""
    row, column = divmod(at, columns.along)
    ways = [(up, on) for up in (-1, 0, 1) for on in (-1, 0, 1) if up or on]
    return [(row + up) * columns.along + column + on for up, on in ways if 0 <= column + on < columns.along and 0 <= row + up < columns.rows]


def pieces_of(columns, chosen):
    """Returns the chosen columns in pieces whose columns are neighbours, the largest piece first: lists of numbers."""
    rest, pieces = set(chosen), []
    while rest:
        piece, ends = [], [rest.pop()]
        while ends:
            at = ends.pop()
            piece.append(at)
            for other in neighbours(at, columns):
                if other in rest:
                    rest.remove(other)
                    ends.append(other)
        pieces.append(sorted(piece))
    return sorted(pieces, key=lambda it: (-len(it), it))
