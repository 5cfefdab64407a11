"""camtool-loops [JOB] [--picture=SVG]

Draws what `./camtool level` prints, which comes on standard input: each chain from above, closed ones
filled on the part's side, with a dot at each point and an arrow at its start. With JOB its area is
drawn too. The picture is loops.svg if no other name is given.

    ./camtool level job.toml part.stl --z=1.50 | camtool-loops job.toml

This is a help for reading, and no part of what is proved. Python 3.9 or later, with its standard
library alone. Status: 0 where it drew something, 1 where there is no chain, 2 where it could not.
"""
import re
import sys

from camtool import command, texts
from camtool.command import stop

MARGIN, WIDTH = 0.06, 800


def chains_of(lines):
    """The chains that the lines print, each with whether it is closed."""
    chains = []
    at = 0
    while at < len(lines):
        head = re.fullmatch(r"(closed|open|chains) (\d+)", lines[at])
        if not head:
            stop(f"line {at + 1} isn't one of `level`: {lines[at]}")
        kind, count = head[1], int(head[2])
        if kind == "chains":
            if at + 1 != len(lines) or count != len(chains):
                stop("the text is cut short")
            return chains
        points = [point_of(line) for line in lines[at + 1 : at + 1 + count]]
        if len(points) != count or None in points:
            stop("the text is cut short")
        chains.append((kind == "closed", points))
        at += 1 + count
    stop("the text is cut short")


def point_of(line):
    """The point of a line, or None where it has none."""
    found = re.fullmatch(r"(-?\d+\.\d+) (-?\d+\.\d+)", line)
    return found and (float(found[1]), float(found[2]))


def area_of(name):
    """The job's area in millimetres: x0, y0, x1, y1."""
    try:
        with open(name, "rb") as file:
            job = texts.job_of(file.read())
        x0, y0, x1, y1 = (it / 10 ** texts.Grid(job).places for it in job["area"])
    except (OSError, KeyError, TypeError, ValueError):
        stop(f"{name}: no area was found in it")
    return x0, y0, x1, y1


def picture(chains, area):
    """The text of the picture."""
    places = [it for _, points in chains for it in points]
    if area:
        places += [area[:2], area[2:]]
    x0, x1 = min(x for x, _ in places), max(x for x, _ in places)
    y0, y1 = min(y for _, y in places), max(y for _, y in places)
    size = max(x1 - x0, y1 - y0, 0.01)
    scale = WIDTH / (size * (1 + 2 * MARGIN))

    def place(point):
        """Returns where a point is drawn, as SVG writes it."""
        return f"{(point[0] - x0 + size * MARGIN) * scale:.1f},{(y1 - point[1] + size * MARGIN) * scale:.1f}"

    height = (y1 - y0 + 2 * size * MARGIN) * scale
    width = (x1 - x0 + 2 * size * MARGIN) * scale
    out = [
        f'<svg xmlns="http://www.w3.org/2000/svg" width="{width:.0f}" height="{height:.0f}" font-family="sans-serif">',
        '<defs><marker id="start" markerWidth="8" markerHeight="8" refX="1" refY="4" orient="auto">'
        '<path d="M0,1 L7,4 L0,7 z" fill="#b00020"/></marker></defs>',
        '<rect width="100%" height="100%" fill="white"/>',
    ]
    if area:
        corners = [(area[0], area[1]), (area[2], area[1]), (area[2], area[3]), (area[0], area[3])]
        out.append(f'<polygon points="{" ".join(map(place, corners))}" fill="none" stroke="#888" stroke-dasharray="6 4"/>')
    closed = " ".join("M" + " L".join(map(place, points)) + " z" for is_closed, points in chains if is_closed)
    out.append(f'<path d="{closed}" fill="#cfe3f7" fill-rule="evenodd" stroke="none"/>')
    for is_closed, points in chains:
        ends = points + points[:1] if is_closed else points
        line = " ".join(map(place, ends))
        out.append(f'<polyline points="{line}" fill="none" stroke="#1b5e9e" stroke-width="1.5" marker-start="url(#start)"/>')
        for point in points:
            x, y = place(point).split(",")
            out.append(f'<circle cx="{x}" cy="{y}" r="1.8" fill="#1b5e9e"/>')
    return "\n".join(out + ["</svg>"]) + "\n"


def main(words=None):
    """The command: returns its status."""
    reader = command.Words(__doc__)
    reader.add_argument("job", nargs="?")
    reader.add_argument("--picture", default="loops.svg")
    asked = reader.read(words)
    chains = chains_of(sys.stdin.read().splitlines())
    if not chains:
        print("no chain: every place of the lattice is free, or every one is blocked")
        return 1
    command.write(asked.picture, picture(chains, area_of(asked.job) if asked.job else None))
    print(f"{len(chains)} chains, {sum(len(points) for _, points in chains)} points: {asked.picture}")
    return 0
