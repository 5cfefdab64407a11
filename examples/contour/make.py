"""Makes the part and the program of this folder again:

    python3 make.py

A block of 24 by 24 by 8 mm with a round groove, 6.20 mm wide and down to Z0, and a boss in its middle. The program goes
round the groove twice, 8 mm from its centre, first at Z4 and then at Z0, by chords of 6 degrees, as a CAM program does
where it writes no arcs.
"""
import math
import os

FOLDER = os.path.dirname(os.path.abspath(__file__))
FACETS, CHORDS = 40, 60
INNER, OUTER, MIDDLE, HALF, TOP = 4.9, 11.1, 8.0, 12.0, 8.0


def on_circle(radius, number, count, z):
    """A point of a circle about the zero, rounded to hundredths."""
    angle = 2 * math.pi * number / count
    return tuple(round(it, 2) + 0.0 for it in (radius * math.cos(angle), radius * math.sin(angle), z))


def on_border(number, z):
    """The point of the block's border on the same ray as a point of the groove."""
    angle = 2 * math.pi * number / FACETS
    far = HALF / max(abs(math.cos(angle)), abs(math.sin(angle)))
    return tuple(round(it, 2) + 0.0 for it in (far * math.cos(angle), far * math.sin(angle), z))


def triangles():
    """The triangles of the boss, of the groove and of the face round it."""
    for at in range(FACETS):
        pair = (at, at + 1)
        rings = [[on_circle(radius, it, FACETS, z) for it in pair] for radius, z in ((INNER, TOP), (INNER, 0), (OUTER, 0), (OUTER, TOP))]
        rings.append([on_border(it, TOP) for it in pair])
        yield (0.0, 0.0, TOP), *rings[0]
        for (a, b), (c, d) in zip(rings, rings[1:]):
            yield a, c, d
            yield a, d, b


def facet(triangle):
    """A triangle as ASCII STL."""
    corners = "".join("      vertex {:g} {:g} {:g}\n".format(*it) for it in triangle)
    return f"  facet normal 0 0 0\n    outer loop\n{corners}    endloop\n  endfacet\n"


def program():
    """The lines of the program."""
    yield "(groove, flat end mill of 6 mm, two layers of 4 mm)"
    yield "G17 G21 G90 G94 G40 G49 G54 G61 G80"
    yield "M3 S6000"
    yield "G0 X8.00 Y0.00 Z10.00"
    for z in (4, 0):
        yield f"G1 Z{z:.2f} F200"
        for at in range(1, CHORDS + 1):
            x, y, _ = on_circle(MIDDLE, at, CHORDS, z)
            yield f"G1 X{x:.2f} Y{y:.2f}" + (" F600" if at == 1 else "")
    yield "G0 Z10.00"
    yield "M2"


with open(os.path.join(FOLDER, "part.stl"), "w", encoding="ascii") as file:
    file.write("solid groove\n" + "".join(map(facet, triangles())) + "endsolid groove\n")
with open(os.path.join(FOLDER, "program.ngc"), "w", encoding="ascii") as file:
    file.write("".join(f"{it}\n" for it in program()))
