"""Reads a part in millimetres, as ASCII or binary STL, and tells its box, its open edges and its inner ones. It judges nothing.

A triangle is a tuple of three corners, each a tuple of three floats in millimetres.
"""
import math
import re
import struct
from decimal import Decimal

# The most facets that camtool takes.
MOST = 200_000
# By how many degrees the faces at an edge turn where it is one of the part, and not one between the facets of a round face.
SHARP = 30


def count_of(text):
    """Returns how many facets a binary STL has, or None where the text isn't one: its size tells."""
    if len(text) < 84:
        return None
    count = struct.unpack_from("<I", text, 80)[0]
    return count if len(text) == 84 + 50 * count else None


def triangles_of(text):
    """Returns the triangles of an STL, ASCII or binary, in the order of the text. Raises ValueError where a corner is no number."""
    count = count_of(text)
    if count is None:
        numbers = [tuple(map(float, row)) for row in re.findall(rb"vertex\s+(\S+)\s+(\S+)\s+(\S+)", text, re.I)]
        found = [tuple(numbers[it : it + 3]) for it in range(0, len(numbers) - 2, 3)]
    else:
        rows = (struct.unpack_from("<9f", text, 84 + 50 * it + 12) for it in range(count))
        found = [(row[:3], row[3:6], row[6:]) for row in rows]
    if not all(math.isfinite(it) for tri in found for corner in tri for it in corner):
        raise ValueError("a corner of it is no finite number")
    return found


def shortest(value):
    """Returns the shortest decimal that reads as this float of 32 bits, so that none of its value is lost."""
    packed = struct.pack("<f", value)
    return next(text for text in (f"{value:.{digits}g}" for digits in range(6, 10)) if struct.pack("<f", float(text)) == packed)


def ascii_of(text):
    """Returns a binary STL's triangles as ASCII STL, each coordinate exactly the file's."""
    lines = ["solid part"]
    for tri in triangles_of(text):
        corners = (f"vertex {' '.join(map(shortest, corner))}" for corner in tri)
        lines += ["facet normal 0 0 1", "outer loop", *corners, "endloop", "endfacet"]
    return "\n".join([*lines, "endsolid part", ""])


def box_of(triangles):
    """Returns the least and the greatest x, y and z of the triangles, as two lists of Decimals."""
    return [[Decimal(f"{pick(corner[axis] for tri in triangles for corner in tri):.6f}") for axis in range(3)] for pick in (min, max)]


def open_edges(triangles):
    """Returns how many edges don't belong to an even number of triangles, as each of a closed mesh does. The corners may be
    in any unit."""
    odd, numbers = set(), {}
    for tri in triangles:
        one, two, three = (numbers.setdefault(corner, len(numbers)) for corner in tri)
        for edge in ((one, two), (two, three), (three, one)):
            if edge[0] != edge[1]:
                edge = edge if edge[0] < edge[1] else edge[::-1]
                (odd.remove if edge in odd else odd.add)(edge)
    return len(odd)


def normal_of(tri):
    """Returns a triangle's normal of length 1, or None where it has no area."""
    one, two = ([tri[it][axis] - tri[0][axis] for axis in range(3)] for it in (1, 2))
    cross = [one[it - 2] * two[it - 1] - one[it - 1] * two[it - 2] for it in range(3)]
    length = math.hypot(*cross)
    return [it / length for it in cross] if length > 1e-12 else None


def inner_edges(triangles):
    """Yields the sharp inner edges of a mesh, as two corners: those at which its faces make a groove or an inner corner."""
    alone = {}
    least = math.cos(math.radians(SHARP))
    for tri in triangles:
        normal = normal_of(tri)
        if normal is None:
            continue
        for at in range(3):
            ends, apex = (tri[at], tri[at - 2]), tri[at - 1]
            other = alone.pop(ends[::-1], None)
            if other is None:
                alone[ends] = (normal, apex)
                continue
            rises = sum(other[0][axis] * (apex[axis] - ends[0][axis]) for axis in range(3))
            if rises > 1e-6 and sum(map(lambda one, two: one * two, normal, other[0])) < least:
                yield ends


def has_corners(triangles):
    """Returns whether a part has upright inner edges, into which no cutter comes."""
    return any(one[:2] == two[:2] for one, two in inner_edges(triangles))
