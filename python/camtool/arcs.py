"""Arcs as chords, as docs/FORMATS.md has them. It is no part of what is proved.

Lengths are whole numbers of nanometres, in which the text's decimals aren't rounded; nothing is decided by a float. `unit` is
the number of nanometres in a unit of the job: 10,000, or 1,000 in thousandths. A vector is a pair in the arc's plane.
"""
import collections
from math import isqrt

# Of each plane, by its G word, the axes from the first of which G3 turns to the second, and the third one.
PLANES = {17: (0, 1, 2), 18: (2, 0, 1), 19: (1, 2, 0)}
# Which way G3 and G2 turn.
COUNTERCLOCKWISE, CLOCKWISE = 1, -1
# A radius is no less than a micrometre, and an end that isn't the start half a micrometre from it along the arc.
LEAST_RADIUS, LEAST_LENGTH = 1_000, 500
# A part of a turn that so many halvings make isn't halved any more; no arc comes to it.
MOST_HALVINGS = 16

# A vector from the centre with its radius, to the nanometre.
Node = collections.namedtuple("Node", "vector radius")


class Endless(ArithmeticError):
    """After MOST_HALVINGS a part of an arc is no chord yet."""


def nearest(top, bottom):
    """Returns the whole number nearest to top/bottom, ties away from zero; `bottom` is over 0."""
    whole = (2 * abs(top) + bottom) // (2 * bottom)
    return whole if top >= 0 else -whole


def dot(one, other):
    """Returns the scalar product of two vectors."""
    return one[0] * other[0] + one[1] * other[1]


class Arc:
    """An arc from a place to another one, or to the same by a whole turn.

    start, end  the places, three coordinates each
    offsets     where the centre is from the start, a vector
    plane       the arc's axes, one of PLANES
    turn        COUNTERCLOCKWISE or CLOCKWISE
    """

    def __init__(self, start, end, offsets, plane, turn):
        self.start, self.end, self.plane, self.turn = start, end, plane, turn
        self.centre = tuple(start[axis] + it for axis, it in zip(plane, offsets))
        first, last = (tuple(place[axis] - it for axis, it in zip(plane, self.centre)) for place in (start, end))
        self.first, self.last = (Node(it, isqrt(dot(it, it))) for it in (first, last))
        self.least, self.greatest = sorted((self.first.radius, self.last.radius))
        self.middle = (self.first.radius + self.last.radius) // 2

    def ahead(self, one, other):
        """Returns the vector product of two vectors, over 0 where the turn goes from one to the other by under half a turn."""
        return self.turn * (one[0] * other[1] - one[1] * other[0])

    def flaw(self, tolerance):
        """Returns why this isn't taken as an arc, or None where it is sound: its radii are at least LEAST_RADIUS and no more
        than the tolerance apart, neither is over twice the other, and start and end are the same or lie LEAST_LENGTH apart
        along the arc."""
        least, greatest, first, last = self.least, self.greatest, self.first.vector, self.last.vector
        if least < LEAST_RADIUS:
            return "its radius is under a micrometre"
        if greatest - least > tolerance or greatest > 2 * least:
            start, end = (f"{it.radius / 1_000_000:.4f}" for it in (self.first, self.last))
            return f"its start is {start} mm from its centre, and its end {end} mm"
        is_far = dot(first, last) <= 0 or abs(self.ahead(first, last)) >= LEAST_LENGTH * greatest
        return None if first == last or is_far else "its start and its end are next to each other, and not the same"

    def is_chord(self, one, other, unit):
        """Whether a part is under a quarter turn and its sagitta about a unit or less."""
        product = dot(one.vector, other.vector)
        is_near = one.radius * other.radius - product <= 4 * self.least * unit
        return self.ahead(one.vector, other.vector) > 0 and product >= 0 and is_near

    def halfway(self, one, other):
        """Returns the Node in the middle of the turn from one Node to another: as far from the centre as the middle of the
        two radii. Its direction is found by what is well conditioned: up to a quarter of a turn and from three quarters on
        by the sum of the two, between by their difference."""
        (x, y), (to_x, to_y) = one.vector, other.vector
        if dot(one.vector, other.vector) < 0:
            way = self.turn * (to_y - y), self.turn * (x - to_x)
        else:
            side = 1 if self.ahead(one.vector, other.vector) > 0 else -1
            way = side * (x + to_x), side * (y + to_y)
        length = isqrt(dot(way, way))
        return Node(tuple(nearest(it * self.middle, length) for it in way), self.middle)

    def parts(self, unit):
        """Returns the ends of the chords of a sound arc, each with the part of the turn that it ends: triples of a Node and
        of i and d, where it is i/2^d. Raises Endless."""
        found, waiting = [], [(self.first, self.last, 0, 0)]
        while waiting:
            one, other, part, halvings = waiting.pop()
            if self.is_chord(one, other, unit):
                found.append((other, part + 1, halvings))
                continue
            if halvings == MOST_HALVINGS:
                raise Endless
            middle = self.halfway(one, other)
            waiting.append((middle, other, 2 * part + 1, halvings + 1))
            waiting.append((one, middle, 2 * part, halvings + 1))
        return found

    def places(self, unit):
        """Returns where the chords of a sound arc end, as places in whole units. The third coordinate goes evenly with the
        parts of the turn. Raises Endless."""
        third = self.plane[2]
        low, high, found = self.start[third], self.end[third], []
        for node, part, halvings in self.parts(unit):
            whole, place = 1 << halvings, [0, 0, 0]
            for axis, middle, it in zip(self.plane, self.centre, node.vector):
                place[axis] = nearest(middle + it, unit)
            place[third] = nearest(low * (whole - part) + high * part, whole * unit)
            found.append(tuple(place))
        return found
