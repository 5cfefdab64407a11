"""Where a tool is in the part: the shape of a cutter, and how far triangles reach into it. A help for pages, not proved.

All lengths are in the job's units; a place is (x, y, z), a triangle three places. What is measured here is said with
"about": the verdict is camtool's.
"""
import collections
import math

# A place of a tool's tip, and how far the part reaches into the tool there: sideways, and upward from the tool's
# surface; the part's nearest place, and the triangle's steepness: 0 level, 1 upright.
Hit = collections.namedtuple("Hit", "tip side up place steepness")
# How many triangles share a bucket, and into how many heights a ball or a cone is sliced.
SHARE, SLICES = 4, 12


class Shape:
    """A cutter about an upright axis, located by its tip: "flat", "ball" or "cone", that goes upward without end."""

    def __init__(self, keys):
        self.form, self.radius = keys["cutter"], keys["radius"]
        self.slope = keys["rise"] / keys["run"] if self.form == "cone" else 0

    def reach(self, height):
        """Returns the radius at a height over the tip."""
        if self.form == "ball" and height < self.radius:
            return math.sqrt(max(height * (2 * self.radius - height), 0))
        return min(self.radius, height / self.slope) if self.slope else self.radius

    def height(self, distance):
        """Returns how high over the tip the surface is at a distance from the axis."""
        if self.form == "ball":
            return self.radius - math.sqrt(max(self.radius**2 - distance**2, 0))
        return distance * self.slope

    def slices(self):
        """Returns the heights over the tip at which the tool is looked at."""
        if self.form == "flat":
            return [0.5]
        high = self.height(self.radius)
        return [high * (it + 1) / SLICES for it in range(SLICES)]

    def outline(self):
        """Returns the right half of the outline from the tip up to the full radius: pairs of distance and height."""
        if self.form == "flat":
            return [(0, 0), (self.radius, 0)]
        distances = [self.radius * math.sin(math.pi / 2 * it / 16) for it in range(17)]
        return [(it, self.height(it)) for it in (distances if self.form == "ball" else (0, self.radius))]


class Cylinder(Shape):
    """A holder, as a flat cutter of its radius; its tip is the middle of its lower face."""

    def __init__(self, radius):
        super().__init__({"cutter": "flat", "radius": radius})


class Near:
    """The triangles of a part by the square of ground that they lie over."""

    def __init__(self, triangles):
        self.triangles, self.buckets = triangles, collections.defaultdict(list)
        xs = [corner[0] for triangle in triangles for corner in triangle] or [0]
        ys = [corner[1] for triangle in triangles for corner in triangle] or [0]
        ground = max((max(xs) - min(xs)) * (max(ys) - min(ys)), 1)
        self.size = max(int(math.sqrt(ground * SHARE / max(len(triangles), 1))), 1)
        for number, triangle in enumerate(triangles):
            for cell in self.cells(*box_of(triangle)):
                self.buckets[cell].append(number)

    def cells(self, x0, y0, x1, y1):
        """Returns the squares that a box meets."""
        size = self.size
        across = range(int(x0 // size), int(x1 // size) + 1)
        return [(x, y) for y in range(int(y0 // size), int(y1 // size) + 1) for x in across]

    def over(self, x0, y0, x1, y1):
        """Returns the triangles that may lie over a box, each once."""
        cells = self.cells(x0, y0, x1, y1)
        if len(cells) > len(self.buckets):
            return self.triangles
        buckets = self.buckets
        numbers = {number for cell in cells if cell in buckets for number in buckets[cell]}
        return [self.triangles[it] for it in sorted(numbers)]

    def height(self, x, y):
        """Returns the part's height over a place, or None where there is no part."""
        found = (height_over(it, x, y) for it in self.over(x, y, x, y))
        return max((it for it in found if it is not None), default=None)


def box_of(triangle):
    """Returns the least and the greatest x and y of a triangle: x0, y0, x1, y1."""
    (ax, ay, _), (bx, by, _), (cx, cy, _) = triangle
    return min(ax, bx, cx), min(ay, by, cy), max(ax, bx, cx), max(ay, by, cy)


def height_over(triangle, x, y):
    """Returns the height of a triangle over a place; None where it doesn't lie over it, or is upright."""
    (ax, ay, az), (bx, by, bz), (cx, cy, cz) = triangle
    twice = (bx - ax) * (cy - ay) - (cx - ax) * (by - ay)
    if not twice:
        return None
    of_b = ((x - ax) * (cy - ay) - (cx - ax) * (y - ay)) / twice
    of_c = ((bx - ax) * (y - ay) - (x - ax) * (by - ay)) / twice
    if of_b < -1e-9 or of_c < -1e-9 or of_b + of_c > 1 + 1e-9:
        return None
    return az + of_b * (bz - az) + of_c * (cz - az)


def steepness_of(triangle):
    """Returns 0 for a level triangle, 1 for an upright one, and between them the sine of its angle."""
    (ax, ay, az), (bx, by, bz), (cx, cy, cz) = triangle
    ux, uy, uz, vx, vy, vz = bx - ax, by - ay, bz - az, cx - ax, cy - ay, cz - az
    across = math.hypot(uy * vz - uz * vy, uz * vx - ux * vz)
    length = math.hypot(across, ux * vy - uy * vx)
    return across / length if length else 1


def above(corners, low):
    """Returns the corners of what of a polygon lies at or over a height."""
    kept = []
    for one, other in zip(corners, corners[1:] + corners[:1]):
        if one[2] >= low:
            kept.append(one)
        if (one[2] >= low) != (other[2] >= low):
            part = (low - one[2]) / (other[2] - one[2])
            kept.append(tuple(start + part * (end - start) for start, end in zip(one, other)))
    return kept


def nearest_on(one, other, x, y):
    """Returns the place on a line between two places that is nearest to (x, y), as seen from above."""
    dx, dy = other[0] - one[0], other[1] - one[1]
    length = dx * dx + dy * dy
    part = min(max(((x - one[0]) * dx + (y - one[1]) * dy) / length, 0), 1) if length else 0
    return tuple(start + part * (end - start) for start, end in zip(one, other))


def nearest_in(corners, x, y):
    """Returns the place of a polygon that is nearest to (x, y), as seen from above."""
    turns = [(b[0] - a[0]) * (y - a[1]) - (b[1] - a[1]) * (x - a[0]) for a, b in zip(corners, corners[1:] + corners[:1])]
    if len(corners) > 2 and any(turns) and (min(turns) >= 0 or max(turns) <= 0):
        height = height_over(tuple(corners[:3]), x, y)
        return x, y, height if height is not None else max(it[2] for it in corners)
    sides = (nearest_on(one, other, x, y) for one, other in zip(corners, corners[1:] + corners[:1]))
    return min(sides, key=lambda it: (it[0] - x) ** 2 + (it[1] - y) ** 2)


def hit_of(shape, tip, triangle):
    """Returns how far a triangle reaches into a tool with its tip there; None where it doesn't."""
    x, y, z = tip
    corners, best = list(triangle), None
    if max(it[2] for it in corners) <= z:
        return None
    for height in shape.slices():
        rest = above(corners, z + height)
        if not rest:
            break
        place = nearest_in(rest, x, y)
        side = shape.reach(height) - math.hypot(place[0] - x, place[1] - y)
        if side > 0 and (best is None or side > best.side):
            best = Hit(tip, side, 0, place, 0)
    if best is None:
        return None
    places = [best.place, *(it for it in corners if math.hypot(it[0] - x, it[1] - y) < shape.radius)]
    up = max(it[2] - z - shape.height(min(math.hypot(it[0] - x, it[1] - y), shape.radius)) for it in places)
    return best._replace(up=up, steepness=steepness_of(triangle))


def hit_at(shape, tip, near):
    """Returns the farthest that the part reaches into a tool with its tip there: sideways that of one triangle, of
    equal ones the steepest, and upward the most of all; None where it doesn't."""
    x, y, _ = tip
    radius = shape.radius
    hits = [hit_of(shape, tip, it) for it in near.over(x - radius, y - radius, x + radius, y + radius)]
    hits = [it for it in hits if it is not None]
    if not hits:
        return None
    most = max(it.side for it in hits)
    worst = max((it for it in hits if it.side > most - 1.5), key=lambda it: it.steepness)
    return worst._replace(side=most, up=max(it.up for it in hits))


def hit_on(shape, start, end, near):
    """Returns the farthest that the part reaches into a tool on its way: how far is looked at up to 24 places of it."""
    length = math.dist(start, end)
    count = min(max(int(2 * length / shape.radius), 1), 24)
    tips = [tuple(a + (b - a) * it / count for a, b in zip(start, end)) for it in range(count + 1)]
    hits = [it for it in (hit_at(shape, tip, near) for tip in tips) if it is not None]
    if not hits:
        return None
    deep = max(hits, key=lambda it: (it.side, it.up))
    return deep._replace(up=max(it.up for it in hits))
