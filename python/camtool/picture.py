"""The picture of camtool-where: the part from above, the path, and what fails, as SVG.

Places and lengths are in the job's units; what is drawn is 800 wide.
"""
import heapq
import math
import textwrap
from xml.sax.saxutils import escape

from camtool.command import plain, stop

# The most triangles that are drawn, and the most moves: of more those nearest to the first place. Of the moves that fail
# it is the first ones.
DRAWN = 20_000
# Round how many places the cutter is drawn, and how many lines stand under a picture.
ROUND, UNDER = 50, 24
# How wide the picture is, the room for the numbers at its left and its foot, a line's height, and how many characters
# have room on a line.
WIDE, LEFT, FOOT, HIGH, CHARACTERS = 800, 52, 30, 20, 92
# The colours of the path from the lowest to the highest feed.
RAMP = ((35, 34, 107), (34, 96, 174), (47, 156, 196), (125, 211, 192))


class Picture:
    """The part from above, with the y axis upward."""

    def __init__(self, files):
        job, triangles, moves = files.job, files.triangles, files.moves
        x0, y0, x1, y1 = job["area"]
        xs = [x0, x1, *[it[0] for row in triangles for it in row], *[end[0] for move in moves for end in move[2:]]]
        ys = [y0, y1, *[it[1] for row in triangles for it in row], *[end[1] for move in moves for end in move[2:]]]
        xs, ys = with_boxes(xs, job, 0), with_boxes(ys, job, 1)
        edge = max(job["radius"], (max(xs) - min(xs)) // 20, (max(ys) - min(ys)) // 20, 100)
        self.left, self.top = min(xs) - edge, max(ys) + edge
        self.scale = (WIDE - LEFT) / (max(xs) + edge - self.left)
        self.height = (self.top - min(ys) + edge) * self.scale
        self.unit = 10**files.grid.places
        self.parts, self.lines, self.legend = [], [], []

    def xy(self, place):
        """Returns where a place is drawn."""
        return LEFT + (float(place[0]) - self.left) * self.scale, (self.top - float(place[1])) * self.scale

    def at(self, place):
        """Returns where a place is drawn, as SVG writes it."""
        return "{:.2f},{:.2f}".format(*self.xy(place))

    def stroke(self, color, width, dash=0):
        """How a line is drawn, its width and its dashes in eight-hundredths of the picture's width."""
        dashes = f' stroke-dasharray="{dash}"' if dash else ""
        return f'stroke="{color}" stroke-width="{width}"{dashes}'

    def shape(self, places, how):
        """Draws what lies between places."""
        self.parts.append(f'<polygon points="{" ".join(map(self.at, places))}" {how}/>')

    def square(self, place, side, how):
        """Draws a square about a place, its side in units."""
        x, y = self.xy(place)
        wide = max(side * self.scale, 2)
        self.parts.append(f'<rect x="{x - wide / 2:.2f}" y="{y - wide / 2:.2f}" width="{wide:.2f}" height="{wide:.2f}" {how}/>')

    def line(self, places, how):
        """Draws a line from place to place."""
        self.parts.append(f'<polyline points="{" ".join(map(self.at, places))}" fill="none" {how}/>')

    def disc(self, place, radius, how):
        """Draws a disc about a place, its radius as it is drawn."""
        x, y = self.xy(place)
        self.parts.append(f'<circle cx="{x:.2f}" cy="{y:.2f}" r="{radius:.2f}" {how}/>')

    def text(self):
        """Returns the picture with its axes, its legend and its lines."""
        rows = [part for line in self.lines for part in textwrap.wrap(line, CHARACTERS, subsequent_indent="  ") or [""]]
        foot = self.height + FOOT
        words, high = legend_of(self.legend, foot + 8)
        under = [
            f'<text x="8" y="{high + HIGH * (number + 1):.0f}" font-family="monospace" font-size="14">{escape(it)}</text>'
            for number, it in enumerate(rows)
        ]
        high += HIGH * (len(rows) + 1)
        head = f'<svg xmlns="http://www.w3.org/2000/svg" width="100%" viewBox="0 0 {WIDE} {high:.0f}" role="img" font-family="sans-serif">'
        told = f"<desc>{escape(chr(10).join(self.lines))}</desc>"
        clip = f'<clipPath id="frame"><rect x="{LEFT}" y="0" width="{WIDE - LEFT}" height="{self.height:.2f}"/></clipPath>'
        parts = ['<g clip-path="url(#frame)">', *self.parts, "</g>"]
        ground = f'<rect width="{WIDE}" height="{high:.0f}" fill="white"/>'
        return "\n".join([head, told, clip, ground, *parts, *axes_of(self), *words, *under, "</svg>"]) + "\n"


def with_boxes(places, job, axis):
    """Returns places along an axis with those of the job's boxes, that reach out at most by a third of how far the others do."""
    low, high, edges = min(places), max(places), [it[axis + end] for it in job.get("keep_out", []) for end in (0, 2)]
    return [*places, *(min(max(it, low - (high - low) // 3), high + (high - low) // 3) for it in edges)]


# ---- axes, zero, scale and legend


def step_of(picture, pixels):
    """Returns the least of 1, 2, 5, 10, 20 .. mm that is drawn at least so wide, in millimetres."""
    least = pixels / picture.scale / picture.unit
    power = 10 ** math.floor(math.log10(least))
    return next(it * power for it in (1, 2, 5, 10) if it * power >= least * (1 - 1e-9))


def number_of(millimetres):
    """Returns a length as it stands at an axis."""
    return f"{millimetres:.3f}".rstrip("0").rstrip(".") if millimetres else "0"


def ticks(low, high, step):
    """Returns the multiples of a step between two numbers."""
    return [it * step for it in range(math.ceil(low / step), math.floor(high / step) + 1)]


def axes_of(picture):
    """Returns the lines of the frame, its numbers in millimetres, the zero and the scale."""
    step, unit, foot = step_of(picture, 60), picture.unit, picture.height
    right = picture.left + (WIDE - LEFT) / picture.scale
    said = [f'<rect x="{LEFT}" y="0.5" width="{WIDE - LEFT - 0.5}" height="{foot:.2f}" fill="none" stroke="#888"/>']
    for x in ticks((picture.left + 12 / picture.scale) / unit, (right - 12 / picture.scale) / unit, step):
        at = picture.xy((x * unit, 0))[0]
        said.append(f'<path d="M{at:.2f} {foot:.2f}v5" stroke="#888"/>')
        said.append(f'<text x="{at:.2f}" y="{foot + 19:.2f}" text-anchor="middle" font-size="13">X{number_of(x)}</text>')
    for y in ticks((picture.top - foot / picture.scale) / unit, (picture.top - 8 / picture.scale) / unit, step):
        at = picture.xy((0, y * unit))[1]
        said.append(f'<path d="M{LEFT} {at:.2f}h-5" stroke="#888"/>')
        said.append(f'<text x="{LEFT - 8}" y="{at + 4.5:.2f}" text-anchor="end" font-size="13">Y{number_of(y)}</text>')
    return said + [*zero_of(picture), *scale_of(picture)]


def zero_of(picture):
    """Returns the sign of X0 Y0, where it lies in the picture."""
    x, y = picture.xy((0, 0))
    if not (LEFT <= x <= WIDE and 0 <= y <= picture.height):
        return []
    return [
        f'<circle cx="{x:.2f}" cy="{y:.2f}" r="6" fill="none" stroke="#0b57c2" stroke-width="2"/>',
        f'<path d="M{x - 11:.2f} {y:.2f}h22M{x:.2f} {y - 11:.2f}v22" stroke="#0b57c2"/>',
    ]


def scale_of(picture):
    """Returns a line as long as it says."""
    long = step_of(picture, 70)
    wide, y = long * picture.unit * picture.scale, picture.height - 12
    x = WIDE - 14 - wide
    return [
        f'<rect x="{x - 7:.2f}" y="{y - 18:.2f}" width="{wide + 14:.2f}" height="26" fill="white" fill-opacity="0.85"/>',
        f'<path d="M{x:.2f} {y - 4:.2f}v8M{x:.2f} {y:.2f}h{wide:.2f}M{x + wide:.2f} {y - 4:.2f}v8" stroke="black" stroke-width="1.5"/>',
        f'<text x="{x + wide / 2:.2f}" y="{y - 5:.2f}" text-anchor="middle" font-size="12">{number_of(long)} mm</text>',
    ]


def legend_of(entries, high):
    """Returns what each colour means, from a height on, and the height under it."""
    said, x, y = [], 8, high + 14
    for sign, text in entries:
        wide = 30 + 6.7 * len(text)
        if x + wide > WIDE:
            x, y = 8, y + HIGH
        said.append(f'<g transform="translate({x:.0f} {y - 11:.0f})">{sign}</g><text x="{x + 22:.0f}" y="{y:.0f}" font-size="13">{escape(text)}</text>')
        x += wide
    return said, y + 6


def swatch(how):
    """Returns the sign of what is filled."""
    return f'<rect width="16" height="13" {how}/>'


def dash_of(how):
    """Returns the sign of a line."""
    return f'<path d="M0 7H17" fill="none" {how}/>'


# ---- what is drawn


def drawn(rows, distance):
    """Returns the numbers of the rows that are drawn: of more than that those of the least distance."""
    if len(rows) <= DRAWN:
        return range(len(rows))
    return sorted(heapq.nsmallest(DRAWN, range(len(rows)), key=lambda it: distance(rows[it])))


def move_distance(move, near):
    """Returns the square of how far a move passes a place by, from above."""
    one = [float(it) - float(place) for it, place in zip(move.start, near[:2])]
    way = [end - start for start, end in zip(move.start[:2], move.end)]
    length = sum(it * it for it in way)
    part = -sum(it * along for it, along in zip(one, way)) / length if length else 0
    part = min(max(part, 0), 1)
    return sum((it + part * along) ** 2 for it, along in zip(one, way))


def left_out(files, marks):
    """Returns the lines on what isn't drawn."""
    said = []
    for rows, what in ((files.triangles, "triangles of the part"), (files.moves, "moves of the program")):
        if len(rows) > DRAWN:
            said.append(f"of the {len(rows):,} {what} those {DRAWN:,} are drawn that are nearest to the first place")
    if len(marks.moves) > DRAWN:
        said.append(f"of the {len(marks.moves):,} moves that fail the first {DRAWN:,} are drawn in red")
    return said


def is_seen(triangle):
    """Returns whether a triangle isn't upright, and so is seen from above."""
    (ax, ay, _), (bx, by, _), (cx, cy, _) = triangle
    return (bx - ax) * (cy - ay) != (cx - ax) * (by - ay)


def draw_part(picture, files, near):
    """Draws the triangles, from the lowest up, so that the higher ones cover what lies under them; the higher, the darker.
    They have no outlines: how the mesh is cut up isn't the part's shape."""
    triangles = [it for it in files.triangles if is_seen(it)]
    shown = drawn(triangles, lambda it: sum((it[0][axis] - near[axis]) ** 2 for axis in (0, 1)))
    heights = [sum(corner[2] for corner in triangles[it]) / 3 for it in shown]
    low, high = min(heights, default=0), max(heights, default=1)
    picture.parts.append('<g shape-rendering="crispEdges">')
    for height, it in sorted(zip(heights, shown)):
        shade = round(232 - (100 * (height - low) / (high - low) if high > low else 0))
        picture.shape(triangles[it], f'fill="rgb({shade - 2},{shade},{min(shade + 4, 255)})"')
    picture.parts.append("</g>")
    picture.legend.append((swatch('fill="rgb(175,178,183)"'), "the part (dark: high)"))


def draw_boxes(picture, files, marks):
    """Draws what stands on the machine: the boxes of `keep_out`, those that a move fails by in red."""
    boxes = files.job.get("keep_out", [])
    for number, (x0, y0, x1, y1, _) in enumerate(boxes):
        color = "#c5161d" if number in marks.boxes else "#6b4a1f"
        picture.shape([(x0, y0), (x1, y0), (x1, y1), (x0, y1)], f'fill="#b9935a" fill-opacity="0.55" {picture.stroke(color, 1.6)}')
    if boxes:
        picture.legend.append((swatch('fill="#b9935a" fill-opacity="0.55" stroke="#6b4a1f"'), "what stands on the machine (keep_out)"))


def color_of(part):
    """Returns the colour of a height, from 0 for the lowest to 1 for the highest."""
    at = min(max(part, 0), 1) * (len(RAMP) - 1)
    low = min(int(at), len(RAMP) - 2)
    return "rgb({},{},{})".format(*(round(a + (b - a) * (at - low)) for a, b in zip(RAMP[low], RAMP[low + 1])))


def ways_of(moves, shown):
    """Returns the moves of these numbers as pairs of a move and its places: neighbouring feeds of one line at one height, that
    go on from each other as the chords of an arc do, are one, with the places between them."""
    ways, last = [], None
    for number in sorted(shown):
        move = moves[number]
        goes_on = ways and number - 1 == last and ways[-1][0][:2] == move[:2] and move.kind == "feed" and ways[-1][1][-1] == move.start
        last = number
        if goes_on and ways[-1][0].end[2] == move.end[2]:
            ways[-1][1].append(move.end)
        else:
            ways.append((move, [move.start, move.end]))
    return ways


def draw_path(picture, files, near):
    """Draws the job's area, and the way of the program: its feeds by their height."""
    x0, y0, x1, y1 = files.job["area"]
    picture.shape([(x0, y0), (x1, y0), (x1, y1), (x0, y1)], f'fill="none" {picture.stroke("green", 1, 6)}')
    picture.legend.append((dash_of(picture.stroke("green", 1, 6)), "the area"))
    feeds = [it.end[2] for it in files.moves if it.kind == "feed"]
    low, high = min(feeds, default=0), min(max(feeds, default=1), files.job["top"])
    shown = ways_of(files.moves, drawn(files.moves, lambda it: move_distance(it, near)))
    # (what is lower is drawn above what is higher, and the rapids under both)
    for move, places in sorted(shown, key=lambda it: (it[0].kind == "feed", -it[0].end[2])):
        color = "#6a7079" if move.kind == "rapid" else color_of((move.end[2] - low) / max(high - low, 1))
        picture.line(places, picture.stroke(color, 1 if move.kind == "rapid" else 1.4, 4 if move.kind == "rapid" else 0))
    z = files.grid.millimetres
    picture.legend.append((dash_of(picture.stroke(color_of(0), 3)), f"feeds, the lowest at Z{z(low)}"))
    if high > low:
        picture.legend.append((dash_of(picture.stroke(color_of(1), 3)), f"feeds at Z{z(high)} or higher"))
    picture.legend.append((dash_of(picture.stroke("#6a7079", 1, 4)), "rapids"))


def draw_pieces(picture, job, pieces):
    """Draws the pieces that fail, and round the first of them the cutter and its holder."""
    middles = [tuple((one + other) / 2 for one, other in zip(*piece)) for piece in pieces]
    for middle in middles[:ROUND]:
        picture.disc(middle, job["radius"] * picture.scale, f'fill="red" fill-opacity="{0.12 / min(len(middles), 6):.2f}" {picture.stroke("red", 1)}')
        if "holder_radius" in job:
            picture.disc(middle, job["holder_radius"] * picture.scale, f'fill="none" {picture.stroke("red", 1, 4)}')
    for piece, middle in zip(pieces, middles):
        picture.line(piece, f'{picture.stroke("darkred", 4)} stroke-linecap="round"')
        picture.disc(middle, 3, 'fill="darkred"')
    if pieces:
        holder = " (dashed: its holder)" if "holder_radius" in job else ""
        picture.legend.append(('<circle cx="8" cy="7" r="6" fill="#fdd" stroke="red"/>', f"the cutter where a move fails{holder}"))


def draw_columns(picture, job, marks):
    """Draws the columns that are in the way or are left too high, as squares of a pitch."""
    columns = dict.fromkeys(marks.columns)
    for column in columns:
        picture.square(column, job["pitch"], 'fill="purple" fill-opacity="0.55"')
    for column in list(columns)[:1]:
        picture.disc(column, 9, f'fill="none" {picture.stroke("purple", 2)}')
    if columns:
        picture.legend.append((swatch('fill="purple" fill-opacity="0.55"'), "stock in the way, or left too high (a ring: the first)"))


def draw_marks(picture, job, marks):
    """Draws what is in the way, the moves that fail, and where."""
    for triangle in dict.fromkeys(marks.triangles[:DRAWN]):
        how = 'fill="rgb(255,190,90)" fill-opacity="0.5" stroke="rgb(220,120,0)" stroke-width="1" stroke-linejoin="round"'
        picture.shape(triangle, how)
    if marks.triangles:
        picture.legend.append((swatch('fill="rgb(255,190,90)" stroke="rgb(220,120,0)"'), "the first triangle that each meets"))
    for move in marks.moves[:DRAWN]:
        picture.line((move.start, move.end), picture.stroke("red", 2))
    if marks.moves:
        picture.legend.append((dash_of(picture.stroke("red", 2)), "moves that fail"))
    draw_columns(picture, job, marks)
    draw_pieces(picture, job, marks.pieces[:DRAWN])


def picture_of(files, said, marks):
    """Returns the picture as a text of SVG."""
    picture = Picture(files)
    draw_part(picture, files, marks.first())
    draw_boxes(picture, files, marks)
    draw_path(picture, files, marks.first())
    draw_marks(picture, files.job, marks)
    picture.legend.append(('<circle cx="8" cy="7" r="5" fill="none" stroke="#0b57c2" stroke-width="2"/>', "X0 Y0"))
    more = [f"and {len(said) - UNDER:,} more lines"] if len(said) > UNDER else []
    picture.lines = [*map(plain, said[:UNDER]), *more, *left_out(files, marks)]
    return picture.text()


def draw(name, files, said, marks):
    """Stores the picture, or stops where that can't be."""
    try:
        with open(name, "w", encoding="utf-8") as file:
            file.write(picture_of(files, said, marks))
    except OSError as error:
        stop(f"{name}: {error.strerror}")
