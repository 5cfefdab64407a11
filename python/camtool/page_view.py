"""The side view of a place: the part and what is left of the stock, cut through upright, and the tool.

Lengths are in the job's units; a view goes `wide` to both sides of a middle place, along a direction.
"""
import math

# How many heights a view has, and how many views a page.
SAMPLES, MOST = 241, 160


def direction_of(dx, dy):
    """Returns a direction of length 1; None where it is none."""
    length = math.hypot(dx, dy)
    return (dx / length, dy / length) if length > 0.5 else None


def facing(measured, move):
    """Returns the direction of a view: from the tool to what it meets, or along the move."""
    tip, place = measured.hit.tip, measured.hit.place
    found = direction_of(place[0] - tip[0], place[1] - tip[1])
    return found or direction_of(move.end[0] - move.start[0], move.end[1] - move.start[1]) or (1.0, 0.0)


def profile(seen, middle, along, wide):
    """Returns the part's heights along the view, and those of the stock that is left; the floor where there is none."""
    part, stock, floor = [], [], seen.job["floor"]
    for number in range(SAMPLES):
        beside = wide * (2 * number / (SAMPLES - 1) - 1)
        x, y = middle[0] + along[0] * beside, middle[1] + along[1] * beside
        height = seen.near.height(x, y)
        part.append(max(round(height), floor) if height is not None else floor)
        stock.append(top_near(seen, x, y))
    return part, stock


def boxes_along(job, middle, along, wide):
    """Returns the boxes of `keep_out` that a view cuts through: for each from where to where it does, and the height."""
    found = []
    for x0, y0, x1, y1, z in job.get("keep_out", []):
        low, high = -wide, wide
        for start, step, least, most in ((middle[0], along[0], x0, x1), (middle[1], along[1], y0, y1)):
            if abs(step) > 1e-9:
                one, other = sorted(((least - start) / step, (most - start) / step))
                low, high = max(low, one), min(high, other)
            elif not least <= start <= most:
                high = low - 1
        found += [[round(low), round(high), z]] if low <= high else []
    return found


def top_near(seen, x, y):
    """Returns the top of the column that is nearest to a place; the floor outside of the area."""
    columns = seen.columns
    column, row = round((x - columns.x0) / columns.pitch), round((y - columns.y0) / columns.pitch)
    # (what stands outside of the area isn't looked at)
    inside = 0 <= x - columns.x0 <= (columns.along - 1) * columns.pitch and 0 <= y - columns.y0 <= (columns.rows - 1) * columns.pitch
    return seen.tops[row * columns.along + column] if inside and seen.tops else seen.job["floor"]


def view_of_move(seen, measured):
    """Returns the side view of a move that fails."""
    step = seen.steps[measured.item.step]
    move, job = step.moves[measured.item.move], step.job
    tip, place = measured.hit.tip, measured.hit.place
    along = facing(measured, move)
    wide = 1.7 * max(job["radius"], job.get("holder_radius", 0) if measured.item.test.startswith("holder") else 0)
    part, stock = profile(seen, tip, along, wide)
    beside = lambda it: round((it[0] - tip[0]) * along[0] + (it[1] - tip[1]) * along[1])
    view = {"middle": [round(it) for it in tip], "along": along, "wide": round(wide), "part": part, "stock": stock, "step": measured.item.step}
    view["hit"] = [beside(place), round(place[2])]
    view["boxes"] = boxes_along(job, tip, along, wide)
    view["column"] = measured.item.column and [beside(measured.item.column[2:4]), round(place[2])]
    return view


def view_of_piece(seen, finding):
    """Returns the side view of a piece of stock that is left too high: through its highest column, along its longer side."""
    x, y, top = finding.columns[0] if finding.kind == "hidden" else max(finding.columns, key=lambda it: it[2])
    xs, ys = ([it[axis] for it in finding.columns] for axis in (0, 1))
    wide_x, wide_y = max(xs) - min(xs), max(ys) - min(ys)
    along = (1.0, 0.0) if wide_x >= wide_y else (0.0, 1.0)
    middle = ((min(xs) + max(xs)) / 2, y) if wide_x >= wide_y else (x, (min(ys) + max(ys)) / 2)
    # (wide enough for a view that is no taller than it is wide)
    wide = max(max(wide_x, wide_y) / 2 + 2 * seen.job["radius"], 0.9 * (top - seen.job["floor"]))
    return place_view(seen, middle, top, along, wide)


def view_of_middle(seen):
    """Returns the side view through the middle of the area, along its longer side."""
    x0, y0, x1, y1 = seen.job["area"]
    along = (1.0, 0.0) if x1 - x0 >= y1 - y0 else (0.0, 1.0)
    middle, wide = ((x0 + x1) / 2, (y0 + y1) / 2), max(x1 - x0, y1 - y0, 2) * 0.52
    return place_view(seen, middle, seen.job["top"], along, max(wide, 0.9 * (seen.job["top"] - seen.job["floor"])))


def place_view(seen, middle, top, along, wide):
    """Returns a side view with no tool in it."""
    part, stock = profile(seen, middle, along, wide)
    return {
        "middle": [round(middle[0]), round(middle[1]), top], "along": along, "wide": round(wide), "part": part, "stock": stock,
        "step": None, "hit": None, "column": None, "boxes": boxes_along(seen.job, middle, along, wide)}


def views_of(seen, findings):
    """Returns the side views, and which of them each failing move has, by program and number of the move; a finding on
    what is left has it by its own number."""
    views, of_moves, of_findings = [], {}, {}
    rounds = max((len(it.moves) for it in findings), default=0)
    for number, finding in enumerate(findings):
        if finding.columns:
            of_findings[number] = len(views)
            views.append(view_of_piece(seen, finding))
    for turn in range(rounds):
        for finding in findings:
            if turn < len(finding.moves) and len(views) < MOST:
                one = finding.moves[turn]
                of_moves[one.item.step, one.item.move] = len(views)
                views.append(view_of_move(seen, one))
    return views, of_moves, of_findings
