"""The path that a page draws: a program's moves, or as many straight ways near them as can be drawn.

Places are in the job's units.
"""
import collections

# The most ways that are drawn.
MOST = 60_000
# A way that is drawn: which program of a list it is of, from 0; "rapid" or "feed"; the first and the last line, from 1,
# of its moves; and its two ends.
Way = collections.namedtuple("Way", "step kind first last start end")


def is_along(start, end, place, tolerance):
    """Returns whether a place lies on the straight way onward from two places, at most so far beside it."""
    x, y, z = end[0] - start[0], end[1] - start[1], end[2] - start[2]
    i, j, k = place[0] - end[0], place[1] - end[1], place[2] - end[2]
    square, away = x * x + y * y + z * z, i * i + j * j + k * k
    part = x * i + y * j + z * k
    # (a way of no length has no direction)
    return part >= 0 and away * square - part * part <= tolerance * tolerance * square if square else away <= tolerance * tolerance


def joined(moves, step, kept, tolerance):
    """Returns the ways of a program's moves: neighbouring moves of one kind that go on straight, within the tolerance,
    are one. The moves of the numbers `kept` stay by themselves."""
    ways, run = [], None
    for number, move in enumerate(moves):
        alone = number in kept
        if run and not alone and run[0] == move.kind and is_along(run[3], run[4], move.end, tolerance):
            run[2], run[5] = move.line, move.end
            continue
        if run:
            ways.append(Way(step, *run[:4], run[5]))
        run = [move.kind, move.line, move.line, move.start, move.end, move.end]
        if alone:
            ways.append(Way(step, *run[:4], run[5]))
            run = None
    return ways + [Way(step, *run[:4], run[5])] if run else ways


def ways_of(programs, kept):
    """Returns the ways of several programs' moves, at most MOST but for those that are kept, and the tolerance in units
    (None where every move is drawn by itself). `kept` has pairs of a program's number and a move's."""
    plain = [Way(step, it.kind, it.line, it.line, it.start, it.end) for step, moves in enumerate(programs) for it in moves]
    if len(plain) <= MOST:
        return plain, None
    ends = [it.end for it in plain]
    size = max(max(it[axis] for it in ends) - min(it[axis] for it in ends) for axis in range(3))
    tolerance, ways = max(size / 4000, 1), plain
    while len(ways) > MOST and tolerance < size:
        ways = []
        for step, moves in enumerate(programs):
            ways += joined(moves, step, {number for at, number in kept if at == step}, tolerance)
        tolerance *= 2
    return ways, tolerance / 2
