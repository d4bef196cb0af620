#!/usr/bin/env python3
"""Prints the rows of the tests of meet_rel, which are in tin_tests: how two segments are related, and two pieces of
segments in triangles.

It works in rational numbers and from the definition alone. The common points of two segments are a convex set, so its extreme points
are ends of the segments or the point where their lines meet: each of these is tried for being on both, and the ones that are counted.
A point is on a segment where it is in the box of the two ends and has equal shares of both axes; where lines meet is the solution of two
linear equations. It has no turns and none of the crate's code.
"""
import random
from fractions import Fraction as F


def on(p, q, r):
    if any(not min(p[i], q[i]) <= r[i] <= max(p[i], q[i]) for i in (0, 1)):
        return False
    shares = [F(r[i] - p[i]) / F(q[i] - p[i]) for i in (0, 1) if q[i] != p[i]]
    return all(s == shares[0] for s in shares)


def meeting(p, q, e, f):
    """The point at which the two lines meet, or None where they have one direction or an end is the other one."""
    a, b, c, d = q[0] - p[0], e[0] - f[0], q[1] - p[1], e[1] - f[1]
    det = a * d - b * c
    if det == 0:
        return None
    s = F((e[0] - p[0]) * d - b * (e[1] - p[1])) / F(det)
    return (p[0] + s * a, p[1] + s * c)


def relation(p, q, e, f):
    ends = [p, q, e, f]
    met = meeting(p, q, e, f)
    tried = ends + ([] if met is None else [met])
    common = {(F(r[0]), F(r[1])) for r in tried if on(p, q, r) and on(e, f, r)}
    if not common:
        return "Apart"
    if len(common) > 1:
        return "Overlapping"
    (one,) = common
    return "Touching" if any(one == (F(r[0]), F(r[1])) for r in ends) else "Crossing"


NAMED = [
    (0, 0, 10, 0, 20, 0, 30, 0), (0, 0, 10, 0, 10, 0, 20, 0), (0, 0, 10, 0, 5, -5, 5, 5), (0, 0, 10, 0, 5, 0, 20, 0), (0, 0, 10, 0, 5, 0, 5, 0),
    (0, 0, 10, 0, 0, 0, 10, 0), (0, 0, 10, 0, 10, 0, 0, 0), (0, 0, 10, 0, 2, 0, 4, 0), (2, 0, 4, 0, 0, 0, 10, 0), (0, 0, 10, 0, 0, 1, 10, 1),
    (0, 0, 0, 10, 0, 10, 0, 20), (0, 0, 0, 10, 0, 5, 0, 20), (0, 0, 0, 10, 0, 11, 0, 20), (0, 10, 0, 0, 0, 20, 0, 5), (0, 0, 0, 10, -5, 5, 5, 5),
    (0, 0, 10, 10, 5, 5, 5, 5), (0, 0, 10, 10, 5, 6, 5, 6), (0, 0, 10, 10, 0, 0, 0, 0), (0, 0, 10, 10, 10, 10, 10, 10), (0, 0, 10, 10, 11, 11, 11, 11),
    (3, 3, 3, 3, 3, 3, 3, 3), (3, 3, 3, 3, 3, 4, 3, 4), (3, 3, 3, 3, 4, 3, 4, 3), (3, 3, 3, 3, 0, 0, 9, 9), (3, 4, 3, 4, 0, 0, 9, 9),
    (0, 0, 10, 0, 5, 0, 5, 5), (0, 0, 10, 0, 5, -5, 5, 0), (5, 0, 5, 5, 0, 0, 10, 0), (0, 0, 10, 0, 5, 1, 5, 5), (0, 0, 10, 0, 10, 0, 10, 5),
    (0, 0, 10, 0, 11, -5, 11, 5), (0, 0, 3, 1, 1, 0, 2, 1), (0, 0, 3, 1, 1, 0, 3, 1), (0, 0, 7, 3, 0, 1, 7, 2), (0, 0, 7, 3, 7, 4, 0, 1),
    (0, 0, 9, 3, 3, 1, 6, 2), (0, 0, 9, 3, 3, 1, 12, 4), (0, 0, 9, 3, 9, 3, 12, 4), (0, 0, 9, 3, 12, 4, 15, 5), (9, 3, 0, 0, 12, 4, 6, 2),
    (0, 0, 32767, 1, 32767, 0, 0, 1), (-32768, -32768, 32767, 32767, -32768, 32767, 32767, -32768), (-32768, 0, 32767, 1, -32768, 1, 32767, 2),
]


def row(numbers):
    a = [(numbers[2 * k], numbers[2 * k + 1]) for k in range(4)]
    print("    (%s, Rel::%s)," % (list(numbers), relation(*a)))


# ---- pieces: the part of a segment that a triangle has
def holds(t, p):
    """By the signs of the shares of the three corners, which solve three linear equations."""
    (ax, ay), (bx, by), (cx, cy) = t
    det = (bx - ax) * (cy - ay) - (cx - ax) * (by - ay)
    v = F((p[0] - ax) * (cy - ay) - (cx - ax) * (p[1] - ay)) / det
    w = F((bx - ax) * (p[1] - ay) - (p[0] - ax) * (by - ay)) / det
    return v >= 0 and w >= 0 and v + w <= 1


def part(t, p, q):
    """The first and the last point of a segment that are in a triangle: the extreme points of a convex set are among its ends and where it meets the sides."""
    tried = [p, q]
    for k in range(3):
        c, d = t[k], t[(k + 1) % 3]
        met = meeting(p, q, c, d)
        if met is not None and on(c, d, met) and on(p, q, met):
            tried.append(met)
        tried += [r for r in (c, d) if on(p, q, r)]
    axis = 0 if p[0] != q[0] else 1
    found = sorted({(F(r[0]), F(r[1])) for r in tried if holds(t, r)}, key=lambda r: r[axis])
    return (found[0], found[-1]) if found else None


LOWER = ((0, 0), (10, 0), (10, 10))
UPPER = ((0, 0), (10, 10), (0, 10))
RIGHT = ((10, 0), (20, 0), (10, 10))

# two segments, each with its triangle
PIECES = [
    # on both sides of the diagonal: they meet in a point of it, which is no end of the segment
    ((10, 0, 0, 10), LOWER, (10, 0, 0, 10), UPPER), ((10, 0, 0, 10), LOWER, (10, 0, 0, 10), LOWER), ((10, 0, 1, 10), LOWER, (9, 0, 0, 10), UPPER),
    ((10, 0, 0, 10), LOWER, (6, 4, 6, 4), LOWER), ((10, 0, 0, 10), UPPER, (6, 4, 6, 4), LOWER), ((10, 0, 0, 10), UPPER, (5, 5, 5, 5), LOWER),
    # ends on a side from both hands, and one that goes through where another ends
    ((9, 1, 1, 9), LOWER, (2, 8, 8, 2), UPPER), ((8, 0, 2, 10), LOWER, (5, 5, 0, 6), UPPER), ((8, 0, 2, 10), UPPER, (5, 5, 9, 4), LOWER),
    ((8, 1, 2, 9), LOWER, (0, 0, 10, 10), LOWER), ((8, 1, 2, 9), LOWER, (0, 0, 10, 10), UPPER), ((8, 1, 2, 9), UPPER, (0, 0, 4, 4), UPPER),
    # along the common side, each in another triangle
    ((0, 0, 10, 10), LOWER, (0, 0, 10, 10), UPPER), ((0, 0, 4, 4), LOWER, (4, 4, 10, 10), UPPER), ((0, 0, 4, 4), LOWER, (5, 5, 10, 10), UPPER),
    ((0, 0, 4, 4), LOWER, (7, 7, 3, 3), UPPER), ((10, 0, 10, 10), LOWER, (10, 8, 10, 1), RIGHT), ((10, 0, 10, 4), LOWER, (10, 4, 10, 9), RIGHT),
    # one line across two triangles and past them
    ((2, 1, 18, 1), LOWER, (2, 1, 18, 1), RIGHT), ((2, 1, 9, 1), LOWER, (8, 1, 18, 1), RIGHT), ((2, 1, 9, 1), LOWER, (11, 1, 18, 1), RIGHT),
    ((2, 1, 18, 1), LOWER, (12, 1, 4, 1), LOWER), ((18, 1, 2, 1), RIGHT, (4, 1, 14, 1), RIGHT), ((2, 1, 2, 9), LOWER, (2, 0, 2, 9), UPPER),
    # whole segments that cross, of which a piece does not reach the crossing
    ((2, 6, 8, 2), LOWER, (2, 2, 5, 9), UPPER), ((2, 6, 8, 2), UPPER, (2, 2, 5, 9), UPPER), ((1, 3, 9, 5), LOWER, (1, 6, 7, 1), LOWER),
    ((1, 3, 9, 5), UPPER, (1, 6, 7, 1), UPPER), ((0, 5, 10, 6), UPPER, (1, 10, 4, 0), UPPER), ((0, 5, 10, 6), LOWER, (1, 10, 4, 0), LOWER),
    # parallel, and points
    ((0, 0, 10, 10), LOWER, (1, 0, 10, 9), LOWER), ((3, 3, 3, 3), LOWER, (3, 3, 3, 3), UPPER), ((3, 3, 3, 3), LOWER, (4, 4, 4, 4), UPPER), ((10, 2, 10, 2), RIGHT, (0, 1, 20, 3), LOWER),
]


def piece_row(row):
    parts = []
    for numbers, t in (row[:2], row[2:]):
        parts += list(part(t, numbers[:2], numbers[2:]))
    names = {LOWER: "LOWER", UPPER: "UPPER", RIGHT: "RIGHT"}
    print("    (%s, %s, %s, %s, Rel::%s)," % (list(row[0]), names[row[1]], list(row[2]), names[row[3]], relation(*parts)))


def drawn(seed, count):
    """Rows of a small grid, as many of each relation."""
    random.seed(seed)
    wanted = {name: count // 4 for name in ("Apart", "Touching", "Crossing", "Overlapping")}
    rows = []
    while any(wanted.values()):
        numbers = [random.randint(-4, 4) for _ in range(8)]
        name = relation(*[(numbers[2 * k], numbers[2 * k + 1]) for k in range(4)])
        if wanted[name]:
            wanted[name] -= 1
            rows.append(numbers)
    return rows


if __name__ == "__main__":
    named, random_rows = NAMED, drawn(7, 32)
    print("const NAMED: &[Row] = &[")
    for numbers in named:
        row(numbers)
    print("];\n")
    print("const DRAWN: &[Row] = &[")
    for numbers in random_rows:
        row(numbers)
    print("];\n")
    print("const PIECES: &[Row] = &[")
    for numbers in PIECES:
        piece_row(numbers)
    print("];")
