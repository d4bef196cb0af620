#!/usr/bin/env python3
"""Prints the rows of the tests of plane_base: common parts of segments and triangles, points in triangles, meeting parameters.

It works in rational numbers and from the definitions alone: barycentric coordinates are the solution of three linear equations,
the ends of a common part are sought among the ends of the segment and its meeting points with the sides, and what a side holds is
told by the box of its two corners. It has no turns and none of the crate's code.
"""
from fractions import Fraction as F


def solve(rows, right):
    """The solution of a square system of linear equations, or None."""
    m = [[F(v) for v in row] + [F(r)] for row, r in zip(rows, right)]
    n = len(m)
    for i in range(n):
        pivot = next((j for j in range(i, n) if m[j][i] != 0), None)
        if pivot is None:
            return None
        m[i], m[pivot] = m[pivot], m[i]
        m[i] = [v / m[i][i] for v in m[i]]
        for j in range(n):
            if j != i:
                m[j] = [v - m[j][i] * w for v, w in zip(m[j], m[i])]
    return [row[n] for row in m]


def holds(t, p):
    weights = solve([[c[0] for c in t], [c[1] for c in t], [1, 1, 1]], [p[0], p[1], 1])
    return all(w >= 0 for w in weights)


def meeting(a, b, p, q):
    """The parameters from p to q, and from a to b, at which the two lines meet, or None where they are parallel."""
    return solve([[q[0] - p[0], a[0] - b[0]], [q[1] - p[1], a[1] - b[1]]], [a[0] - p[0], a[1] - p[1]])


def at(a, b, s):
    return (a[0] + s * (b[0] - a[0]), a[1] + s * (b[1] - a[1]))


def on_side(p, q, x):
    """A point of the segment from p to q: on its line by equal shares of both axes, and in its box."""
    if any(not min(p[i], q[i]) <= x[i] <= max(p[i], q[i]) for i in (0, 1)):
        return False
    shares = [(x[i] - p[i]) / F(q[i] - p[i]) for i in (0, 1) if q[i] != p[i]]
    return all(s == shares[0] for s in shares)


def end_name(a, b, t, s, vertex):
    if s == vertex:
        return "VERTEX"
    x = at(a, b, s)
    sides = [(t[k], t[(k + 1) % 3]) for k in range(3)]
    return next(name for name, (p, q) in zip(("AB", "BC", "CA"), sides) if on_side(p, q, x) and meeting(a, b, p, q) is not None)


def common(a, b, t):
    found = {F(0), F(1)}
    for k in range(3):
        met = meeting(a, b, t[k], t[(k + 1) % 3]) if a != b else None
        if met is not None and 0 <= met[1] <= 1:
            found.add(met[1])
    inside = sorted(s for s in found if holds(t, at(a, b, s)))
    if not inside:
        return None
    lo, hi = inside[0], inside[-1]
    return lo, hi, end_name(a, b, t, lo, 0), end_name(a, b, t, hi, 1)


T = ((0, 0), (10, 0), (0, 10))
U = ((10, 0), (0, 10), (0, 0))
S0 = ((0, 0), (10000, 0), (10000, 10000))
S1 = ((0, 0), (10000, 10000), (0, 10000))
R = 2**29 - 1
WIDE = ((-R, -R), (R, -R), (R, R))
THIN = ((-R, 0), (R, 0), (R, 1))
NAMES = {T: "HALF", U: "HALF_ON", S0: "LOWER", S1: "UPPER", WIDE: "WIDE", THIN: "THIN"}

SLICES = [
    (S0, (10000, 0), (0, 10000)), (S1, (10000, 0), (0, 10000)),
    (T, (1, 1), (2, 3)), (T, (-5, 5), (15, 5)), (T, (15, 5), (-5, 5)), (T, (1, 1), (9, 9)), (T, (9, 9), (1, 1)),
    (T, (-4, -2), (3, 5)), (T, (0, 0), (5, 5)), (T, (5, 5), (0, 0)), (T, (-5, -5), (5, 5)), (T, (5, 5), (-5, -5)),
    (T, (-5, 0), (15, 0)), (T, (15, 0), (-5, 0)), (T, (0, -5), (0, 15)), (T, (-5, 15), (15, -5)), (T, (15, -5), (-5, 15)),
    (U, (-5, 15), (15, -5)), (U, (-5, 0), (15, 0)), (T, (5, 0), (15, 0)), (T, (-3, 3), (3, -3)), (T, (3, -3), (-3, 3)),
    (T, (10, -5), (10, 5)), (T, (-5, 10), (5, 10)), (T, (0, 10), (-5, 12)), (T, (-5, 12), (0, 10)), (T, (5, 5), (9, 9)),
    (T, (9, 9), (5, 5)), (T, (-5, 3), (0, 3)), (T, (0, 3), (-5, 3)), (T, (0, 0), (10, 0)), (T, (2, 2), (2, 2)), (T, (0, 0), (0, 0)),
    (T, (5, 5), (5, 5)), (T, (6, 5), (6, 5)), (T, (-5, -1), (15, -1)), (T, (-1, 0), (-1, 10)), (T, (6, 6), (15, -3)), (T, (11, 0), (20, 0)),
    (T, (-1, 12), (13, -2)), (T, (-7, -3), (13, 8)), (T, (13, 8), (-7, -3)), (U, (-7, -3), (13, 8)),
    (WIDE, (-R, R), (R, -R)), (WIDE, (-R, -R), (R, R)), (THIN, (-R, 1), (R, 0)), (THIN, (R - 1, 1), (R, -R)), (WIDE, (-R, -R + 1), (R - 1, R)),
]

HOLDS = [(T, p) for p in ((0, 0), (10, 0), (0, 10), (5, 5), (3, 0), (0, 3), (1, 1), (6, 5), (-1, 0), (3, -1), (11, 0), (0, 11))] + [
    (THIN, (R, 1)), (THIN, (0, 0)), (THIN, (0, 1)), (WIDE, (-R, -R)), (WIDE, (-R, R)), (WIDE, (0, 0)), (WIDE, (-1, 0)), (WIDE, (0, -1)),
]

EDGES = [
    ((10000, 0), (0, 10000), (0, 0), (10000, 10000)), ((0, 10000), (10000, 0), (0, 0), (10000, 10000)), ((0, 0), (7, 3), (10, 0), (10, 10)),
    ((0, 0), (7, 3), (10, 10), (10, 0)), ((0, 0), (1, 0), (5, 2), (5, 6)), ((0, 0), (1, 0), (5, -2), (5, 6)), ((0, 0), (1, 0), (5, 6), (5, 2)),
    ((-R, -R), (R, R - 1), (R, -R), (-R, R)), ((3, 1), (-4, 8), (2, 2), (9, 5)),
]


def numbers(*points):
    return "[" + ", ".join(str(v) for p in points for v in p) + "]"


print("triangles")
for t, name in NAMES.items():
    print("const %s: [i64; 6] = %s;" % (name, numbers(*t)))
print("slices")
for t, a, b in SLICES:
    part = common(a, b, t)
    told = "None" if part is None else "Some((%d, %d, %d, %d, %s, %s))" % (
        part[0].numerator, part[0].denominator, part[1].numerator, part[1].denominator, part[2], part[3])
    print("        (%s, %s, %s)," % (numbers(a, b), NAMES[t], told))
print("holds")
for t, p in HOLDS:
    print("        (%s, %s, %s)," % (NAMES[t], numbers(p), str(holds(t, p)).lower()))
print("edges")
for a, b, p, q in EDGES:
    s = meeting(a, b, p, q)[0]
    print("        (%s, %d, %d)," % (numbers(a, b, p, q), s.numerator, s.denominator))
