#!/usr/bin/env python3
"""Writes triangulation files of many vertex rows and no triangle.

    flooding.py chosen N FILE      rows that the kit's default hasher puts into a thirty-second of a hash table
    flooding.py ordinary N FILE    rows of the same kind that were not chosen
"""
import sys

MASK = (1 << 64) - 1
# The hasher of the kit (FoldHasher): its first state, and its multiplier for a number of eight bytes.
FIRST = 0x243F6A8885A308D3
TIMES = 0x9E3779B97F4A7C15 ^ 16


def step(state, number):
    product = (state ^ number) * TIMES
    return (product & MASK) ^ (product >> 64)


def groups_of(count):
    groups = 1
    while 9 * groups < count:
        groups *= 2
    return groups


def chosen(before, start, groups):
    last = start
    while True:
        hashed = step(before, last)
        if ((hashed ^ (hashed >> 32)) & (groups - 1)) < groups // 32:
            return last
        last += 1


def rows(kind, count):
    groups = groups_of(count)
    for row in range(count):
        x, y = 1000 * (row % 512), 1000 * (row // 512)
        last = y + 1
        if kind == "chosen":
            last = chosen(step(step(step(FIRST, x), y), x), y, groups)
        yield "[%d,%d,%d,%d.%03d]" % (x // 1000, y // 1000, x // 1000, last // 1000, last % 1000)


kind, count, name = sys.argv[1], int(sys.argv[2]), sys.argv[3]
with open(name, "w", encoding="ascii") as out:
    out.write('{"file_type":"triangulation_file","format_version":"1.1","transformed_components":["horizontal"],')
    out.write('"vertices_columns":["source_x","source_y","target_x","target_y"],')
    out.write('"triangles_columns":["idx_vertex1","idx_vertex2","idx_vertex3"],')
    out.write('"vertices":[%s],"triangles":[]}' % ",".join(rows(kind, count)))
