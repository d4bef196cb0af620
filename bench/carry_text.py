#!/usr/bin/env python3
"""Writes WKT layers over a triangulation of N by N cells of 10 m (json_text.py).

    carry_text.py cells N FILE     two lines in each cell, each over the diagonal of its cell once
    carry_text.py lines N FILE     N lines from side to side, as 'tinmove make N' has them
"""
import sys


def cells(count):
    for j in range(count):
        for i in range(count):
            x, y = 10 * i, 10 * j
            yield "LINESTRING (%d %d, %d %d)\n" % (x + 1, y + 2, x + 9, y + 3)
            yield "LINESTRING (%d %d, %d %d)\n" % (x + 1, y + 7, x + 9, y + 8)


def lines(count):
    for k in range(count):
        yield "LINESTRING (0 %d.5, %d %d.5)\n" % (10 * k + 2, 10 * count, 10 * (3 * k % count) + 7)


kind, count, path = sys.argv[1], int(sys.argv[2]), sys.argv[3]
with open(path, "w", encoding="ascii") as out:
    out.writelines(cells(count) if kind == "cells" else lines(count))
