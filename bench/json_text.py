#!/usr/bin/env python3
"""Writes a triangulation file of (N + 1) * (N + 1) corners, and times Python's json on a file.

    json_text.py make N FILE     writes the text
    json_text.py time FILE       prints what Python's json takes over it
"""
import json
import sys
import time


def millimetres(number):
    return "%d.%03d" % (number // 1000, number % 1000)


def text(count):
    vertices = ",".join(
        "[%d,%d,%s,%s]"
        % (
            10 * i,
            10 * j,
            millimetres(1000000 + 10000 * i + (7 * i + 13 * j) % 41),
            millimetres(2000000 + 10000 * j + (11 * i + 5 * j) % 37),
        )
        for j in range(count + 1)
        for i in range(count + 1)
    )
    row = count + 1
    triangles = ",".join(
        "[%d,%d,%d],[%d,%d,%d]"
        % (j * row + i, j * row + i + 1, (j + 1) * row + i + 1, j * row + i, (j + 1) * row + i + 1, (j + 1) * row + i)
        for j in range(count)
        for i in range(count)
    )
    return (
        '{"file_type":"triangulation_file","format_version":"1.1","transformed_components":["horizontal"],'
        '"vertices_columns":["source_x","source_y","target_x","target_y"],'
        '"triangles_columns":["idx_vertex1","idx_vertex2","idx_vertex3"],'
        '"vertices":[%s],"triangles":[%s]}' % (vertices, triangles)
    )


if sys.argv[1] == "make":
    with open(sys.argv[3], "w", encoding="ascii") as out:
        out.write(text(int(sys.argv[2])))
else:
    with open(sys.argv[2], "rb") as source:
        data = source.read()
    best = None
    for _ in range(3):
        start = time.process_time()
        json.loads(data)
        taken = time.process_time() - start
        best = taken if best is None or taken < best else best
    print("python json: %d ms, %.0f MB a second" % (best * 1000, len(data) / best / 1e6))
