#!/usr/bin/env python3
"""Writes the inputs of changes.sh into a folder, and times the program on them.

    changes.py make FOLDER [N]          writes the triangulations and the layers
    changes.py time PROGRAM FOLDER [ROW ..]   prints a table, each row with its ratio to Python's json on t.json

A row is a layer and the triangulation that it is carried through. Times are processor times of the whole run, the least of three.
"""
import json
import os
import resource
import subprocess
import sys
import time

HEAD = (
    '{"file_type":"triangulation_file","format_version":"1.1","transformed_components":["horizontal"],'
    '"vertices_columns":["source_x","source_y","target_x","target_y"],'
    '"triangles_columns":["idx_vertex1","idx_vertex2","idx_vertex3"],'
)

# name: layer, triangulation, what it is
ROWS = {
    "many": ("t.json", "two segments in each cell, each across the cell's diagonal"),
    "fan": ("fan.json", "twenty equal lines over a fan of 3,000 triangles"),
    "equal": ("country.json", "20,000 equal points"),
    "villages": ("country.json", "two villages of 100,000 crossing lines each"),
    "lines": ("country.json", "a hundred lines of 400 km among 50,000 points"),
}


def triangulation(vertices, triangles):
    rows = ",".join("[%s,%s,%s,%s]" % row for row in vertices)
    return HEAD + '"vertices":[%s],"triangles":[%s]}' % (rows, ",".join("[%d,%d,%d]" % row for row in triangles))


def fan(count):
    """Triangles from one point to the steps of a line 300 km long, all kept where they are."""
    far = 100000
    vertices = [(0, 0, 0, 0)] + [(far, 100 * k, far, 100 * k) for k in range(count + 1)]
    return triangulation(vertices, [(0, k + 1, k + 2) for k in range(count)])


def country():
    """One triangle of 600 km, moved by 100 m and stretched by 3 mm."""
    return triangulation([(0, 0, 100, 100), (600000, 0, "600100.003", 100), (0, 600000, 100, 600100)], [(0, 1, 2)])


def many(count):
    for j in range(count):
        for i in range(count):
            for low in 2, 7:
                yield "LINESTRING (%d %d, %d %d)\n" % (10 * i + 1, 10 * j + low, 10 * i + 9, 10 * j + low + 1)


def lines_of_fan(count):
    for _ in range(count):
        yield "LINESTRING (60000 1, 60000 179999)\n"


def equal(count):
    for _ in range(count):
        yield "POINT (1000 1000)\n"


def villages(count):
    """Lines of 30 m, each across its neighbours: 20 m apart in each of two squares of 6 km."""
    side = int(count**0.5)
    for at_x, at_y in (10000, 10000), (200000, 300000):
        for k in range(count):
            x, y = at_x + 20 * (k % side), at_y + 20 * (k // side)
            if k % 2:
                yield "LINESTRING (%d %d, %d %d)\n" % (x, y, x + 30, y + 17)
            else:
                yield "LINESTRING (%d %d, %d %d)\n" % (x, y + 17, x + 30, y)


def long_lines(lines, points):
    for k in range(lines):
        yield "LINESTRING (%d 1000, 1000 %d)\n" % (283000 + 10 * k, 283000 + 17 * k)
    for k in range(points):
        yield "POINT (%d.%03d %d.%03d)\n" % (1000 + k * 7919 % 250000, k % 1000, 1000 + k * 104729 % 250000, k * 7 % 1000)


def write(folder, name, parts):
    with open(os.path.join(folder, name), "w", encoding="ascii") as out:
        out.writelines(parts)


def make(folder, count):
    write(folder, "fan.json", [fan(3000)])
    write(folder, "country.json", [country()])
    write(folder, "many.wkt", many(count))
    write(folder, "fan.wkt", lines_of_fan(20))
    write(folder, "equal.wkt", equal(20000))
    write(folder, "villages.wkt", villages(100000))
    write(folder, "lines.wkt", long_lines(100, 50000))


def yardstick(path):
    with open(path, "rb") as source:
        data = source.read()
    best = None
    for _ in range(3):
        start = time.process_time()
        json.loads(data)
        taken = time.process_time() - start
        best = taken if best is None or taken < best else best
    return best


def measure(program, folder, name, tin):
    best, peak, report = None, 0, b""
    for _ in range(3):
        child = subprocess.Popen(
            [program, "migrate", "--tin", tin, "--out", "out", name + ".wkt"], cwd=folder, stdout=subprocess.PIPE
        )
        report = child.stdout.read()
        _, status, used = os.wait4(child.pid, 0)
        taken = used.ru_utime + used.ru_stime
        best = taken if best is None or taken < best else best
        peak = max(peak, used.ru_maxrss)
        if os.waitstatus_to_exitcode(status) not in (0, 1):
            sys.exit("%s: status %d" % (name, os.waitstatus_to_exitcode(status)))
    found = [line for line in report.decode().splitlines() if line.startswith("changes")]
    return best, peak, found[0] if found else "no list of changes"


def table(program, folder, names):
    os.makedirs(os.path.join(folder, "out"), exist_ok=True)
    unit = yardstick(os.path.join(folder, "t.json"))
    print("json.load of the triangulation: %.2f s" % unit)
    print("| Row | Seconds | Ratio | Peak, MiB | Report |")
    print("|---|---|---|---|---|")
    for name in names:
        tin, meaning = ROWS[name]
        taken, peak, found = measure(program, folder, name, tin)
        print("| %s | %.2f | %.2f | %d | %s |" % (meaning, taken, taken / unit, peak // 1024, found), flush=True)


if sys.argv[1] == "make":
    make(sys.argv[2], int(sys.argv[3]) if len(sys.argv) > 3 else 512)
else:
    table(sys.argv[2], sys.argv[3], sys.argv[4:] or list(ROWS))
