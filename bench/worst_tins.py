#!/usr/bin/env python3
"""Measures 'tinmove check' of the triangulations that cost it most.

    worst_tins.py PROGRAM FOLDER [COUNT..]

First 2^21 triangles that all overlap: 128 corners near each of three places, and a triangle for each three of them. Then as
many long thin triangles side by side as each COUNT says, whose boxes all meet and which all fit: 2000 4000 8000, if nothing
else is said. Prints the status, processor time and most memory of each run, and the ratio to json.load of the same text.
"""
import json
import subprocess
import sys
import time

HEAD = (
    '{"file_type":"triangulation_file","format_version":"1.1","transformed_components":["horizontal"],'
    '"vertices_columns":["source_x","source_y","target_x","target_y"],'
    '"triangles_columns":["idx_vertex1","idx_vertex2","idx_vertex3"],'
)


def write(path, corners, triangles):
    with open(path, "w", encoding="ascii") as out:
        out.write(HEAD + '"vertices":[')
        out.write(",".join("[%d,%d,%d,%d]" % (x, y, x, y) for x, y in corners))
        out.write('],"triangles":[')
        out.write(",".join("[%d,%d,%d]" % row for row in triangles))
        out.write("]}")


def overlapping(path):
    side = 128
    corners = [(x + i, y) for x, y in ((0, 0), (10000, 0), (5000, 10000)) for i in range(side)]
    each = range(side)
    write(path, corners, ((i, side + j, 2 * side + k) for i in each for j in each for k in each))


def slivers(path, count):
    corners = []
    for i in range(count):
        corners += [(0, 4 * i), (100000, 100000 + 4 * i), (0, 4 * i + 2)]
    write(path, corners, ((3 * i, 3 * i + 1, 3 * i + 2) for i in range(count)))


def run(program, path):
    code = (
        "import resource, subprocess, sys\n"
        "made = subprocess.run(sys.argv[1:], stdout=subprocess.DEVNULL, stderr=subprocess.DEVNULL)\n"
        "used = resource.getrusage(resource.RUSAGE_CHILDREN)\n"
        "print(made.returncode, used.ru_utime + used.ru_stime, used.ru_maxrss)\n"
    )
    words = [sys.executable, "-c", code, program, "check", "--tin", path]
    status, seconds, memory = subprocess.run(words, capture_output=True, text=True, check=True).stdout.split()
    return int(status), float(seconds), float(memory) / 1024


def load(path):
    start = time.process_time()
    with open(path, "rb") as source:
        json.load(source)
    return time.process_time() - start


def main():
    program, folder = sys.argv[1:3]
    counts = [int(word) for word in sys.argv[3:]] or [2000, 4000, 8000]
    rows = [("2097152 overlapping", lambda path: overlapping(path))]
    rows += [("%d side by side" % n, lambda path, n=n: slivers(path, n)) for n in counts]
    print("%-22s %6s %9s %9s %9s %7s" % ("triangles", "status", "check s", "MiB", "json s", "ratio"))
    for name, make in rows:
        path = "%s/worst.json" % folder
        make(path)
        status, seconds, memory = run(program, path)
        yardstick = load(path)
        print("%-22s %6d %9.3f %9.1f %9.3f %7.2f" % (name, status, seconds, memory, yardstick, seconds / yardstick))


main()
