#!/usr/bin/env python3
"""How long the worst inputs of one size take that are known, in each mode.

usage: bench/worst.py [BYTES [SECONDS [TINMOVE TINPLACES]]]     1,000,000 bytes and 60 seconds if left out
Each triangulation, layer or certificate that makes the row has about BYTES bytes. The time is user and system seconds,
and a run is ended after SECONDS of them. The ratio is to the time that json.load takes in this run for the triangulation
of 'make 512', a text of 19 MB. No part of the gate.
"""
import json
import math
import os
import resource
import signal
import subprocess
import sys
import tempfile
import time

top = os.path.dirname(os.path.dirname(os.path.abspath(__file__)))
size = int(sys.argv[1]) if len(sys.argv) > 1 else 1000000
limit = int(sys.argv[2]) if len(sys.argv) > 2 else 60
tinmove = os.path.abspath(sys.argv[3] if len(sys.argv) > 3 else top + "/crates/tinmove/out/tinmove")
tinplaces = os.path.abspath(sys.argv[4] if len(sys.argv) > 4 else top + "/crates/tinplaces/out/tinplaces")
work = tempfile.TemporaryDirectory()
os.chdir(work.name)


def write(name, text):
    with open(name, "w") as file:
        file.write(text)


# A triangulation whose target is its source, moved by 100 m.
def tin(name, corners, triangles):
    write(name, '{"file_type":"triangulation_file","format_version":"1.1","transformed_components":["horizontal"],'
          '"vertices_columns":["source_x","source_y","target_x","target_y"],"triangles_columns":["idx_vertex1","idx_vertex2",'
          '"idx_vertex3"],"vertices":[%s],"triangles":[%s]}'
          % (",".join("[%.9g,%.9g,%.9g,%.9g]" % (x, y, x + 100, y + 100) for x, y in corners),
             ",".join("[%d,%d,%d]" % it for it in triangles)))


# As many rows as have about this size, each made of its number and of the number of rows.
def rows(row, size=size):
    count = size // (len(row(0, 1)) + 1)
    for _ in range(3):
        text = [row(i, count) for i in range(count)]
        count = max(1, int(count * size / max(1, sum(len(it) + 1 for it in text))))
    return "\n".join(row(i, count) for i in range(count)) + "\n"


def fan(name, count):
    corners = [(0, 0)] + [(round(90000 * math.cos(2 * math.pi * i / count), 3), round(90000 * math.sin(
        2 * math.pi * i / count), 3)) for i in range(count)]
    tin(name, corners, [(0, i, i % count + 1) for i in range(1, count + 1)])


square = [(0, 0), (100000, 0), (100000, 100000), (0, 100000)]
tin("square.json", square, [(0, 1, 2), (0, 2, 3)])
tin("strips.json", [(x, y) for y in range(0, 100001, 25000) for x in (0, 100000)],
    [it for k in range(4) for it in ((2 * k, 2 * k + 1, 2 * k + 3), (2 * k, 2 * k + 3, 2 * k + 2))])
fan("fan.json", size // 57)
slivers = size // 88
tin("slivers.json", [p for i in range(slivers) for p in ((2 * i, 0), (2 * i + 1, 0), (400000 + 2 * i, 400000))],
    [(3 * i, 3 * i + 1, 3 * i + 2) for i in range(slivers)])
write("crossing.wkt", "LINESTRING (" + rows(lambda i, n: "%.3f %d%s" % (
    90000 - 80000 * i / n if i % 2 else 80000 * i / n, 90000 * (i % 2), "," if i < n - 1 else ")")).replace("\n", " "))
write("star.wkt", rows(lambda i, n: "LINESTRING (%.3f 0, %.3f 100000)" % (100000 * i / n, 100000 - 100000 * i / n)))
write("hatch.wkt", rows(lambda i, n: "LINESTRING (0 %.3f, 90000 %.3f)" % (1 + i * 0.002, 1 + i * 0.002)))
write("long.wkt", rows(lambda i, n: "LINESTRING (0 %.3f,50000 %.3f)" % (49000 * i / n, 50000 + 49000 * i / n)))
write("points.wkt", rows(lambda i, n: "POINT (%.3f %.3f)" % (
    80000 * math.cos(i) * (i + 1) / n, 80000 * math.sin(i) * (i + 1) / n)))
write("kinds.dxf", "  0\nSECTION\n  2\nENTITIES\n" + rows(lambda i, n: "  0\nK%d" % i) + "  0\nENDSEC\n  0\nEOF\n")
write("places.dxf", "  0\nSECTION\n  2\nENTITIES\n" + rows(lambda i, n: "  0\nPOINT\n 10\n%d.5\n 20\n7" % (i % 90000))
      + "  0\nENDSEC\n  0\nEOF\n")
write("equal.wkt", rows(lambda i, n: "POINT (%d %d)\nLINESTRING (%d 0, 0 %d)" % (i + 1, i + 2, 2 * i + 3, 2 * i + 3)))
write("arrays.geojson", '{"type":"MultiLineString","coordinates":[' + "[]," * (size // 3) + "[]]}")
write("one.wkt", "POINT (5 5)")
write("digits.cert", "tinmove certificate 1\n" + "0 " * (size // 2) + "0\n")
write("lines.cert", "tinmove certificate 1\n" + "0\n" * (size // 2))
with open("big.json", "w") as big:
    n = 512
    corners = ["[%d,%d,%d.001,%d]" % (10 * i, 10 * k, 10 * i + 100, 10 * k + 100) for k in range(n + 1) for i in range(n + 1)]
    cells = [k * (n + 1) + i for k in range(n) for i in range(n)]
    big.write('{"vertices":[%s],"triangles":[%s]}' % (",".join(corners), ",".join(
        "[%d,%d,%d],[%d,%d,%d]" % (a, a + 1, a + n + 2, a, a + n + 2, a + n + 1) for a in cells)))
began = time.process_time()
with open("big.json") as big:
    json.load(big)
yardstick = time.process_time() - began

VERIFY = ["verify", "--tin", "square.json", "--source", "one.wkt", "--written", "one.wkt", "--cert"]
RUNS = [
    ("check", "thin triangles whose boxes all meet", tinmove, ["check", "--tin", "slivers.json"]),
    ("check", "a fan", tinmove, ["check", "--tin", "fan.json"]),
    ("migrate", "one line whose segments all cross", tinmove, ["migrate", "--tin", "square.json", "--out", "o", "crossing.wkt"]),
    ("migrate", "lines through one point", tinmove, ["migrate", "--tin", "square.json", "--out", "o", "star.wkt"]),
    ("migrate", "a hatch, no two lines meet", tinmove, ["migrate", "--tin", "square.json", "--out", "o", "hatch.wkt"]),
    ("migrate", "parallel lines over eight long triangles", tinmove, ["migrate", "--tin", "strips.json", "--out", "o", "long.wkt"]),
    ("migrate", "points in a fan", tinmove, ["migrate", "--tin", "fan.json", "--out", "o", "points.wkt"]),
    ("migrate", "kinds of entities that are left out", tinmove,
     ["migrate", "--drop-other", "--tin", "square.json", "--out", "o", "kinds.dxf"]),
    ("migrate", "points of a drawing", tinmove, ["migrate", "--tin", "square.json", "--out", "o", "places.dxf"]),
    ("migrate", "empty arrays", tinmove, ["migrate", "--tin", "square.json", "--out", "o", "arrays.geojson"]),
    ("verify", "one line of numbers", tinmove, VERIFY + ["digits.cert"]),
    ("verify", "lines of one number", tinmove, VERIFY + ["lines.cert"]),
    ("make", "512, which has no input", tinmove, ["make", "512"]),
    ("tinplaces", "points and lines across", tinplaces, ["--tin", "square.json", "equal.wkt"]),
]
print("json.load: %.2f s, load of the machine %.0f, %d processors" % (yardstick, os.getloadavg()[0], os.cpu_count()))
print("| Mode | Input | Bytes | Seconds | Ratio | Status |\n|---|---|---|---|---|---|")
for mode, name, program, words in RUNS:
    files = [it for it in words if "." in it and os.path.exists(it)]
    most = max([os.path.getsize(it) for it in files], default=0)
    child = subprocess.Popen([program] + words, stdout=subprocess.DEVNULL, stderr=subprocess.DEVNULL,
                             preexec_fn=lambda: resource.setrlimit(resource.RLIMIT_CPU, (limit, limit)))
    _, status, used = os.wait4(child.pid, 0)
    seconds, code = used.ru_utime + used.ru_stime, os.waitstatus_to_exitcode(status)
    over = code in (-signal.SIGXCPU, -signal.SIGKILL)
    if code < 0 and not over:
        sys.exit("worst.py: %s, %s: signal %d" % (mode, name, -code))
    print("| `%s` | %s | %d | %s%.2f | %s%.2f | %s |" % (mode, name, most, "over " * over, seconds, "over " * over,
          seconds / yardstick, "" if over else code), flush=True)
