#!/bin/sh
# How long a migration takes that lists the sides of rings, beside the same one without.
# usage: bench/sides.sh [PROGRAM]     PROGRAM is crates/tinmove/out/tinmove if left out
# The layers go through a triangulation of 8 by 8 cells whose target is a few millimetres off: 150,000
# square parcels of four points; these with the commune round them, a ring of 100,000 vertices; one
# such ring, and a million points in its box; and 5,000 rings of 200 vertices round one point. Each
# run counts by user and system seconds, the least of TRIES (3 if not set; the last layer is run
# once), and by its peak of memory. Behind it are the ratios to the run without --sides and to
# Python's json.load of a file of the layer's size, and how long GEOS takes for the sides of all
# points of both texts in all rings (bench/geos_sides.c), where it can be built (Debian: gcc,
# libgeos-dev). LAYERS=parcels,commune,points,rings takes some alone, and GEOS=parcels,.. some of
# these by GEOS (the first three if not set: the last takes it most of an hour). RINGS=1250 takes so
# many rings round one point. BEFORE=PROGRAM is a program of another commit, as of the last one that had
# no --sides: it runs in turns with this one, both without that option, and a line has their seconds.
# Needs python3. No part of the gate. The last line says whether each layer goes as fast as it
# should: 1.4, 1.6 and 1.8 times the run without --sides, and the last in 150 s; where one does not,
# the status is 1.
set -eu
fail() { echo "sides.sh: $1" >&2; exit 2; }
top=$(CDPATH='' cd -- "$(dirname -- "$0")/.." && pwd)
program=${1:-$top/crates/tinmove/out/tinmove}
[ -x "$program" ] || fail "$program is no program: run ./tinmove once"
program=$(readlink -f -- "$program")
before=${BEFORE:+$(readlink -f -- "$BEFORE")}
[ -z "$before" ] || [ -x "$before" ] || fail "$before is no program"
folder=$(mktemp -d)
trap 'rm -rf "$folder"' EXIT
cd "$folder"
cc -O2 "$top/bench/geos_sides.c" -lgeos_c -o geos_sides 2>/dev/null || rm -f geos_sides
python3 - "$program" "${TRIES:-3}" "${LAYERS:-parcels,commune,points,rings}" \
    "${GEOS-parcels,commune,points}" "${RINGS:-5000}" "$before" <<'END'
import json, math, os, random, subprocess, sys, time

program, tries, wanted, compared = sys.argv[1], int(sys.argv[2]), sys.argv[3].split(","), sys.argv[4].split(",")
rings_wanted, older = int(sys.argv[5]), sys.argv[6]
if set(wanted) - {"parcels", "commune", "points", "rings"}:
    sys.exit("sides.sh: no such layer among " + ", ".join(wanted))
MOST = {"parcels": 1.4, "commune": 1.6, "points": 1.8}  # of the run without --sides
MOST_SECONDS = {"rings": 150}
slow = []
SIZE = 12000.0
CELLS = 8

def tin():
    """Cells of two triangles over the square from 0 to SIZE; the target is off by up to 5 mm."""
    rng = random.Random(7)
    step = SIZE / CELLS
    rows, triangles = [], []
    for i in range(CELLS + 1):
        for j in range(CELLS + 1):
            x, y = i * step, j * step
            rows.append([x, y, round(x + rng.uniform(-0.005, 0.005), 3), round(y + rng.uniform(-0.005, 0.005), 3)])
    for i in range(CELLS):
        for j in range(CELLS):
            a = i * (CELLS + 1) + j
            b = a + CELLS + 1
            triangles += [[a, b, b + 1], [a, b + 1, a + 1]]
    return {
        "file_type": "triangulation_file", "format_version": "1.1", "transformed_components": ["horizontal"],
        "vertices_columns": ["source_x", "source_y", "target_x", "target_y"],
        "triangles_columns": ["idx_vertex1", "idx_vertex2", "idx_vertex3"], "vertices": rows, "triangles": triangles,
    }

def ring(points):
    return "POLYGON ((" + ", ".join(f"{x:.3f} {y:.3f}" for x, y in [*points, points[0]]) + "))\n"

def round_ring(count, radius, rough):
    """A ring round the middle, with teeth of this depth."""
    rng = random.Random(count)
    turn = 2 * math.pi / count
    at = []
    for k in range(count):
        r = radius + rng.uniform(-rough, rough)
        at.append((SIZE / 2 + r * math.cos(k * turn), SIZE / 2 + r * math.sin(k * turn)))
    return ring(at)

def parcels(out):
    wide = 388
    for k in range(150000):
        x, y = 100 + 30.0 * (k % wide), 100 + 30.0 * (k // wide)
        out.write(ring([(x, y), (x + 25, y), (x + 25, y + 25), (x, y + 25)]))

def commune(out):
    parcels(out)
    out.write(round_ring(100000, 5000, 3))

def points(out):
    out.write(round_ring(100000, 5000, 3))
    rng = random.Random(3)
    for _ in range(1000000):
        out.write(f"POINT ({rng.uniform(1000, 11000):.3f} {rng.uniform(1000, 11000):.3f})\n")

def rings(out):
    for k in range(rings_wanted):
        out.write(round_ring(200, 500 + k, 0.2))

def measured(words, of=program):
    """The user and system seconds of a run, and its peak of memory in MiB, and how many sides it lists."""
    with open("said", "wb") as said:
        child = subprocess.Popen([of, *words], stdout=said, stderr=subprocess.DEVNULL)
        _, status, usage = os.wait4(child.pid, 0)
    text = open("said").read()
    assert os.waitstatus_to_exitcode(status) in (0, 1) and text.endswith("\nend\n"), (words, status, text[-200:])
    count = [line[6:] for line in text.split("\n") if line.startswith("sides ")]
    return usage.ru_utime + usage.ru_stime, usage.ru_maxrss / 1024, count[0] if count else "-"

def loaded(size):
    """The seconds that json.load takes for numbers of so many bytes."""
    with open("n.json", "w") as file:
        json.dump([round(k * 0.125, 3) for k in range(size // 11)], file)
    best = math.inf
    for _ in range(tries):
        before = time.process_time()
        json.load(open("n.json"))
        best = min(best, time.process_time() - before)
    return best

def by_geos(names):
    """The seconds that GEOS takes for the sides of all points in all rings of these texts."""
    if not os.path.exists("geos_sides"):
        return None
    said = subprocess.run(["./geos_sides", *names], capture_output=True, text=True, check=True).stdout
    return float(said.split()[0])

json.dump(tin(), open("t.json", "w"))
print(f"{'layer':9}{'run':>9}{'seconds':>9}{'MiB':>7}{'sides':>8}{'ratio':>8}{'json.load':>11}{'GEOS':>8}")
for name, write in [("parcels", parcels), ("commune", commune), ("points", points), ("rings", rings)]:
    if name not in wanted:
        continue
    with open("l.wkt", "w") as out:
        write(out)
    yardstick = loaded(os.path.getsize("l.wkt"))
    words = ["migrate", "--tin", "t.json", "--out", "o", "l.wkt"]
    plain = None
    if older:
        turns = [(measured(words, older)[0], measured(words)[0]) for _ in range(tries)]
        old, new = map(min, zip(*turns))
        print(f"{name:9}{'before':>9}{old:9.2f}       without --sides {new:.2f} s in turns, a ratio of {new / old:.3f}", flush=True)
    for label, more in [("plain", []), ("--sides", ["--sides"])]:
        times = 1 if name == "rings" and more else tries
        seconds, memory, count = min(measured(words + more) for _ in range(times))
        plain = plain or seconds
        geos = by_geos(["l.wkt", "o/l.wkt"]) if more and name in compared else None
        print(f"{name:9}{label:>9}{seconds:9.2f}{memory:7.0f}{count:>8}{seconds / plain:8.2f}{seconds / yardstick:11.2f}"
              + (f"{geos:8.2f}" if geos is not None else f"{'-':>8}"), flush=True)
        if more and (seconds / plain > MOST.get(name, math.inf) or seconds > MOST_SECONDS.get(name, math.inf)):
            slow.append(name)
if slow:
    sys.exit(f"slower than it should be: {', '.join(slow)}")
print("sides go as fast as they should")
END
