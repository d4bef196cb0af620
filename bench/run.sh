#!/bin/sh
# How long whole runs take and how much memory, from the words to the written files.
# usage: bench/run.sh [PROGRAM [ROW..]]     PROGRAM is crates/tinmove/out/tinmove if left out
# Each row runs three times, or once where it takes more than a minute, and the quickest counts; one
# that has not ended after ten minutes is given up. The yardstick is Python's json.load of the
# triangulation of 'make 512', 19 MB, in the same run: the least of five. The last column is the time
# in yardsticks. Below the table: the time of the map in random order beside the same map in order.
# TRIES and LIMIT (seconds) may be set. The program runs as the launcher runs it. Needs python3. No
# part of the gate.
set -eu
top=$(CDPATH='' cd -- "$(dirname -- "$0")/.." && pwd)
program=${1:-$top/crates/tinmove/out/tinmove}
[ $# -eq 0 ] || shift
case $program in */*) program=$(CDPATH='' cd -- "$(dirname -- "$program")" && pwd)/$(basename -- "$program") ;; esac
folder=$(mktemp -d)
trap 'rm -rf "$folder"' EXIT
cd "$folder"
python3 "$top/bench/make.py" made512
python3 - "$program" "$top/bench/make.py" "${TRIES:-3}" "${LIMIT:-600}" "$@" <<'END'
import glob, os, subprocess, sys, time

program, maker, tries, limit = sys.argv[1], sys.argv[2], int(sys.argv[3]), float(sys.argv[4])
wanted = sys.argv[5:]
# The row, its inputs, and what the report or the file of the run must have: known without the program.
ROWS = [
    ("make 128", None, ["make", "128"], "corners 16641 triangles 32768 inexact 0", "paths 128 segments 128"),
    ("make 512", None, ["make", "512"], "corners 263169 triangles 524288 inexact 0", "paths 512 segments 512"),
    ("check of 524,288 triangles", "made512", ["check"], "sound: corners 263169 triangles 524288 inexact 0", ""),
    ("524,288 lines, 1,048,576 pieces", "diagonals", None, "paths 524288 segments 524288 pieces 1048576 inexact 0", "changes 0"),
    ("the same in random order", "shuffled", None, "paths 524288 segments 524288 pieces 1048576 inexact 0", "changes 0"),
    ("1,000,000 points, one triangle", "points", None, "paths 1000000 segments 1000000 pieces 1000000", ""),
    ("150,000 parcels of GeoJSON", "parcels", None, "paths 150000 segments 600000", "inexact 0"),
    ("262,000 entities of DXF, 30 MB", "drawing", None, "paths 262000", "dropped 0"),
    ("two villages of 100,000 lines", "villages", None, "paths 200000 segments 200000", ""),
    ("20 equal lines, fan of 3,000", "fan", None, "paths 20 segments 20", ""),
    ("20,000 equal points", "equal", None, "paths 20000 segments 20000 pieces 20000", "changes 0"),
    ("20 lines of 400 km, 50,000 points", "long", None, "paths 50020 segments 50020", ""),
]

YARDSTICK = """
import json, time
text = open("made512.json", encoding="utf-8").read()
best = None
for _ in range(5):
    began = time.process_time()
    json.loads(text)
    took = time.process_time() - began
    best = took if best is None or took < best else best
print(best)
"""

# The launcher asks the C library for large pages, unless the caller says otherwise. The yardstick is run without.
AS_LAUNCHED = {"GLIBC_TUNABLES": "glibc.malloc.hugetlb=1", **os.environ}

def yardstick():
    # in a process of its own, since the peak of a child is at least what this one had when it began
    return float(subprocess.run([sys.executable, "-c", YARDSTICK], check=True, capture_output=True, text=True).stdout)

def measured(words):
    """The user and system seconds, the peak of memory in KiB, the status and the report."""
    with open("report", "wb") as report:
        child = subprocess.Popen([program, *words], stdout=report, stderr=subprocess.DEVNULL, env=AS_LAUNCHED)
        began = time.monotonic()
        while True:
            pid, status, usage = os.wait4(child.pid, os.WNOHANG)
            if pid:
                break
            if time.monotonic() - began > limit:
                child.kill()
                os.wait4(child.pid, 0)
                child.returncode = -9
                return None
            time.sleep(0.002)
        child.returncode = os.waitstatus_to_exitcode(status)
    return usage.ru_utime + usage.ru_stime, usage.ru_maxrss, child.returncode, open("report", encoding="utf-8").read()

unknown = set(wanted) - {it for row in ROWS for it in row[:2]}
if unknown:
    sys.exit("run.sh: no such row: " + ", ".join(sorted(unknown)))
base = yardstick()
print(f"yardstick: json.load of 19 MB of triangulation {base:.2f} s; {os.cpu_count()} processors")
print(f"{'row':36} {'seconds':>8} {'MiB':>6} {'status':>6} {'changes':>9} {'ratio':>7}")
worst = 0
took = {}
for name, inputs, words, first, second in ROWS:
    if wanted and not any(it in (name, inputs) for it in wanted):
        continue
    if inputs and not os.path.exists(f"{inputs}.json"):
        subprocess.run([sys.executable, maker, inputs], check=True)
    if inputs and words is None:
        layer = next(it for it in glob.glob(f"{inputs}.*") if not it.endswith(".json"))
        run = ["migrate", "--tin", f"{inputs}.json", "--out", "out", layer]
    else:
        run = [*words, *(["--tin", f"{inputs}.json"] if inputs else [])]
    best = None
    for _ in range(tries):
        found = measured(run)
        if found is None or best is None or found[0] < best[0]:
            best = found
        if best is None or best[0] > 60:
            break
    if best is None:
        print(f"{name:36} {'-':>8} {'-':>6} {'-':>6} {'-':>9}   not ended after {limit:.0f} s", flush=True)
        worst = 1
        continue
    seconds, peak, status, report = best
    took[inputs] = seconds
    changes = next((it.split()[1] for it in report.splitlines() if it.startswith("changes ")), "-")
    is_right = first in report and second in report
    print(f"{name:36} {seconds:8.2f} {peak / 1024:6.0f} {status:6} {changes:>9} {seconds / base:7.2f}" + ("" if is_right else f"   WRONG: no '{first}' or '{second}' in: {report[:80]!r}"), flush=True)
    worst = worst or int(not is_right)
    if inputs != "made512":
        for it in glob.glob(f"{inputs}.*") + glob.glob("out/*"):
            os.remove(it)
if "diagonals" in took and "shuffled" in took:
    print(f"random order beside order: {took['shuffled'] / took['diagonals']:.2f}")
sys.exit(worst)
END
