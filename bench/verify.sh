#!/bin/sh
# How long it takes to verify a migrated layer, beside the migration that wrote it and its certificate.
# usage: bench/verify.sh [PROGRAM]     PROGRAM is crates/tinmove/out/tinmove if left out
# The layer has two lines in each cell of the triangulation of 512 by 512 cells: 524,288 lines, 1,048,576
# pieces. Each run counts by user and system seconds, the least of TRIES (3 if not set), and by its peak
# of memory. The last column is the ratio to the migration. Then come certificates that are refused, each
# with the line that is printed. Needs python3. No part of the gate.
set -eu
top=$(CDPATH='' cd -- "$(dirname -- "$0")/.." && pwd)
program=${1:-$top/crates/tinmove/out/tinmove}
case $program in */*) program=$(CDPATH='' cd -- "$(dirname -- "$program")" && pwd)/$(basename -- "$program") ;; esac
folder=$(mktemp -d)
trap 'rm -rf "$folder"' EXIT
cd "$folder"
python3 "$top/bench/make.py" diagonals
python3 - "$program" "${TRIES:-3}" <<'END'
import glob, os, subprocess, sys

program, tries = sys.argv[1], int(sys.argv[2])
tin = glob.glob("*.json")[0]
layer = glob.glob("*.wkt")[0]
RUNS = [
    ("migrate", ["migrate", "--tin", tin, "--out", "o", layer], "end"),
    ("migrate --cert", ["migrate", "--tin", tin, "--out", "o", "--cert", layer], "end"),
    ("verify", ["verify", "--tin", tin, "--source", layer, "--written", f"o/{layer}", "--cert", f"o/{layer}.cert"], "certified"),
]

def measured(words, last, code=0):
    """The user and system seconds of a run, and its peak of memory in MiB."""
    with open("said", "wb") as said:
        child = subprocess.Popen([program, *words], stdout=said, stderr=subprocess.DEVNULL)
        _, status, usage = os.wait4(child.pid, 0)
    lines = open("said").read().split("\n")
    assert os.waitstatus_to_exitcode(status) == code and lines[-2] == last, (words, status, lines[-2:])
    return usage.ru_utime + usage.ru_stime, usage.ru_maxrss / 1024

print(f"{'run':16}{'seconds':>9}{'MiB':>7}{'ratio':>7}")
first = None
for name, words, last in RUNS:
    seconds, memory = min(measured(words, last) for _ in range(tries))
    first = first or seconds
    print(f"{name:16}{seconds:9.2f}{memory:7.0f}{seconds / first:7.2f}")

HEAD = b"tinmove certificate 1\n"
MOST = 1 << 28
lists = open(f"o/{layer}.cert", "rb").read()[len(HEAD):]
lines = lists.count(b"\n")
# Each certificate as parts, and how many times each stands. They are written piece by piece, since a
# child's peak is at least its parent's size.
CERTIFICATES = [
    ("digits alone", [(b"9", MOST)], "form at line 1"),
    ("a long number", [(HEAD, 1), (b"9", MOST - len(HEAD))], "form at line 2"),
    ("a line without end", [(HEAD, 1), (b"0 ", (MOST - len(HEAD)) // 2)], "form at line 2"),
    ("a long line", [(HEAD, 1), (b"0 ", (MOST - len(HEAD)) // 2 - lines), (b"0\n", lines)], "segment 0/0"),
    ("lines that are too many", [(HEAD, 1), (b"0\n", (MOST - len(HEAD)) // 2)], "count"),
    ("one line too many", [(HEAD, 1), (lists, 1), (b"0\n", 1)], "count"),
    ("numbers out of range", [(HEAD, 1), (b"4294967295\n", lines)], "segment 0/0"),
    ("of another triangulation", [(HEAD, 1), (lists.replace(b" ", b" 1"), 1)], "segment 0/0"),
]
print(f"\n{'certificate':26}{'MiB':>6}{'seconds':>9}{'peak MiB':>10}  line")
for name, parts, last in CERTIFICATES:
    with open("c", "wb") as file:
        for part, count in parts:
            block = min(count, 1 << 16)
            for _ in range(count // block):
                file.write(part * block)
            file.write(part * (count % block))
    size = os.path.getsize("c") / 1048576
    words = ["verify", "--tin", tin, "--source", layer, "--written", f"o/{layer}", "--cert", "c"]
    seconds, memory = min(measured(words, f"certificate: {last}", 10) for _ in range(tries))
    print(f"{name:26}{size:6.0f}{seconds:9.2f}{memory:10.0f}  certificate: {last}")
END
