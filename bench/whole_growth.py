#!/usr/bin/env python3
"""Measures how a whole migration grows: two lines of WKT in each of N by N cells, of two pieces each.

    whole_growth.py PROGRAM [N..]     N = 64 128 256 512, if nothing else is said

The triangulation is that of 'tinmove make N', the layer has two lines in each cell. Prints the least
processor time of five runs, and the power of the number of pieces from one N to the next.
"""
import math
import os
import re
import resource
import subprocess
import sys
import tempfile

import make

RUNS = 5


def migrate(program, folder, count):
    """The least processor time of some runs in seconds, and the number of pieces of the report."""
    words = [program, "migrate", "--tin", f"{count}.json", "--out", "out", f"{count}.wkt"]
    best, report = math.inf, b""
    for _ in range(RUNS):
        before = resource.getrusage(resource.RUSAGE_CHILDREN)
        ended = subprocess.run(words, cwd=folder, stdout=subprocess.PIPE, stderr=subprocess.DEVNULL, check=False)
        after = resource.getrusage(resource.RUSAGE_CHILDREN)
        if ended.returncode not in (0, 1):
            sys.exit(f"N = {count}: the run ended with status {ended.returncode}")
        best = min(best, after.ru_utime + after.ru_stime - before.ru_utime - before.ru_stime)
        report = ended.stdout
    pieces = re.search(rb"^layer 0 .* pieces (\d+) ", report, re.M)
    if not pieces or int(pieces.group(1)) != 4 * count * count:
        sys.exit(f"N = {count}: the report has another number of pieces than four in each cell")
    return best, int(pieces.group(1))


def main():
    program = os.path.abspath(sys.argv[1])
    counts = [int(word) for word in sys.argv[2:]] or [64, 128, 256, 512]
    print("%5s %10s %9s %8s" % ("N", "pieces", "seconds", "growth"))
    first = before = None
    with tempfile.TemporaryDirectory() as folder:
        for count in counts:
            with open(f"{folder}/{count}.json", "w", encoding="utf-8") as file:
                file.write(make.made_tin(count))
            make.write(f"{folder}/{count}.wkt", make.cells(count))
            seconds, pieces = migrate(program, folder, count)
            growth = "%.2f" % (math.log(seconds / before[0]) / math.log(pieces / before[1])) if before else "-"
            print("%5d %10d %9.3f %8s" % (count, pieces, seconds, growth))
            before = seconds, pieces
            first = first or before
    if before != first:
        print("from the first to the last: %.2f" % (math.log(before[0] / first[0]) / math.log(before[1] / first[1])))


if __name__ == "__main__":
    main()
