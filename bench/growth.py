#!/usr/bin/env python3
"""Measures 'tinmove check' of triangulation files of growing size beside Python's json.

    growth.py FOLDER PROGRAM N..     FOLDER has the files N.json
"""
import json
import math
import subprocess
import sys
import time

RUNS = 3


def check(program, path):
    """The least processor time of some runs in seconds, and the most memory in KiB."""
    code = (
        "import resource, subprocess, sys\n"
        "subprocess.run(sys.argv[1:], stdout=subprocess.DEVNULL, check=True)\n"
        "used = resource.getrusage(resource.RUSAGE_CHILDREN)\n"
        "print(used.ru_utime + used.ru_stime, used.ru_maxrss)\n"
    )
    words = [sys.executable, "-c", code, program, "check", "--tin", path]
    found = [subprocess.run(words, capture_output=True, text=True, check=True).stdout.split() for _ in range(RUNS)]
    return min(float(row[0]) for row in found), max(int(row[1]) for row in found)


def load(path):
    """The least processor time of some runs of json.load in seconds."""
    best = math.inf
    for _ in range(RUNS):
        start = time.process_time()
        with open(path, "rb") as source:
            json.load(source)
        best = min(best, time.process_time() - start)
    return best


def main():
    folder, program = sys.argv[1:3]
    print("%5s %10s %9s %9s %9s %7s %8s" % ("N", "triangles", "check s", "MiB", "json s", "ratio", "growth"))
    before = None
    for count in map(int, sys.argv[3:]):
        path = "%s/%d.json" % (folder, count)
        seconds, memory = check(program, path)
        yardstick = load(path)
        triangles = 2 * count * count
        growth = "-"
        if before:
            growth = "%.2f" % (math.log(seconds / before[1]) / math.log(triangles / before[0]))
        print(
            "%5d %10d %9.3f %9.1f %9.3f %7.2f %8s"
            % (count, triangles, seconds, memory / 1024, yardstick, seconds / yardstick, growth)
        )
        before = (triangles, max(seconds, 0.001))


main()
