#!/usr/bin/python3
"""What the jobs of a finished workflow took. usage: times.py RESULT

A line each for communes and borders: runs of programs, and processor seconds of tinmove and tinplaces,
of ogr2ogr, and of the scripts. What Snakemake and the start of the jobs took is not among it.
"""
import collections
import glob
import json
import os
import sys

print(f"{'':8}{'runs':>8}{'tinmove':>10}{'ogr2ogr':>10}{'scripts':>10}")
for kind in ("carry", "border"):
    total = collections.Counter()
    for name in glob.glob(os.path.join(glob.escape(sys.argv[1]), "work/times", f"{kind}-*.json")):
        with open(name, encoding="ascii") as file:
            total.update(json.load(file))
    print(f"{kind:8}{total['runs']:8}{total['own']:10.1f}{total['other']:10.1f}{total['python']:10.1f}")
