#!/usr/bin/python3
"""Says how the run ended. usage: verdict.py, in the folder of results. The status is 1 where something was refused."""
import csv
import sys

import files
import programs


def main():
    refused = []
    for name in ("summary.csv", "borders.csv"):
        with open(name, newline="", encoding="utf-8") as file:
            for row in csv.DictReader(file):
                if row["cause"] and row["cause"] != "commune refused":
                    own = row.get("commune") or f"border of {row['first']} and {row['second']}"
                    refused.append(f"{programs.shown(own)}: {row['cause']}: {row['line']}")
    for line in refused:
        print(f"refused: {line}", file=sys.stderr)
    if refused:
        sys.exit(f"{len(refused)} refused; summary.html has all")
    files.write_whole("work/done", "")


main()
