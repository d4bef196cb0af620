#!/usr/bin/python3
"""Checks the triangulation, once for all communes. usage: check.py, in the folder of results"""
import sys

import files
import programs


def main():
    plan = files.read_json("work/plan.json")
    options = [it for it in plan["options"] if it in ("--exact", "--inside-only")]
    status, said, messages = programs.run([plan["tinmove"], "check", "--tin", plan["tin"], *options], ".")
    sys.stderr.write(programs.shown_lines(messages))
    if status != 0:
        sys.exit(f"the triangulation is refused: {programs.first_line(said)}")
    files.write_whole("work/check.txt", said)


main()
