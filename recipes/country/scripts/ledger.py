#!/usr/bin/python3
"""Enters each commune's report, and each border's, into the ledger. usage: ledger.py, in the folder of results

ledger.sqlite keeps what was decided on changes; a report that it knows already is not entered twice.
ledger.csv says which run of the ledger is of which commune or border. Names of communes are in no
script: it names links.
"""
import os
import shutil
import sys
import tempfile

import borders
import files
import programs
import summary

# Bytes of a script, and of the reports that one enters; the ledger reads at most 2^20 and 2^26.
LONGEST, REPORTS = 1_000_000, 60_000_000


def entries_of(plan):
    """Of each commune and each border with a report: its name, the report, and its written layers."""
    for it in sorted(summary.batches_of("carried", plan["batches"]), key=lambda it: it["name"]):
        if not it["cause"]:
            room = os.path.join("communes", it["name"])
            yield it["name"], os.path.join(room, "report.txt"), [
                os.path.join(room, "layers", name) for name in it["layers"]
            ]
    for it in sorted(summary.batches_of("borders", plan["batches"]), key=lambda it: (it["first"], it["second"])):
        if it["changes"]:
            room = borders.room_of(it["first"], it["second"])
            yield f"{it['first']} / {it['second']}", f"{room}/report.txt", [
                f"{room}/layers/{k}.geojson" for k in (0, 1)
            ]


def lines_of(entries, room):
    """A line of the script for each entry, over links of plain names."""
    for number, (_, report, written) in enumerate(entries):
        words = []
        for part, path in enumerate([report, *written]):
            words.append(f"{number}-{part}{os.path.splitext(path)[1]}")
            os.symlink(os.path.abspath(path), os.path.join(room, words[-1]))
        yield f"enter {' '.join(words)}\n"


def scripts_of(lines, sizes):
    """The lines as scripts within the limits; sizes are those of the reports."""
    text, reports = "", 0
    for line, size in zip(lines, sizes):
        if text and (len(text) + len(line) > LONGEST or reports + size > REPORTS):
            yield text
            text, reports = "", 0
        text, reports = text + line, reports + size
    if text:
        yield text


def run(plan, text, room):
    """The answers of the ledger to a script, a line each."""
    files.write_whole(os.path.join(room, "script"), text)
    status, output, messages = programs.run([plan["tinledger"], os.path.abspath("ledger.sqlite"), "script"], room)
    if status != 0:
        sys.exit(f"tinledger: {programs.first_line(messages) or programs.first_line(output)}")
    return output.decode().split("\n")[:-1]


def remove_old(entries):
    """Reports of borders that no longer have changes go."""
    rooms = {os.path.dirname(report) for _, report, _ in entries}
    for name in os.listdir("borders") if os.path.isdir("borders") else ():
        if f"borders/{name}" not in rooms:
            shutil.rmtree(f"borders/{name}")


def main():
    plan = files.read_json("work/plan.json")
    entries = list(entries_of(plan))
    remove_old(entries)
    with tempfile.TemporaryDirectory() as room:
        sizes = [os.path.getsize(report) for _, report, _ in entries]
        answers = [it for text in scripts_of(lines_of(entries, room), sizes) for it in run(plan, text, room)]
    if "full" in answers:
        sys.exit("tinledger: ledger.sqlite is full: rename it, and another one is begun")
    rows = [[answer.split(" ")[1] if " " in answer else answer, name] for answer, (name, *_) in zip(answers, entries)]
    files.write_whole("ledger.csv", summary.table_of(["run", "commune or border"], rows))


main()
