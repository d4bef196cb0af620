#!/usr/bin/python3
"""Moves the points of a table, a CSV file with a header, through a triangulation that moves heights.

usage: heights_table.py TIN.json TABLE.csv X Y HEIGHT RESULT.csv     X, Y and HEIGHT are names of columns

All other values stay, and the rows keep their order. Values are parted by commas or, where the header has no
comma, by semicolons. A blank line stays, and is no row. Lines that tinmove prints name points.txt: its line 1
is the first row behind the header.
The status is that of tinmove, and 2 where a word or the table is refused; RESULT is then as it was.
Needs nothing but Python, inserted_vertices.py beside it, and tinmove, or the program that TINMOVE names.
"""
import csv
import io
import os
import re
import subprocess
import sys
import tempfile

sys.dont_write_bytecode = True
from inserted_vertices import Refused, write_whole

NUMERAL = re.compile(r"[-+.0-9eE]+")


def refuse(text):
    print(f"heights_table.py: {text}", file=sys.stderr)
    sys.exit(2)


def read(name):
    """The rows with the header, how values are parted, and how lines end."""
    try:
        with open(name, newline="", encoding="utf-8-sig") as file:
            text = file.read()
    except OSError as error:
        refuse(f"{name}: {error.strerror}")
    except UnicodeDecodeError:
        refuse(f"{name}: the text is not UTF-8")
    header = text.split("\n", 1)[0]
    delimiter = ";" if "," not in header and ";" in header else ","
    try:
        rows = list(csv.reader(io.StringIO(text, newline=""), delimiter=delimiter, strict=True))
    except csv.Error as error:
        refuse(f"{name}: {error}")
    if not rows:
        refuse(f"{name}: there is no header")
    return rows, delimiter, "\r\n" if header.endswith("\r") else "\n"


def places_of(name, header, columns):
    """The places of the columns in a row."""
    for column in columns:
        if header.count(column) != 1:
            refuse(f"{name}: {header.count(column)} columns are named {column}, and not one")
    return [header.index(column) for column in columns]


def main():
    if len(sys.argv) != 7:
        refuse("usage: heights_table.py TIN.json TABLE.csv X Y HEIGHT RESULT.csv")
    tin, table, *columns, result = sys.argv[1:]
    rows, delimiter, feed = read(table)
    places = places_of(table, rows[0], columns)
    points = [row for row in rows[1:] if row]
    for number, row in enumerate(points, 1):
        if len(row) != len(rows[0]) or not all(NUMERAL.fullmatch(row[it].strip()) for it in places):
            refuse(f"{table}: row {number} behind the header has not one numeral in each of the three columns")
    program = os.environ.get("TINMOVE", "tinmove")
    if os.sep in program:
        program = os.path.abspath(program)
    with tempfile.TemporaryDirectory() as folder:
        with open(os.path.join(folder, "points.txt"), "w", encoding="utf-8") as file:
            file.writelines(" ".join(row[it].strip() for it in places) + "\n" for row in points)
        words = [program, "heights", "--tin", os.path.abspath(tin), "--out", "moved", "points.txt"]
        try:
            status = subprocess.run(words, cwd=folder, check=False).returncode
        except OSError as error:
            refuse(f"{program}: {error.strerror}")
        if status != 0:
            sys.exit(status)
        with open(os.path.join(folder, "moved", "points.txt"), encoding="utf-8") as file:
            moved = file.read().split("\n")[: len(points)]
    for row, point in zip(points, moved, strict=True):
        for place, value in zip(places, point.split(), strict=True):
            row[place] = value
    text = io.StringIO(newline="")
    csv.writer(text, delimiter=delimiter, lineterminator=feed).writerows(rows)
    try:
        write_whole(result, text.getvalue())
    except Refused as refusal:
        refuse(str(refusal))


main()
