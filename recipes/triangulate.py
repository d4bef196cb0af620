#!/usr/bin/python3
"""Makes a triangulation file for tinmove and PROJ from a table of control points.

usage: triangulate.py POINTS.csv TIN.json

The table is in UTF-8. Its first line has the names of the columns, parted by commas, semicolons or
tabs. The columns x and y (or source_x and source_y) are the place in the source frame, X and Y (or
target_x and target_y) that in the target frame, in metres; they may stand in any order, and others
are passed over. Row N of the file, from 0, is the table's row N. The triangles are those of Delaunay
over the source places. Each number is copied as it stands in the table, so none loses a digit.
Needs GDAL's Python module (Debian: python3-gdal). Status 2: the table is refused, and no file is
written.
"""
import csv
import io
import math
import os
import re
import sys
import tempfile

from osgeo import ogr

ogr.UseExceptions()
COLUMNS = (("x", "source_x"), ("y", "source_y"), ("X", "target_x"), ("Y", "target_y"))
NUMBER = re.compile(r"-?(0|[1-9][0-9]*)(\.[0-9]+)?([eE][-+]?[0-9]+)?")


def refuse(text):
    print(f"triangulate.py: {text}", file=sys.stderr)
    sys.exit(2)


def read_lines(name):
    """The lines of the table, each with its number, without blank ones."""
    try:
        with open(name, newline="", encoding="utf-8-sig") as file:
            text = file.read()
    except OSError as error:
        refuse(f"{name}: {error.strerror}")
    except UnicodeDecodeError as error:
        refuse(f"{name}: byte {error.start} is not UTF-8: save the table as UTF-8")
    head = text.partition("\n")[0]
    delimiter = max(",;\t", key=head.count)
    lines = csv.reader(io.StringIO(text, newline=""), delimiter=delimiter)
    try:
        return [(lines.line_num, [it.strip() for it in line]) for line in lines if any(it.strip() for it in line)]
    except csv.Error as error:
        refuse(f"{name}: line {lines.line_num}: {error}")


def read_points(name):
    """The four numbers of each point, as they stand in the table."""
    lines = read_lines(name)
    if not lines:
        refuse(f"{name}: the table is empty")
    head, wanted = lines[0][1], []
    for names in COLUMNS:
        found = [at for at, it in enumerate(head) if it in names]
        if len(found) != 1:
            many = "more than one column" if found else "no column"
            refuse(f"{name}: {many} is named {' or '.join(names)} (x and y are the source, X and Y the target)")
        wanted.append(found[0])
    points = []
    for number, line in lines[1:]:
        if len(line) != len(head):
            refuse(f"{name}: line {number} has {len(line)} columns, and the first line {len(head)}")
        points.append([line[at] for at in wanted])
        for at in wanted:
            if not NUMBER.fullmatch(line[at]) or not math.isfinite(float(line[at])):
                refuse(f"{name}: line {number}, column {head[at]}: {line[at]!r} is no number")
    return points


def triangles_of(name, rows):
    """The numbers of the three points of each triangle."""
    points, number_of = ogr.Geometry(ogr.wkbMultiPoint), {}
    for number, row in enumerate(rows):
        place = float(row[0]), float(row[1])
        if place in number_of:
            refuse(f"{name}: the points {number_of[place]} and {number}, from 0, have the same source place")
        number_of[place] = number
        point = ogr.Geometry(ogr.wkbPoint)
        point.AddPoint_2D(*place)
        points.AddGeometry(point)
    network = points.DelaunayTriangulation(0.0, 0) if len(rows) > 2 else None
    found = []
    for at in range(network.GetGeometryCount() if network else 0):
        ring = network.GetGeometryRef(at).GetGeometryRef(0)
        found.append([number_of[ring.GetX(corner), ring.GetY(corner)] for corner in range(3)])
    if not found:
        refuse(f"{name}: {len(rows)} points, and no triangle: three points that are not on one line are needed")
    return found


def write_whole(name, text):
    """Writes a file that has the name only when it is whole."""
    part = None
    try:
        with tempfile.NamedTemporaryFile(
            "w", encoding="utf-8", dir=os.path.dirname(name) or ".", prefix=".triangulate-", delete=False
        ) as file:
            part = file.name
            file.write(text)
        os.chmod(part, 0o666 & ~umask())
        os.replace(part, name)
    except OSError as error:
        if part:
            os.unlink(part)
        refuse(f"{name}: {error.strerror}")


def umask():
    mask = os.umask(0)
    os.umask(mask)
    return mask


def main():
    if len(sys.argv) != 3:
        refuse("usage: triangulate.py POINTS.csv TIN.json")
    rows = read_points(sys.argv[1])
    triangles = triangles_of(sys.argv[1], rows)
    write_whole(
        sys.argv[2],
        '{"file_type":"triangulation_file","format_version":"1.1",\n'
        '"transformed_components":["horizontal"],\n'
        '"vertices_columns":["source_x","source_y","target_x","target_y"],\n'
        '"triangles_columns":["idx_vertex1","idx_vertex2","idx_vertex3"],\n'
        '"vertices":[\n' + ",\n".join("[" + ",".join(row) + "]" for row in rows) + "],\n"
        '"triangles":[\n' + ",\n".join("[%d,%d,%d]" % tuple(it) for it in triangles) + "]}\n",
    )
    print(f"{len(rows)} points, {len(triangles)} triangles")


main()
