#!/usr/bin/env python3
"""Makes a map of parcels as offices have them: control points over 56 km by 30 km with distortions of
up to a metre, and parcels on a shaken grid of 100 m, some of whose corners are on a neighbour's side,
and some with a parcel, or one of two areas, in a hole. The same words make the same map.

usage: parcels.py FOLDER COLUMNS ROWS     writes points.csv and parcels.geojson; 45 44 makes 2,276 parcels
"""
import hashlib
import json
import math
import os
import random
import sys

WEST, SOUTH, STEP = 600000.0, 200000.0, 100.0
# Below this share of the points on a side, one neighbour alone has the point.
ALONE = 0.35


def chance(*key):
    digest = hashlib.blake2b(repr(key).encode(), digest_size=8).digest()
    return int.from_bytes(digest, "big") / 2**64


def millimetres(value):
    return round(value, 3)


def corner(i, j):
    x = WEST + STEP * i + (chance("x", i, j) - 0.5) * 50
    y = SOUTH + STEP * j + (chance("y", i, j) - 0.5) * 50
    return millimetres(x), millimetres(y)


def between(a, b, share):
    return tuple(millimetres(p + share * (q - p)) for p, q in zip(a, b))


def point_on(kind, i, j, a, b):
    """The point on a side, or none, for the neighbour that has it in any case and for the other one."""
    if chance(kind, i, j) >= 0.4:
        return [], []
    point = [between(a, b, 0.3 + 0.4 * chance(kind + "t", i, j))]
    return point, point if chance(kind + "s", i, j) > ALONE else []


def outline(i, j):
    a, b, c, d = corner(i, j), corner(i + 1, j), corner(i + 1, j + 1), corner(i, j + 1)
    # Of each side the upper and the right parcel have the point in any case.
    below, left = point_on("h", i, j, a, b)[0], point_on("v", i, j, a, d)[0]
    above, right = point_on("h", i, j + 1, d, c)[1], point_on("v", i + 1, j, b, c)[1]
    return [a, *below, b, *right, c, *above, d, *left, a]


def hexagon(i, j, size=0.25, east=0):
    corners = [corner(i + a, j + b) for a in (0, 1) for b in (0, 1)]
    x, y = sum(it[0] for it in corners) / 4 + east, sum(it[1] for it in corners) / 4
    turns = [at * math.pi / 3 for at in range(6)]
    return [(millimetres(x + size * STEP * math.cos(t) * 0.5), millimetres(y + size * STEP * math.sin(t) * 0.5)) for t in turns]


def hole(ring):
    return ring[::-1] + [ring[-1]]


def geometries(i, j):
    """The parcel of a cell, and what is in its hole."""
    if chance("hole", i, j) < 0.1:
        inner = hexagon(i, j)
        yield "Polygon", [outline(i, j), hole(inner)]
        yield "Polygon", [inner + [inner[0]]]
    elif chance("hole", i, j) < 0.15:
        one, two = hexagon(i, j, 0.15, -12), hexagon(i, j, 0.15, 12)
        yield "Polygon", [outline(i, j), hole(one), hole(two)]
        yield "MultiPolygon", [[one + [one[0]]], [two + [two[0]]]]
    else:
        yield "Polygon", [outline(i, j)]


def write_parcels(name, columns, rows):
    cells = ((i, j) for j in range(rows) for i in range(columns))
    found = [(f"{i}/{j}", it) for i, j in cells for it in geometries(i, j)]
    with open(name, "w", encoding="utf-8") as file:
        frame = '"crs":{"type":"name","properties":{"name":"urn:ogc:def:crs:EPSG::21781"}}'
        file.write('{"type":"FeatureCollection","name":"parcels",\n%s,\n"features":[\n' % frame)
        lines = (
            json.dumps({"type": "Feature", "properties": {"cell": cell}, "geometry": {"type": kind, "coordinates": places}})
            for cell, (kind, places) in found
        )
        file.write(",\n".join(lines) + "\n]}\n")
    return len(found)


def write_points(name, count=2000):
    shake = random.Random(5)
    west, south, width, height = WEST - 3000, SOUTH - 3000, 56000, 30000
    columns = round(math.sqrt(count * width / height))
    rows = round(count / columns)
    with open(name, "w", encoding="utf-8") as file:
        file.write("name,x,y,X,Y\n")
        for at in range(columns * rows):
            i, j = divmod(at, rows)
            x, y = west + width * i / (columns - 1), south + height * j / (rows - 1)
            if 0 < i < columns - 1:
                x += shake.uniform(-0.3, 0.3) * width / columns
            if 0 < j < rows - 1:
                y += shake.uniform(-0.3, 0.3) * height / rows
            x, y = millimetres(x), millimetres(y)
            u, v = (x - west) / width * 2 - 1, (y - south) / height * 2 - 1
            dx = 0.62 * u - 0.31 * v + 0.25 * u * v + 0.05 * math.sin(9 * u + 3 * v) + shake.gauss(0, 0.02)
            dy = -0.44 * u + 0.52 * v - 0.12 * u * u + 0.05 * math.cos(7 * v - 2 * u) + shake.gauss(0, 0.02)
            file.write("P%04d,%.3f,%.3f,%.3f,%.3f\n" % (at, x, y, x + 2000000 + dx, y + 1000000 + dy))
    return columns * rows


def main():
    if len(sys.argv) != 4:
        sys.exit("parcels.py: usage: parcels.py FOLDER COLUMNS ROWS")
    folder, columns, rows = sys.argv[1], int(sys.argv[2]), int(sys.argv[3])
    points = write_points(os.path.join(folder, "points.csv"))
    parcels = write_parcels(os.path.join(folder, "parcels.geojson"), columns, rows)
    print(f"control points {points}, parcels {parcels}")


main()
