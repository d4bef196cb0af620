#!/usr/bin/env python3
"""Makes the inputs of the benchmarks.

usage: make.py NAME..     writes the files of each NAME into this folder

The triangulation of N by N cells and the layer of N lines are those of 'tinmove make N'. All other
inputs are made of whole numbers by fixed rules, so that each run has the same; 'shuffled' has the
vertices, triangles and lines of 'diagonals' in random order.
"""
import json
import random
import sys

HEAD = (
    '{"file_type":"triangulation_file","format_version":"1.1","transformed_components":["horizontal"],'
    '"vertices_columns":["source_x","source_y","target_x","target_y"],'
    '"triangles_columns":["idx_vertex1","idx_vertex2","idx_vertex3"],"vertices":['
)


def metres(mm):
    return f"{'-' if mm < 0 else ''}{abs(mm) // 1000}.{abs(mm) % 1000:03d}"


def tin(vertices, triangles):
    rows = ",".join("[" + ",".join(row) + "]" for row in vertices)
    return HEAD + rows + '],"triangles":[' + ",".join("[%d,%d,%d]" % t for t in triangles) + "]}"


def made_parts(n):
    """The vertices and the triangles of 'tinmove make N'."""
    vertices = []
    for j in range(n + 1):
        for i in range(n + 1):
            x = 1000000 + 10000 * i + (7 * i + 13 * j) % 41
            y = 2000000 + 10000 * j + (11 * i + 5 * j) % 37
            vertices.append((str(10 * i), str(10 * j), metres(x), metres(y)))
    triangles = []
    for j in range(n):
        for i in range(n):
            a = j * (n + 1) + i
            triangles += [(a, a + 1, a + n + 2), (a, a + n + 2, a + n + 1)]
    return vertices, triangles


def made_tin(n):
    return tin(*made_parts(n))


def shuffled(items, seed):
    """The items in random order, the same in each run."""
    items = list(items)
    random.Random(seed).shuffle(items)
    return items


def shuffled_tin(n):
    """The same triangulation with its vertices, its triangles and the first corner of each in random order."""
    vertices, triangles = made_parts(n)
    order = shuffled(range(len(vertices)), 1)
    number = [0] * len(order)
    for place, vertex in enumerate(order):
        number[vertex] = place
    turns = random.Random(2)
    rows = []
    for row in shuffled(triangles, 3):
        turn = turns.randrange(3)
        rows.append(tuple(number[row[(turn + k) % 3]] for k in range(3)))
    return tin([vertices[vertex] for vertex in order], rows)


def made_layer(n):
    for k in range(n):
        yield f"LINESTRING (0 {10 * k + 2}.5, {10 * n} {10 * (3 * k % n) + 7}.5)"


def one_triangle(side):
    """A triangle of this side in metres, moved by 100 m and stretched by 2 mm."""
    end = 1000 * side
    rows = [("0", "0", "100", "100"), (str(side), "0", metres(100002 + end), "100"), ("0", str(side), "100", str(100 + side))]
    return tin(rows, [(0, 1, 2)])


def square(side):
    """Two triangles of a square of this side in metres."""
    end = str(side)
    rows = [("0", "0"), (end, "0"), (end, end), ("0", end)]
    return tin([(x, y, metres(1000 * int(x) + 100000 + 3 * (x == y == end)), metres(1000 * int(y) + 100000)) for x, y in rows], [(0, 1, 2), (0, 2, 3)])


def fan(count):
    """Triangles round the corner (0, 0), from the positive x axis to the positive y axis."""
    rows = [("0", "0", "1000", "1000")]
    for k in range(count + 1):
        x, y = 1000 * 1000 * (count - k) // count, 1000 * 1000 * k // count
        rows.append((metres(x), metres(y), metres(1000000 + x + k % 3), metres(1000000 + y + k % 2)))
    return tin(rows, [(0, k + 1, k + 2) for k in range(count)])


def write(name, lines):
    with open(name, "w", encoding="utf-8") as file:
        for line in lines:
            file.write(line + "\n")


def cells(n):
    for j in range(n):
        for i in range(n):
            yield f"LINESTRING ({10 * i + 1} {10 * j + 2}, {10 * i + 9} {10 * j + 3})"
            yield f"LINESTRING ({10 * i + 1} {10 * j + 7}, {10 * i + 9} {10 * j + 8})"


def points(count):
    for k in range(count):
        yield f"POINT ({metres(k * 7919 % 5000)} {metres(k // 5000 * 13 % 5000)})"


def parcels(count):
    """Squares of 8 m in the cells of made_tin(512), as features with properties."""
    features = []
    for k in range(count):
        x, y = 10 * (k % 500) + 1, 10 * (k // 500) + 1
        ring = [[x, y], [x + 8, y], [x + 8, y + 8], [x, y + 8], [x, y]]
        places = ", ".join(f"[ {a}.0, {b}.0 ]" for a, b in ring)
        features.append(
            '{ "type": "Feature", "properties": { "number": %d, "kind": "parcel" }, "geometry": { "type": "Polygon", "coordinates": [ [ %s ] ] } }'
            % (k, places)
        )
    yield '{\n"type": "FeatureCollection",\n"name": "parcels",\n"features": ['
    yield ",\n".join(features)
    yield "]\n}"


def drawing(count):
    """Lines and polylines in the cells of made_tin(512), 200 bytes or so an entity."""
    yield "  0\nSECTION\n  2\nHEADER\n  9\n$HANDSEED\n  5\nFFFFFF\n  0\nENDSEC\n  0\nSECTION\n  2\nENTITIES"
    for k in range(count):
        x, y = 10 * (k % 500) + 1, 10 * (k // 500 % 500) + 1
        if k % 2:
            yield f"  0\nLINE\n  5\n{k + 256:X}\n  8\nWALL\n 62\n     7\n 10\n{x}.125\n 20\n{y}.5\n 30\n0.0\n 11\n{x + 7}.25\n 21\n{y + 1}.75\n 31\n0.0"
        else:
            yield f"  0\nLWPOLYLINE\n  5\n{k + 256:X}\n  8\nFENCE\n 90\n        3\n 70\n     0\n 10\n{x}.5\n 20\n{y + 3}.25\n 10\n{x + 3}.75\n 20\n{y + 4}.0\n 10\n{x + 7}.0\n 20\n{y + 6}.125"
    yield "  0\nENDSEC\n  0\nEOF"


def villages(count):
    """Lines of up to 20 m that cross each other, in two squares of 1 km at the ends of a country of 350 km."""
    for k in range(2 * count):
        base = 340000000 if k % 2 else 1000000
        x, y = base + k * 7919 % 1000000, base + k * 104729 % 1000000
        yield f"LINESTRING ({metres(x)} {metres(y)}, {metres(x + k * 31 % 20000)} {metres(y + k * 17 % 20000)})"


def fan_lines(count):
    for _ in range(count):
        yield "LINESTRING (400 1, 1 400)"


def equal_points(count):
    for _ in range(count):
        yield "POINT (2.5 2.5)"


def long_lines(lines, count):
    """Lines of 400 km from corner to corner among points all over the country."""
    for k in range(lines):
        yield f"LINESTRING ({1 + k}.5 1.25, 399000.75 {398000 + k}.5)"
    for k in range(count):
        yield f"POINT ({metres(1000000 + k * 7919 * 1000 % 398000000)} {metres(1000000 + k * 104729 * 100 % 398000000)})"


def texts(name):
    """The triangulation and the layer of a row of run.sh."""
    return {
        "diagonals": (made_tin(512), "wkt", cells(512)),
        "shuffled": (shuffled_tin(512), "wkt", shuffled(cells(512), 4)),
        "points": (one_triangle(10), "wkt", points(1000000)),
        "parcels": (made_tin(512), "geojson", parcels(150000)),
        "drawing": (made_tin(512), "dxf", drawing(262000)),
        "villages": (square(400000), "wkt", villages(100000)),
        "fan": (fan(3000), "wkt", fan_lines(20)),
        "equal": (one_triangle(10), "wkt", equal_points(20000)),
        "long": (square(400000), "wkt", long_lines(20, 50000)),
    }[name]


def main():
    for name in sys.argv[1:]:
        if name.startswith("made"):
            n = int(name[4:])
            write(f"{name}.json", [made_tin(n)])
            write(f"{name}.wkt", made_layer(n))
            continue
        text, end, lines = texts(name)
        json.loads(text)
        write(f"{name}.json", [text])
        write(f"{name}.{end}", lines)


if __name__ == "__main__":
    main()
