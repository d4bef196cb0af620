#!/usr/bin/python3
"""Makes vertices of the points at which geometries touch each other inside a segment.

usage: shared_vertices.py FOLDER [--tolerance MM] [--beside FILE]... LAYER.geojson...

So they still touch after rounding, and no change is listed for them. All layers are looked at together:
a boundary point becomes a vertex of its parcel. FILEs are layers of neighbours: their vertices count,
and they are not written. No vertex moves. A vertex that is at most MM millimetres (1) from a segment of
another geometry or of its own, and farther than that from its ends, is put into the segment; where both
ends have heights it gets the height between them. The layers are written into FOLDER under their names,
once all have been read. Needs nothing but Python, and inserted_vertices.py beside it.
"""
import argparse
import json
import math
import os
import sys

sys.dont_write_bytecode = True
from inserted_vertices import Refused, write_whole

# The side of a cell in metres: in each are the vertices of some parcels.
CELL = 50.0


def lists_of(geometry):
    """The lists of positions of a geometry, each with whether it has segments."""
    kind, places = geometry["type"], geometry.get("coordinates")
    if kind == "GeometryCollection":
        for one in geometry["geometries"]:
            yield from lists_of(one)
    elif not places:
        return
    elif kind == "Point":
        yield [places], False
    elif kind in ("LineString", "MultiPoint"):
        yield places, kind == "LineString"
    elif kind in ("Polygon", "MultiLineString"):
        yield from ((one, True) for one in places)
    else:
        yield from ((one, True) for area in places for one in area)


def load(name):
    try:
        with open(name, encoding="utf-8-sig") as file:
            layer = json.load(file)
        for geometry in geometries_of(layer):
            for places, _ in lists_of(geometry):
                for x, y, *_ in places:
                    float(x), float(y)
    except OSError as error:
        sys.exit(f"{name}: {error.strerror}")
    except (ValueError, KeyError, TypeError, AttributeError):
        sys.exit(f"{name}: no GeoJSON")
    return layer


def geometries_of(layer):
    if layer["type"] == "FeatureCollection":
        return [it["geometry"] for it in layer["features"] if it.get("geometry")]
    geometry = layer.get("geometry") if layer["type"] == "Feature" else layer
    return [geometry] if geometry else []


def vertices_of(layers):
    """The places of all vertices by their cells."""
    cells = {}
    for layer in layers:
        for geometry in geometries_of(layer):
            for places, _ in lists_of(geometry):
                for x, y, *_ in places:
                    cells.setdefault((x // CELL, y // CELL), set()).add((x, y))
    return cells


def cells_near(a, b, tolerance):
    """The cells within the tolerance of a segment, by steps of a cell's side."""
    steps = int(math.hypot(b[0] - a[0], b[1] - a[1]) // CELL) + 1
    found = set()
    for step in range(steps):
        ends = [[a[k] + (b[k] - a[k]) * (step + more) / steps for more in (0, 1)] for k in (0, 1)]
        spans = [range(int((min(it) - tolerance) // CELL), int((max(it) + tolerance) // CELL) + 1) for it in ends]
        found.update((i, j) for i in spans[0] for j in spans[1])
    return found


def inside(a, b, cells, tolerance):
    """The vertices inside a segment with their distance from its start, in their order on it."""
    dx, dy = b[0] - a[0], b[1] - a[1]
    length = math.hypot(dx, dy)
    if length == 0:
        return []
    found = set()
    for cell in cells_near(a, b, tolerance):
        for x, y in cells.get(cell, ()):
            along = ((x - a[0]) * dx + (y - a[1]) * dy) / length
            aside = abs((x - a[0]) * dy - (y - a[1]) * dx) / length
            if tolerance < along < length - tolerance and aside <= tolerance:
                found.add((along / length, x, y))
    return sorted(found)


def share(places, cells, tolerance):
    """A list of positions with the vertices inside its segments put in."""
    result = places[:1]
    for a, b in zip(places, places[1:]):
        for part, x, y in inside(a, b, cells, tolerance):
            height = [round(a[2] + (b[2] - a[2]) * part, 3)] if len(a) > 2 and len(b) > 2 else []
            result.append([x, y, *height])
        result.append(b)
    return result


def text_of(layer):
    """The text of a layer. Half of a pair of UTF-16 alone, which UTF-8 cannot spell, is an escape as in JSON."""
    return json.dumps(layer, ensure_ascii=False).encode(errors="backslashreplace").decode()


def main():
    words = argparse.ArgumentParser(usage=__doc__.split("\n")[2][7:])
    words.add_argument("folder")
    words.add_argument("--tolerance", type=float, default=1.0)
    words.add_argument("--beside", action="append", default=[])
    words.add_argument("layers", nargs="+")
    words = words.parse_args()
    names = [os.path.basename(it) for it in words.layers]
    if len(set(names)) < len(names):
        sys.exit("two layers have one name")
    layers = [load(it) for it in words.layers]
    cells = vertices_of(layers + [load(it) for it in words.beside])
    put = 0
    for layer in layers:
        for geometry in geometries_of(layer):
            for places, has_segments in lists_of(geometry):
                if has_segments:
                    count = len(places)
                    places[:] = share(places, cells, words.tolerance / 1000)
                    put += len(places) - count
    try:
        os.makedirs(words.folder, exist_ok=True)
        for name, layer in zip(names, layers):
            write_whole(os.path.join(words.folder, name), text_of(layer))
    except OSError as error:
        sys.exit(f"{words.folder}: {error.strerror}")
    except Refused as refusal:
        sys.exit(str(refusal))
    print(f"{put} vertices put into segments")


main()
