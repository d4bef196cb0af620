#!/usr/bin/python3
"""Compares what recipes wrote with what they read, by values, for try.sh.

usage: values.py rows SOURCE RESULT                layers, columns, fids and all values but geometries
       values.py vertices TIN.json SOURCE RESULT [LAYER [LAYER_OF_RESULT]]
       values.py drawing TIN.json JOINED.dxf      examples/drawing.py's, made readable, carried and joined

'rows' is silent where all layers of SOURCE are in RESULT, with the same columns, fids and values.
'vertices' takes the paths of both files in order, and PROJ's cct for the carried places: each vertex
of a path must be in the path of the result, at most 0.501 mm from what cct gives, with its height;
each other vertex of the result must be at most a millimetre beside its segment, in the source frame,
with the height there. Status 1: something differs, and the first line says what.
Needs GDAL's Python module (Debian: python3-gdal), ezdxf (python3-ezdxf) and cct (proj-bin).
"""
import math
import os
import subprocess
import sys
import tempfile

from osgeo import gdal, ogr

ogr.UseExceptions()
gdal.UseExceptions()


def differ(text):
    print(f"values.py: {text}")
    sys.exit(1)


def layers_in(data):
    return {data.GetLayer(at).GetName(): data.GetLayer(at) for at in range(data.GetLayerCount())}


def columns_of(layer):
    head = layer.GetLayerDefn()
    fields = [head.GetFieldDefn(at) for at in range(head.GetFieldCount())]
    kind = head.GetGeomFieldDefn(0).GetType() if head.GetGeomFieldCount() else None
    return [(it.GetName(), it.GetType(), it.GetSubType(), it.GetWidth()) for it in fields], layer.GetGeometryColumn(), kind


def value_of(feature, at):
    if not feature.IsFieldSetAndNotNull(at):
        return None
    kind = feature.GetFieldDefnRef(at).GetType()
    return feature.GetFieldAsBinary(at) if kind == ogr.OFTBinary else feature.GetFieldAsString(at)


def rows_of(layer):
    layer.ResetReading()
    for it in layer:
        yield it.GetFID(), [value_of(it, at) for at in range(it.GetFieldCount())], it.GetGeometryRef() is None


def compare_rows(source, result):
    one, two = ogr.Open(source), ogr.Open(result)
    old, new = layers_in(one), layers_in(two)
    for name, layer in old.items():
        if name not in new:
            differ(f"{result}: no layer {name!r}")
        if columns_of(layer) != columns_of(new[name]):
            differ(f"{name}: columns {columns_of(layer)} are {columns_of(new[name])}")
        rows, carried = list(rows_of(layer)), list(rows_of(new[name]))
        if len(rows) != len(carried):
            differ(f"{name}: {len(rows)} rows are {len(carried)}")
        for row, other in zip(rows, carried):
            if row != other:
                differ(f"{name}: the row {row} is {other}")


def paths_of(geometry):
    """The points, lines and rings of a geometry, each a list of x, y and height or None."""
    if geometry is None:
        return []
    if geometry.GetGeometryCount():
        inner = [paths_of(geometry.GetGeometryRef(at)) for at in range(geometry.GetGeometryCount())]
        return [it for paths in inner for it in paths]
    is_tall = geometry.Is3D()
    points = range(geometry.GetPointCount())
    return [[(geometry.GetX(at), geometry.GetY(at), geometry.GetZ(at) if is_tall else None) for at in points]] if points else []


def by_cct(tin, places, options=()):
    if not places:
        return []
    with tempfile.TemporaryDirectory() as folder:
        # PROJ reads a blank in a name as its end.
        os.symlink(os.path.abspath(tin), os.path.join(folder, "tin.json"))
        words = ["cct", "-d", "6", "-z", "0", "-t", "0", *options, "+proj=tinshift", f"+file={folder}/tin.json"]
        text = "".join("%.6f %.6f\n" % it[:2] for it in places)
        lines = subprocess.run(words, input=text, capture_output=True, text=True, check=True).stdout.splitlines()
    return [tuple(map(float, it.split()[:2])) for it in lines]


def features_of(name, layer):
    data = ogr.Open(name)
    found = data.GetLayerByName(layer) if layer else data.GetLayer(0)
    return [paths_of(it.GetGeometryRef()) for it in found]


def beside(point, start, end):
    """How far a point is beside a segment, and where on it from 0 to 1."""
    along = math.dist(start[:2], end[:2])
    if along == 0:
        return math.dist(point[:2], start[:2]), 0
    dx, dy = end[0] - start[0], end[1] - start[1]
    t = ((point[0] - start[0]) * dx + (point[1] - start[1]) * dy) / along**2
    return math.dist(point[:2], (start[0] + t * dx, start[1] + t * dy)), t


def compare_path(path, images, carried, back, most):
    """Both paths, what cct gives of the first one, and of the second one by the way back."""
    at = 0
    for number, (vertex, image) in enumerate(zip(path, images)):
        while at < len(carried) and max(abs(carried[at][0] - image[0]), abs(carried[at][1] - image[1])) > 0.000501:
            if number == 0:
                differ(f"the first vertex of a path is {carried[0]}, and cct says {image}")
            start = path[number - 1]
            side, along = beside(back[at], start, vertex)
            if side > 0.001 or not -0.001 < along < 1.001:
                differ(f"{carried[at]} is {side} m beside the segment from {start} to {vertex}")
            # Its place is known to a millimetre, which a steep segment makes more of.
            steep = 0 if vertex[2] is None else abs(vertex[2] - start[2]) / max(math.dist(start[:2], vertex[:2]), 0.001)
            if vertex[2] is not None and abs(carried[at][2] - (start[2] + along * (vertex[2] - start[2]))) > 0.00051 + 0.001 * steep:
                differ(f"the height of {carried[at]} is not that of the segment from {start} to {vertex}")
            most["inserted"] += 1
            at += 1
        if at == len(carried):
            differ(f"the vertex {vertex} is not in the carried path; cct says {image}")
        if vertex[2] is not None and abs(carried[at][2] - vertex[2]) > 0.0005:
            differ(f"the vertex {vertex} has the height {carried[at][2]}")
        most["far"] = max(most["far"], abs(carried[at][0] - image[0]), abs(carried[at][1] - image[1]))
        most["vertices"] += 1
        at += 1
    if at != len(carried):
        differ(f"behind the last vertex {path[-1]} of a path is {carried[at]}")


def compare_vertices(tin, source, result, layer=None, other=None):
    old, new = features_of(source, layer), features_of(result, other or layer)
    old, new = ([path for it in features for path in it] for features in (old, new))
    if len(old) != len(new):
        differ(f"{len(old)} paths are {len(new)}")
    images = iter(by_cct(tin, [point for path in old for point in path]))
    backs = iter(by_cct(tin, [point for path in new for point in path], ["-I"]))
    most = {"vertices": 0, "inserted": 0, "far": 0.0}
    for path, carried in zip(old, new):
        compare_path(path, [next(images) for _ in path], carried, [next(backs) for _ in carried], most)
    print(f"vertices {most['vertices']}, at most {most['far'] * 1000:.3f} mm from cct, inserted {most['inserted']}")


# The paths in space of examples/drawing.py: layer, colour, whether closed, and the vertices.
PATHS = [
    ("AXIS", 3, False, [(599400, 199800, 430), (600400, 200300, 445.5), (600450, 200400, 447.25)]),
    ("AXIS", 256, True, [(600010, 200010, 1), (600020, 200010, 2), (600020, 200020, 3)]),
    ("TERRAIN", 256, True, [(600100, 200100, 1), (600110, 200100, 2), (600110, 200110, 3), (600100, 200110, 4)]),
]


def is_wanted(what, found, wanted):
    if found != wanted:
        differ(f"{what}: {found} in place of {wanted}")


def compare_drawing(tin, name):
    import ezdxf

    doc = ezdxf.readfile(name)
    space, most = doc.modelspace(), {"vertices": 0, "inserted": 0, "far": 0.0}
    is_wanted("the errors of the drawing", [it.message for it in doc.audit().errors], [])
    paths = [it for it in space.query("POLYLINE") if it.is_3d_polyline]
    is_wanted("layers, colours and closing", [(it.dxf.layer, it.dxf.color, it.is_closed) for it in paths], [it[:3] for it in PATHS])
    for path, (_, _, _, vertices) in zip(paths, PATHS):
        carried = [tuple(it.dxf.location) for it in path.vertices]
        compare_path(vertices, by_cct(tin, vertices), carried, by_cct(tin, carried, ["-I"]), most)
    # The axis goes over three sides of triangles.
    is_wanted("the vertices and crossings in space", (most["vertices"], most["inserted"]), (10, 3))
    is_wanted("the widths", [it.dxf.const_width for it in space.query("LWPOLYLINE") if it.has_width], [0.25])
    # The line of kilometres of a block is in its place, and the symbol is still an insert.
    far = max((it.dxf.end for it in space.query("LINE")), key=lambda it: it.x)
    (place,) = by_cct(tin, [(609400, 200100)])
    if max(abs(far.x - place[0]), abs(far.y - place[1])) > 0.000501:
        differ(f"the far end of a block is {far}, and cct says {place}")
    is_wanted("the inserts", [it.dxf.name for it in space.query("INSERT")], ["TREE"])
    is_wanted("the texts", sorted(it.dxf.text for it in space.query("TEXT")), ["Nr. 12", "Wald"])
    print("the drawing is as wanted")


def main():
    kind, *words = sys.argv[1:] or [""]
    if kind == "rows" and len(words) == 2:
        compare_rows(*words)
    elif kind == "vertices" and len(words) in (3, 4, 5):
        compare_vertices(*words)
    elif kind == "drawing" and len(words) == 2:
        compare_drawing(*words)
    else:
        print("values.py: usage: values.py rows SOURCE RESULT, or values.py vertices TIN SOURCE RESULT", file=sys.stderr)
        sys.exit(2)


main()
