#!/usr/bin/env python3
"""Whether a migrated layer of well-known text or GeoJSON is that of its source, by its certificate. It prints what
`tinmove verify` prints: `certified` (status 0), or the first fault: of the triangulation (status 3) and of the source
(4) without its place, of the certificate and the written layer (10). docs/guide.md says more ("Certificates").
Its words: --tin FILE --source LAYER --written FILE --cert FILE [--inverse] [--exact] [--inside-only]"""
import argparse, json, re, sys
from collections import deque, namedtuple
from fractions import Fraction
TIN, LAYER, CERTIFICATE = "triangulation", "layer 0", "certificate"
KINDS = {"Point": 0, "LineString": 0, "Polygon": 1, "MultiPoint": 1, "MultiLineString": 1, "MultiPolygon": 2}
GEOMETRIES = [*KINDS, "GeometryCollection"]
Node = namedtuple("Node", "value start end")  # a value of a text, and its place there
def need(holds, where, what):
    if not holds:
        print(f"{where}: {what}")
        sys.exit({TIN: 3, LAYER: 4, CERTIFICATE: 10}[where])
class Numeral(str):  # of metres, in a text; all other numbers are whole millimetres
    def millimetres(self, where):
        found = re.fullmatch(r"[+-]?([0-9]+\.?[0-9]*|\.[0-9]+)([eE]([+-]?[0-9]+))?", self)
        need(found and len(self) <= 64 and abs(int(found[3] or 0)) <= 99, where, "number")
        value = Fraction(self) * 1000
        need(abs(value) <= 10 ** 15 and (value.denominator == 1 or not job.exact), where, "number")
        return half_up(value)
def half_up(value):
    return (value + Fraction(1, 2)) // 1
def metres(number):
    return f"{'-' * (number < 0)}{abs(number) // 1000}.{abs(number) % 1000:03}"
# ---- JSON: an array is a list of nodes, an object a tuple of pairs of a name and a node
class Reader(json.JSONDecoder):
    def __init__(self):
        super().__init__(parse_float=Numeral, parse_int=Numeral, parse_constant=int, object_pairs_hook=tuple)
        self.parse_array = lambda at, _: json.decoder.JSONArray(at, self.node)
        self.parse_object = lambda at, strict, _, *hooks: json.decoder.JSONObject(at, strict, self.node, *hooks)
        self.scan = json.scanner.py_make_scanner(self)
    def node(self, text, at):
        value, end = self.scan(text, at)
        return Node(value, at, end), end
def read_json(data, where):
    try:
        text = data.decode() and data.decode("latin-1")  # with one character for each byte
        mark = "(\xef\xbb\xbf)?" if where == LAYER else ""
        top, end = Reader().node(text, re.match(mark + "[ \t\r\n]*", text).end())
        need(not text[end:].strip(" \t\r\n"), where, "json")
        return top
    except (ValueError, StopIteration, RecursionError):
        need(False, where, "json")
def only(node, name, where, *kinds):  # the member of this name, of this type, or where there is no type perhaps None
    found = [it for key, it in node.value if key == name] if type(node.value) is tuple else []
    need(len(found) < 2 and (not kinds or found and type(found[0].value) in kinds), where, name)
    return found[0] if found else None
# ---- the triangulation: triangles of three corners (source x, source y, target x, target y)
def read_tin(data):
    def rows(name, *wanted):
        columns = [it.value for it in only(top, name + "_columns", TIN, list).value]
        need(all(type(it) is str for it in columns) and all(columns.count(it) == 1 for it in wanted), TIN, name)
        for row in only(top, name, TIN, list).value:
            need(type(row.value) is list and len(row.value) == len(columns), TIN, name)
            need(all(type(row.value[columns.index(it)].value) is Numeral for it in wanted), TIN, name)
            yield [row.value[columns.index(it)].value for it in wanted]
    top = read_json(data, TIN)
    need(only(top, "file_type", TIN, str).value == "triangulation_file", TIN, "file_type")
    need(only(top, "format_version", TIN, str).value in ("1.0", "1.1"), TIN, "version")
    fallback = only(top, "fallback_strategy", TIN) or Node("none", 0, 0)
    need(fallback.value in ("none", "nearest_side", "nearest_centroid")[:3 if job.inside_only else 1], TIN, "fallback")
    parts = [it.value for it in only(top, "transformed_components", TIN, list).value]
    need("horizontal" in parts and all(it in ("horizontal", "vertical") for it in parts), TIN, "components")
    corners = [tuple(it.millimetres(TIN) for it in row)
               for row in rows("vertices", "source_x", "source_y", "target_x", "target_y")]
    numbers = list(rows("triangles", "idx_vertex1", "idx_vertex2", "idx_vertex3"))
    need(all(it.isdigit() and int(it) < len(corners) for row in numbers for it in row), TIN, "index")
    need(all(max(axis) - min(axis) < 2 ** 31 for axis in zip(*corners)), TIN, "span")
    tin = [[corners[int(it)] for it in row] for row in numbers]
    tin = [t if turn(*t) > 0 else t[::-1] for t in tin]
    other = [[it[2:] + it[:2] for it in t] for t in tin]
    need(all(turn(*t) > 0 for t in tin + other), TIN, "flat or turns over")
    need(not any(meet(t, u) for frame in (tin, other) for i, t in enumerate(frame) for u in frame[:i]), TIN, "meets")
    return other if job.inverse else tin
def turn(p, q, r):  # twice the area of three points; above 0 where they go round counterclockwise
    return (q[0] - p[0]) * (r[1] - p[1]) - (q[1] - p[1]) * (r[0] - p[0])
def has(t, p):
    return all(turn(t[i - 1], t[i], p) >= 0 for i in range(3))
def meet(t, u):  # whether they have more in common than their common corners and what is between these
    sides = [(t[i - 1], t[i], u[k - 1], u[k]) for i in range(3) for k in range(3)]
    return (set(t) == set(u) or any(has(b, p) for a, b in ((t, u), (u, t)) for p in a if p not in b)
            or any(turn(p, q, r) * turn(p, q, s) < 0 > turn(r, s, p) * turn(r, s, q) for p, q, r, s in sides))
# ---- layers: of each path its places (x, y, height or None), and what is written where, by the images of all paths
def shape(node, name, depth, sizes, comma, before, between, behind):  # lists of .. lists of points, each a path
    need(type(node.value) is list, LAYER, "shape")
    for it in node.value if depth else []:
        shape(it, name, depth - 1, sizes, comma, before, between, behind)
    if not depth and (node.value or "Polygon" in name and node.end):
        need(all(type(it.value) is list and len(it.value) in sizes and all(type(n.value) is Numeral for n in it.value)
                 for it in node.value) and ("Point" not in name or len(node.value) == 1), LAYER, "shape")
        places = [([n.value.millimetres(LAYER) for n in it.value] + [None])[:3] for it in node.value]
        need("Polygon" not in name or len(places) > 3 and places[0] == places[-1], LAYER, "ring")
        edits.append((node.value[0].start, node.value[-1].end, lambda runs, path=len(paths): comma.join(
            before + between.join(metres(it) for it in image if it is not None) + behind for image in runs[path])))
        paths.append(places)
def read_wkt(text):
    kinds, rest, start = {it.upper(): it for it in KINDS}, [], 0
    def node():  # nodes in brackets, EMPTY, a geometry (its name, whether Z, and a node), or the numbers of a point
        word, at = rest.pop()
        if word == "(":
            items = [node()]
            while rest[-1][0] == ",":
                items += [node()] if rest.pop() else []
            need(rest.pop()[0] == ")", LAYER, "bad")
            return Node(items, 0, 0)
        if word.isalpha() and word.upper() != "EMPTY":
            return Node((word.upper(), rest[-1][0].upper() == "Z" and bool(rest.pop()), node()), 0, 0)
        numbers = [] if word.upper() == "EMPTY" else [Node(Numeral(it), 0, 0) for it in word.split()]
        return Node(numbers, at, at + len(word) if numbers else 0)
    def geometry(it):
        name, z, inner = it.value if type(it.value) is tuple else ("", False, it)
        need((name in kinds or name == "GEOMETRYCOLLECTION") and type(inner.value) is list, LAYER, "kind")
        if name not in kinds:
            return [geometry(each) for each in inner.value]
        if name == "MULTIPOINT":  # a point may have brackets of its own
            inner = Node([Node([p], 0, 0) if p.end else p for p in inner.value], 0, 0)
        shape(inner, kinds[name], KINDS[kinds[name]], [2 + z], ", ", "", " ", "")
    for line in text.split("\n"):
        found = re.finditer(r"[A-Za-z]+|[0-9.+-][0-9.eE+-]*([ \t\r]+[0-9.+-][0-9.eE+-]*)*|[^ \t\r]", line)
        rest[:], start = [("\n", 0)] * 3 + [(it[0], start + it.start()) for it in found][::-1], start + len(line) + 1
        if len(rest) > 3:
            geometry(node())
            need(len(rest) == 3, LAYER, "bad")
def read_geojson(node, names):
    name, first = only(node, "type", LAYER, str).value, len(paths)
    need(name in names, LAYER, "kind")
    if name in KINDS:
        inner = only(node, "coordinates", LAYER, list)
        if "Point" in name:
            points = inner.value if KINDS[name] else [inner][:len(inner.value)]
            inner = Node([Node([it], 0, 0) for it in points], 0, 0)
        shape(inner, name, KINDS[name] or "Point" in name, [2, 3], ",", "[", ",", "]")
    elif name == "Feature":
        inner = only(node, "geometry", LAYER)
        if inner and inner.value is not None:
            read_geojson(inner, GEOMETRIES)
    else:
        for it in only(node, "features" if name[0] == "F" else "geometries", LAYER, list).value:
            read_geojson(it, ["Feature"] if name[0] == "F" else GEOMETRIES)
    last = len(paths)
    def box_text(runs):
        axes = [axis for axis in zip(*(image for run in runs[first:last] for image in run)) if None not in axis]
        return "[" + ",".join(metres(end(axis)) for end in (min, max) for axis in axes) + "]" if axes else "null"
    for member, text in (("bbox", box_text), ("crs", lambda runs: "null"))[:1 + ("FeatureCollection" in names)]:
        found = only(node, member, LAYER)
        edits.extend([(found.start, found.end, text)] if found else [])
# ---- the certificate
def read_lists(lines):
    need(lines[0] == b"tinmove certificate 1" and lines[1:], CERTIFICATE, "form at line 1")
    for number, line in enumerate(lines[1:-1] if lines[-1] == b"" else lines[1:], 2):
        need(number < len(lines) and re.fullmatch(rb"(0|[1-9][0-9]*)( (0|[1-9][0-9]*))*", line)
             and all(int(it) < 2 ** 32 for it in line.split()), CERTIFICATE, f"form at line {number}")
        yield [int(it) for it in line.split()]
def ends_of_parts(tin, a, b, numbers):  # where the triangles' parts end, from 0 at a to 1 at b; None: not right
    triangles, ends = [tin[number] for number in numbers if number < len(tin)], [Fraction(0)]
    if a[:2] == b[:2] or len(triangles) < len(numbers):
        return [1] if len(numbers) == len(triangles) == 1 and has(triangles[0], a) else None
    for t in triangles:
        sides = [[turn(t[i - 1], t[i], p) for p in (a, b)] for i in range(3)]
        low = max([Fraction(0)] + [Fraction(f, f - g) for f, g in sides if f < g])
        high = min([Fraction(1)] + [Fraction(f, f - g) for f, g in sides if f > g])
        if low != ends[-1] or low >= high or any(f == g < 0 for f, g in sides):
            return None
        ends.append(high)
    return ends[1:] if ends[-1] == 1 else None
def image(t, place):
    parts = [turn(t[1], t[2], place), turn(t[2], t[0], place), turn(t[0], t[1], place)]
    plane = [sum(w * it[axis] for w, it in zip(parts, t)) / Fraction(sum(parts)) for axis in (2, 3)]
    return [it if it is None else half_up(it) for it in plane + place[2:]]
def images_of(tin, path, places, lists):
    run = []
    for segment, (a, b) in enumerate(list(zip(places, places[1:])) or [places * 2]):
        numbers = lists.popleft()
        ends = ends_of_parts(tin, a, b, numbers)
        need(ends, CERTIFICATE, f"segment {path}/{segment}")
        run.append(image(tin[numbers[0]], a))
        for number, s in zip(numbers, ends[:-1]):
            run.append(image(tin[number], [None if None in (u, v) else u + s * (v - u) for u, v in zip(a, b)]))
    return run + ([image(tin[numbers[-1]], b)] if len(places) > 1 else [])
words = argparse.ArgumentParser(allow_abbrev=False)
for name in ("tin", "source", "written", "cert", "inverse", "exact", "inside-only"):
    words.add_argument("--" + name, **{"action": "store_true"} if name[0] in "ie" else {"required": True})
job, paths, edits = words.parse_args(), [], []
tin = read_tin(open(job.tin, "rb").read())
source, written, cert = (open(name, "rb").read() for name in (job.source, job.written, job.cert))
if job.source.lower().endswith(".wkt"):
    try:
        read_wkt(source.decode("latin-1"))
    except RecursionError:
        need(False, LAYER, "deep")
else:
    read_geojson(read_json(source, LAYER), ["FeatureCollection", "Feature", *GEOMETRIES])
lists, parts, end = deque(read_lists(cert.split(b"\n"))), [], 0
need(len(lists) == sum(max(1, len(it) - 1) for it in paths), CERTIFICATE, "count")
runs = [images_of(tin, path, places, lists) for path, places in enumerate(paths)]
for start, behind, text in sorted(edits, key=lambda it: it[:2]) + [(len(source), 0, lambda runs: "")]:
    parts += [source[end:start], text(runs).encode()]
    end = behind
wanted = b"".join(parts)
at = next((i for i, (one, other) in enumerate(zip(wanted, written)) if one != other), min(len(wanted), len(written)))
need(wanted == written, CERTIFICATE, f"differs at {at}")
print("certified")
