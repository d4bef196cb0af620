"""The features of a layer: where each stands in the file, its box, and its geometry as GeoJSON.

The geometry is what tinmove reads of the layer, in the same millimetres: the text itself of GeoJSON,
and numbers rounded to the millimetre, halves upwards, of well-known text and of drawings.
"""
import array
import decimal
import functools
import itertools
import json
import math
import re

NATIVE = (".geojson", ".json", ".wkt", ".dxf")
BLANK = re.compile(r"[ \t\r\n]*")
EXACT = decimal.Context(prec=300)
KINDS = {
    "POINT": "Point",
    "LINESTRING": "LineString",
    "POLYGON": "Polygon",
    "MULTIPOINT": "MultiPoint",
    "MULTILINESTRING": "MultiLineString",
    "MULTIPOLYGON": "MultiPolygon",
}


class Feature:
    """start and end are bytes from 0 (of a drawing: lines from 0); label is what a person looks for."""

    def __init__(self, start, end, label, geometry):
        self.start, self.end, self.label, self.geometry = start, end, label, geometry


def kind_of(name):
    ending = name[name.rfind(".") :].lower()
    return ending if ending in NATIVE else None


def features_of(name, data):
    """All features of a layer, in the file's order. Raises ValueError or another error where it is not sound."""
    kind = kind_of(name)
    if kind == ".wkt":
        return list(wkt_features(data))
    if kind == ".dxf":
        return list(drawing_features(data))
    return list(geojson_features(data))


def positions_of(places):
    """The positions of a geometry's coordinates, however deep the lists are nested."""
    rows = [places] if places else []
    while rows and isinstance(rows[0][0], list):
        rows = [it for row in rows for it in row if it]
    return rows


def box_of(geometry):
    """The box of a geometry in whole millimetres, rounded outwards; None of one without a position."""
    if not geometry:
        return None
    parts = geometry["geometries"] if geometry["type"] == "GeometryCollection" else [geometry]
    if parts and parts[0] is not geometry:
        boxes = [it for it in map(box_of, parts) if it]
    else:
        places = [(float(it[0]), float(it[1])) for part in parts for it in positions_of(part["coordinates"])]
        boxes = [(*map(min, zip(*places)), *map(max, zip(*places)))] if places else []
        boxes = [
            [math.floor(it[0] * 1000), math.floor(it[1] * 1000), math.ceil(it[2] * 1000), math.ceil(it[3] * 1000)]
            for it in boxes
        ]
    return [f(it[k] for it in boxes) for k, f in enumerate((min, min, max, max))] if boxes else None


def paths_of(geometry):
    """How many paths tinmove reads of a geometry: each point, line or ring is one."""
    if not geometry:
        return 0
    if geometry["type"] == "GeometryCollection":
        return sum(map(paths_of, geometry["geometries"]))
    lists = geometry["coordinates"]
    if geometry["type"] in ("Point", "LineString"):
        lists = [lists]
    elif geometry["type"] == "MultiPolygon":
        lists = [ring for part in lists for ring in part]
    return sum(map(bool, lists))


# GeoJSON. The text is taken byte by byte as Latin-1, so that places in it are bytes; names that are
# compared are ASCII.


def after_blanks(text, at):
    return BLANK.match(text, at).end()


def geojson_features(data):
    text = data.decode("latin-1")
    decode = json.JSONDecoder().raw_decode
    start = after_blanks(text, 3 if data.startswith(b"\xef\xbb\xbf") else 0)
    rows = list_of_features(text, start, decode)
    if rows is None:
        value, end = decode(text, start)
        rows = [(start, end, value if is_feature(value) else {"geometry": value})]
    for number, (start, end, value) in enumerate(rows):
        yield Feature(start, end, str(number), value.get("geometry"))


def is_feature(value):
    return value.get("type") == "Feature"


def list_of_features(text, at, decode):
    """Start, end and value of each element of the top object's member 'features'; None where it has none."""
    if text[at] != "{":
        raise ValueError("no object")
    at = after_blanks(text, at + 1)
    while text[at] != "}":
        key, at = decode(text, at)
        at = after_blanks(text, after_blanks(text, at) + 1)
        if key == "features" and text[at] == "[":
            return elements(text, at, decode)
        at = after_blanks(text, decode(text, at)[1])
        if text[at] == ",":
            at = after_blanks(text, at + 1)
    return None


def elements(text, at, decode):
    rows = []
    at = after_blanks(text, at + 1)
    while text[at] != "]":
        value, end = decode(text, at)
        rows.append((at, end, value))
        at = after_blanks(text, end)
        if text[at] == ",":
            at = after_blanks(text, at + 1)
    return rows


# Well-known text: a geometry a line.


def millimetres(text):
    """A numeral of metres as JSON, rounded to the millimetre, halves upwards."""
    value = EXACT.multiply(decimal.Decimal(text.strip()), decimal.Decimal(1000))
    whole = int(EXACT.add(value, decimal.Decimal("0.5")).to_integral_value(decimal.ROUND_FLOOR))
    return ("-" if whole < 0 else "") + "%d.%03d" % divmod(abs(whole), 1000)


def wkt_features(data):
    start = 0
    for number, line in enumerate(data.split(b"\n"), 1):
        words = re.findall(r"[A-Za-z]+|[-+.0-9][-+.0-9eE]*|[(),]", line.decode("latin-1"))
        if words:
            yield Feature(start, start + len(line), str(number), wkt_geometry(words[::-1]))
        start += len(line) + 1


def wkt_geometry(words):
    """words are the tokens of one geometry, the first of them last."""
    tag = words.pop().upper()
    if words[-1].upper() == "Z":
        words.pop()
    is_empty = words[-1].upper() == "EMPTY"
    if is_empty:
        words.pop()
    if tag == "GEOMETRYCOLLECTION":
        return {"type": "GeometryCollection", "geometries": [] if is_empty else wkt_members(words)}
    if is_empty:
        return {"type": KINDS[tag], "coordinates": []}
    inside = wkt_list(words)
    if tag == "POINT":
        inside = inside[0]
    if tag == "MULTIPOINT":
        inside = [it if not isinstance(it[0], list) else it[0] for it in inside if it]
    return {"type": KINDS[tag], "coordinates": inside}


def wkt_members(words):
    found = []
    while words.pop() in "(,":
        found.append(wkt_geometry(words))
    return found


def wkt_list(words):
    """The list that begins with the bracket at hand: of lists, or of positions."""
    words.pop()
    found = []
    while True:
        if words[-1] == "(":
            found.append(wkt_list(words))
        elif words[-1].upper() == "EMPTY":
            words.pop()
            found.append([])
        else:
            numbers = []
            while words[-1] not in "(),":
                numbers.append(words.pop())
            found.append([millimetres(it) for it in numbers[:2]])
        if words.pop() == ")":
            return found


# Drawings: the entities that tinmove carries, of the model's space.


def drawing_features(data):
    lines = data.decode("latin-1").split("\n")
    section = None
    at, count = 0, len(lines) // 2 * 2
    while at < count:
        code, value = int(lines[at]), lines[at + 1].strip()
        if code == 0 and value == "EOF":
            return  # tinmove reads nothing behind it
        end = at + 2
        while end < count and int(lines[end]) != 0:
            end += 2
        if code == 0 and value == "SECTION":
            section = lines[at + 3].strip()
        elif code == 0 and value == "POLYLINE" and section == "ENTITIES":
            while lines[end + 1].strip() == "VERTEX":
                end = next(k for k in range(end + 2, count, 2) if int(lines[k]) == 0)
        if section == "ENTITIES" and code == 0 and value not in ("SECTION", "ENDSEC", "SEQEND"):
            yield from entity_of(value, lines, at, end)
        at = end


def entity_of(kind, lines, start, end):
    fields = [(int(lines[k]), lines[k + 1].strip()) for k in range(start, end, 2)]
    first = {}
    for code, value in fields:
        first.setdefault(code, value)
    geometry = None if int(first.get(67, "0")) == 1 else drawn(kind, fields, first)
    if geometry:
        label = first.get(5) or f"line {start + 1}"
        yield Feature(start, end, label, geometry)


def place(first, x):
    return [millimetres(first[x]), millimetres(first[x + 10])]


def drawn(kind, fields, first):
    if kind in ("POINT", "INSERT"):
        return {"type": "Point", "coordinates": place(first, 10)}
    if kind == "TEXT":
        is_aligned = int(first.get(72, "0")) != 0 or int(first.get(73, "0")) != 0
        return {"type": "MultiPoint", "coordinates": [place(first, it) for it in (10, 11)[: 1 + is_aligned]]}
    if kind == "LINE":
        return {"type": "LineString", "coordinates": [place(first, 10), place(first, 11)]}
    if kind in ("LWPOLYLINE", "POLYLINE"):
        at = next((k for k, it in enumerate(fields) if it == (0, "VERTEX")), len(fields))
        flags = int(dict(reversed(fields[:at])).get(70, "0"))
        fields = fields[at:] if kind == "POLYLINE" else fields
        east = [value for code, value in fields if code == 10]
        north = [value for code, value in fields if code == 20]
        places = [[millimetres(x), millimetres(y)] for x, y in zip(east, north)]
        if flags & 1 and places:
            places.append(places[0])
        return {"type": "LineString", "coordinates": places}
    return None


@functools.lru_cache(maxsize=2)
def line_ends(data):
    """Where each line ends. Kept, since feature_as_bytes asks for each feature of a drawing."""
    return array.array("Q", itertools.chain((it.start() for it in re.finditer(b"\n", data)), [len(data)]))


def numbers_as_text(places):
    """A list of positions of numerals as JSON: the numerals as they are."""
    if isinstance(places, str):
        return places
    return "[" + ",".join(map(numbers_as_text, places)) + "]"


def geometry_as_text(geometry):
    if geometry["type"] == "GeometryCollection":
        inside = ",".join(map(geometry_as_text, geometry["geometries"]))
        return '{"type":"GeometryCollection","geometries":[' + inside + "]}"
    return '{"type":"%s","coordinates":%s}' % (geometry["type"], numbers_as_text(geometry["coordinates"]))


def feature_as_bytes(name, data, start, end):
    """One feature of a layer as GeoJSON, by the places that features_of gives."""
    kind = kind_of(name)
    if kind == ".wkt":
        (feature,) = wkt_features(data[start:end])
        text = geometry_as_text(feature.geometry)
    elif kind == ".dxf":
        ends = line_ends(data)
        inside = data[ends[start - 1] + 1 if start else 0 : ends[end - 1]]
        # The end is that of the last VERTEX of a POLYLINE.
        part = b"0\nSECTION\n2\nENTITIES\n" + inside + b"\n0\nEOF\n"
        (feature,) = drawing_features(part)
        text = geometry_as_text(feature.geometry)
    else:
        raw = data[start:end]
        if is_feature(json.loads(raw)):
            return raw
        text = raw.decode("utf-8")
    return ('{"type":"Feature","properties":{},"geometry":' + text + "}").encode()


def write_strip(path, texts):
    """Writes features of GeoJSON as one layer; gives the byte at which each starts."""
    text, starts = bytearray(b'{"type":"FeatureCollection","features":[\n'), []
    for it in texts:
        starts.append(len(text))
        text += it + b",\n"
    with open(path, "wb") as file:
        file.write(text[:-2] + b"\n]}\n")
    return starts


def has_members(name):
    return kind_of(name) in (".geojson", ".json")


def member_of(name, data, start, end, member):
    """The value of a member of a feature's properties, or None."""
    if not member or not has_members(name):
        return None
    properties = json.loads(data[start:end]).get("properties")
    return properties.get(member) if isinstance(properties, dict) else None
