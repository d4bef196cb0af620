#!/usr/bin/python3
"""Carries the communes of one batch, and certifies each. usage: carry.py NUMBER, in the folder of results

Each commune is made in a folder of its own, which takes the commune's name when it is whole. A commune
whose folder is whole and of the same layers, triangulation, programs, options and scripts stays as it
is. work/extents/NUMBER.json and work/carried/NUMBER.json are written last, when all is on the disk.
"""
import collections
import contextlib
import itertools
import json
import os
import shutil
import sqlite3
import sys
import tempfile
import time
import urllib.parse

import changes
import files
import layers
import programs


# A file, where its features start in it, and the layer and the features of the commune that these are.
Part = collections.namedtuple("Part", "file starts layer features")
# Kinds of geometries by their numbers in well-known binary.
CURVES = {
    8: "CIRCULARSTRING",
    9: "COMPOUNDCURVE",
    10: "CURVEPOLYGON",
    11: "MULTICURVE",
    12: "MULTISURFACE",
    13: "CURVE",
    14: "SURFACE",
}
# A layer of a GeoPackage, and the name of the GeoJSON that is made of it.
Table = collections.namedtuple("Table", "package table layer")


class Refusal(Exception):
    """cause is a word of the summary; line is what standard error said first."""

    def __init__(self, cause, status, line):
        super().__init__(line)
        self.cause, self.status, self.line = cause, status, line


def copy_layers(source, folder, names):
    """Copies a commune's files, so that all that follows is of the same bytes; gives their digests."""
    os.makedirs(folder)
    digests = []
    for name in names:
        with open(os.path.join(source, name), "rb") as file:
            data = file.read()
        digests.append([name, files.digest_of(data)])
        with open(os.path.join(folder, name), "wb") as file:
            file.write(data)
    return digests


def tables_of(path):
    """The layers of a GeoPackage that have geometries, and of each a kind of curve that it has, or None."""
    with sqlite3.connect("file:" + urllib.parse.quote(os.fsencode(path)) + "?mode=ro&immutable=1", uri=True) as base:
        rows = base.execute(
            "SELECT table_name, column_name FROM gpkg_contents LEFT JOIN gpkg_geometry_columns USING (table_name)"
            " WHERE data_type = 'features' ORDER BY table_name"
        )
        return [(table, column and curve_of(base, table, column)) for table, column in rows.fetchall()]


def curve_of(base, table, column):
    """The kind of the first curve of a layer, of which ogr2ogr would make steps of 4 degrees, or None."""
    table, column = ('"' + it.replace('"', '""') + '"' for it in (table, column))
    # What is not read here, as a view with functions of GDAL, ogr2ogr reads or refuses.
    with contextlib.suppress(sqlite3.OperationalError):
        # Before the kind are a head of up to 72 bytes, and a byte that says the order of the others.
        blobs = f"{table} WHERE typeof({column}) = 'blob' AND length({column}) > 12"
        for (head,) in base.execute(f"SELECT substr({column}, 1, 77) FROM {blobs}"):
            if head[:2] != b"GP":
                continue
            at = 8 + (0, 32, 48, 48, 64, 0, 0, 0)[head[3] >> 1 & 7]
            kind = int.from_bytes(head[at + 1 : at + 5], "little" if head[at : at + 1] == b"\x01" else "big")
            # With heights or measures it is greater by thousands.
            if kind % 1000 in CURVES:
                return CURVES[kind % 1000]
    return None


def convert(original, folder, name):
    """Writes each layer of a GeoPackage as GeoJSON beside it; gives the names of these.

    Where sqlite keeps a log with changes beside the original, the copy does not have these.
    """
    log = os.path.join(original, name + "-wal")
    if os.path.exists(log) and os.path.getsize(log):
        raise Refusal("conversion", 0, f"{name}: {name}-wal has changes: close the program that has it open")
    try:
        tables = tables_of(os.path.join(folder, name))
    except sqlite3.Error as error:
        raise Refusal("conversion", 0, f"{name}: {error}") from error
    made = []
    for table, curve in tables:
        if curve:
            line = f"{name}: layer {table}: {curve}: make straight pieces by ogr2ogr -nlt CONVERT_TO_LINEAR"
            raise Refusal("layer", 4, programs.shown(line))
        new = f"{name[:-5]}.{table}.geojson".replace("/", "%2F").replace("\0", "")
        if table.startswith("-") or os.path.exists(os.path.join(folder, new)):
            raise Refusal("conversion", 0, f"{name}: the layer {table} needs another name")
        words = ["ogr2ogr", "-f", "GeoJSON", "-preserve_fid", "-lco", "COORDINATE_PRECISION=3"]
        words += ["./" + new, "./" + name, table]
        status, _, error = programs.run(words, folder, "other")
        if status != 0:
            raise Refusal("conversion", status, programs.first_line(error) or f"{name}: ogr2ogr ended with {status}")
        made.append(Table(name, table, new))
    return made


def put_back(plan, room, tables):
    """Puts the carried layers of each GeoPackage into one of the same name, in the frame of the result."""
    for it in tables:
        is_there = os.path.exists(os.path.join(room, "layers", it.package))
        words = ["ogr2ogr", "--config", "OGR_CURRENT_DATE", "2000-01-01T00:00:00.000Z", "-f", "GPKG"]
        words += ["-update", "-append"] if is_there else []
        words += ["-preserve_fid", "-a_srs", f"EPSG:{plan['epsg']}", "-nln", it.table]
        words += ["./" + it.package, "./" + it.layer]
        status, _, error = programs.run(words, os.path.join(room, "layers"), "other")
        if status != 0:
            raise Refusal(
                "conversion", status, programs.first_line(error) or f"{it.package}: ogr2ogr ended with {status}"
            )


def migrate(plan, room, names):
    """Carries the layers; the report, the messages and the layers are left in the commune's new folder."""
    words = [plan["tinmove"], "migrate", "--tin", plan["tin"], "--out", "../layers", "--cert"]
    words += [*plan["options"], "--", *names]
    status, report, messages = programs.run(words, os.path.join(room, "source"))
    for name, data in (("report.txt", report), ("messages.txt", messages)):
        with open(os.path.join(room, name), "wb") as file:
            file.write(data)
    if status not in (0, 1):
        line = programs.first_line(messages) or programs.first_line(report)
        raise Refusal(programs.cause_of(status), status, line)
    return report.decode("utf-8", "replace")


def verify(plan, room, names):
    options = [it for it in plan["options"] if it in programs.OPTIONS_OF_VERIFY]
    for name in names:
        written = "../layers/" + name
        words = [plan["tinmove"], "verify", "--tin", plan["tin"], *options]
        words += [f"--source={name}", f"--written={written}", f"--cert={written}.cert"]
        status, said, messages = programs.run(words, os.path.join(room, "source"))
        if status != 0:
            line = programs.first_line(messages) or programs.first_line(said)
            raise Refusal(programs.cause_of(status), status, line)


def index_of(folder, names):
    """Of each layer the features: start, end, label and box in millimetres of each one, and its number of paths."""
    rows = []
    for name in names:
        with open(os.path.join(folder, name), "rb") as file:
            data = file.read()
        found = layers.features_of(name, data)
        features = [[it.start, it.end, it.label, layers.box_of(it.geometry)] for it in found]
        rows.append({"layer": name, "features": features, "paths": [layers.paths_of(it.geometry) for it in found]})
    return rows


def outline_of(index):
    """The convex hull of all boxes, in whole metres, for the picture."""
    south_of, north_of = {}, {}
    for row in index:
        for *_, box in row["features"]:
            if box:
                west, south, east, north = [round(it / 1000) for it in box]
                for x in (west, east):
                    south_of[x], north_of[x] = min(south_of.get(x, south), south), max(north_of.get(x, north), north)
    rows = sorted({*south_of.items(), *north_of.items()})

    def chain(rows):
        found = []
        for x, y in rows:
            while len(found) > 1 and (found[-1][0] - found[-2][0]) * (y - found[-2][1]) <= (
                found[-1][1] - found[-2][1]
            ) * (x - found[-2][0]):
                found.pop()
            found.append([x, y])
        return found[:-1]

    return chain(rows) + chain(rows[::-1]) if len(rows) > 2 else [list(it) for it in rows]


def extent_of(index):
    boxes = [it[3] for row in index for it in row["features"] if it[3]]
    return [f(it[k] for it in boxes) for k, f in enumerate((min, min, max, max))] if boxes else None


def features_with_changes(report, index):
    """By the number of a layer the numbers of its features that are in a change of the report, in order."""
    starts, found = {}, {}
    for line in report.split("\n"):
        if line.startswith("change "):
            for side in line.split(" ")[1:3]:
                layer, path = map(int, side.split("/")[:2])
                if layer not in starts:
                    starts[layer] = [0, *itertools.accumulate(index[layer]["paths"])]
                found.setdefault(layer, set()).add(changes.number_of(starts[layer], path))
    return {layer: sorted(it) for layer, it in sorted(found.items())}


def parts_with_changes(source, folder, report, index):
    """Writes the features that are in a change into a folder, one file for each layer."""
    parts = []
    for layer, numbers in features_with_changes(report, index).items():
        row = index[layer]
        with open(os.path.join(source, row["layer"]), "rb") as file:
            data = file.read()
        texts = [layers.feature_as_bytes(row["layer"], data, *row["features"][it][:2]) for it in numbers]
        starts = layers.write_strip(os.path.join(folder, f"{layer}.geojson"), texts)
        parts.append(Part(f"{layer}.geojson", starts, row["layer"], [row["features"][it] for it in numbers]))
    return parts


def whole_parts(index):
    """The layers as they are. What tinplaces counts from 1 in a drawing are its lines."""
    for row in index:
        first = layers.kind_of(row["layer"]) == ".dxf"
        yield Part(row["layer"], [it[0] + first for it in row["features"]], row["layer"], row["features"])


def changes_between(plan, name, source, folder, parts):
    """The changes between some files as points, with the features of both sides, one a line."""
    member = ["--name", plan["name"]] if plan["has_name"] and plan["name"] else []
    words = [plan["tinplaces"], "--tin", plan["tin"], *plan["options_of_places"], *member, "--"]
    output = programs.output_of([*words, *(it.file for it in parts)], folder)
    data = {}

    def side_of(side):
        part, at, value = parts[side[0]], side[1], side[2]
        start, end, label, _ = part.features[changes.number_of(part.starts, at)]
        if value is None and plan["name"] and not plan["has_name"] and layers.has_members(part.layer):
            if part.layer not in data:
                with open(os.path.join(source, part.layer), "rb") as file:
                    data[part.layer] = file.read()
            value = layers.member_of(part.layer, data[part.layer], start, end, plan["name"])
        return name, part.layer, label, value

    return [changes.point(place, own, map(side_of, sides)) for place, own, sides in changes.changes_of(output)]


def places(plan, room, name, index, report, count):
    """The changes of a commune's report as points, one a line.

    Only the features that are in a change are compared again. The changes between them are some of the
    report's, so they are all where they are as many; where they are not, the whole layers are compared.
    """
    source = os.path.join(room, "source")
    with contextlib.suppress(Exception), tempfile.TemporaryDirectory(prefix="tinmove-changes-") as folder:
        parts = parts_with_changes(source, folder, report, index)
        found = changes_between(plan, name, source, folder, parts)
        if len(found) == count:
            return found
    try:
        found = changes_between(plan, name, source, source, list(whole_parts(index)))
    except programs.Refused as error:
        raise Refusal(programs.cause_of(error.status), error.status, error.line) from error
    if len(found) != count:
        raise Refusal("other", 0, f"tinplaces lists {len(found)} changes, and the report {count}")
    return found


def numbers_of(report):
    """Pieces and changes of a report, and its changed sides, or None where it does not list these."""
    pieces, count, sides = 0, 0, None
    for line in report.split("\n"):
        words = line.split(" ")
        if words[0] == "layer" and len(words) > 8 and words[6] == "pieces":
            pieces += int(words[7])
        if words[0] == "changes" and len(words) == 2:
            count = int(words[1])
        if words[0] == "sides" and len(words) == 2:
            sides = int(words[1])
    return {"pieces": pieces, "within": count, "sides": sides}


def make(plan, room, name, names, others):
    """Makes a commune's folder; gives its record. A refusal leaves the report and the messages alone."""
    source = os.path.join(room, "source")
    record = {"name": name, "layers": [], "converted": [], "passed": others} | numbers_of("")
    index = []
    try:
        every = [it for it in names if layers.kind_of(it)]
        original = os.path.join(plan["communes"], name)
        tables = [it for package in names if package not in every for it in convert(original, source, package)]
        every += [it.layer for it in tables]
        if not every:
            raise Refusal("no layer", 0, "no layer in the folder")
        record["layers"] = every
        record["converted"] = [it.layer for it in tables]
        report = migrate(plan, room, every)
        index = index_of(source, every)
        record |= numbers_of(report)
        verify(plan, room, every)
        found = places(plan, room, name, index, report, record["within"]) if record["within"] else []
        with open(os.path.join(room, "changes.geojsonl"), "w", encoding="utf-8") as file:
            file.writelines(found)
        put_back(plan, room, tables)
        record |= {"cause": None, "status": int(record["within"] > 0 or bool(record["sides"])), "line": ""}
    except Exception as error:  # whatever is wrong with a commune stops nothing but itself
        refusal = (
            error
            if isinstance(error, Refusal)
            else Refusal("script", 0, programs.shown(f"{type(error).__name__}: {error}"))
        )
        record |= {"cause": refusal.cause, "status": refusal.status, "line": refusal.line} | numbers_of("")
        shutil.rmtree(os.path.join(room, "layers"), ignore_errors=True)
    index = index or index_where_sound(source, record["layers"])
    record |= {
        "features": sum(len(it["features"]) for it in index),
        "extent": extent_of(index),
        "outline": outline_of(index),
    }
    rows = [{"layer": it["layer"], "features": it["features"]} for it in index]
    with open(os.path.join(room, "index.json"), "w", encoding="ascii") as file:
        file.write(files.text_of(rows))
    return record


def index_where_sound(folder, names):
    """Of a refused commune the layers that can be read: by them its neighbours are known."""
    rows = []
    for name in names:
        try:
            rows += index_of(folder, [name])
        except Exception:  # any fault of a text that was refused already
            continue
    return rows


def outputs_of(room):
    """The digest of each file of a commune's folder but its record."""
    found = {}
    for folder, _, names in os.walk(room):
        for name in names:
            path = os.path.relpath(os.path.join(folder, name), room)
            if path != "record.json":
                found[path] = files.digest_of_file(os.path.join(room, path))
    return found


def is_whole(room, key):
    """The record of a commune's folder, where it is whole and of this key."""
    record = files.read_json(os.path.join(room, "record.json"))
    if (
        record
        and record["key"] == key
        and record["cause"] not in programs.PASSING
        and record["outputs"] == outputs_of(room)
    ):
        return record
    return None


def key_of(plan, entry, digests):
    """One for all that a commune's record depends on."""
    return files.digest_of(files.text_of([plan["digest"], digests, entry["others"]]).encode())


def carry(plan, entry):
    """Carries one commune where that is needed; gives its record."""
    name = entry["name"]
    source, room = os.path.join(plan["communes"], name), os.path.join("communes", name)
    new = os.path.join("communes", ".new-" + files.digest_of(os.fsencode(name))[:24])
    shutil.rmtree(new, ignore_errors=True)
    names = [it[0] for it in entry["files"]]
    try:
        key = key_of(plan, entry, copy_layers(source, os.path.join(new, "source"), names))
    except OSError as error:
        os.makedirs(os.path.join(new, "source"), exist_ok=True)
        key = None
        record = refused_for_reading(entry, error)
    else:
        record = is_whole(room, key)
        if record:
            shutil.rmtree(new)
            return record
        record = make(plan, new, name, names, entry["others"])
    record |= {"key": key, "digests": keep_sources(new, record), "outputs": outputs_of(new)}
    with open(os.path.join(new, "record.json"), "w", encoding="ascii") as file:
        file.write(files.text_of(record))
    shutil.rmtree(room, ignore_errors=True)
    os.rename(new, room)
    return record


def refused_for_reading(entry, error):
    line = programs.shown(f"{error.filename and os.path.basename(error.filename)}: {error.strerror}")
    record = {"name": entry["name"], "layers": [], "converted": [], "passed": entry["others"]} | numbers_of("")
    return record | {"features": 0, "extent": None, "outline": [], "cause": "reading", "status": 6, "line": line}


def keep_sources(new, record):
    """Gives the digest of each layer as it was read. Of the copies those stay that have no file of their own."""
    source = os.path.join(new, "source")
    digests = {it: files.digest_of_file(os.path.join(source, it)) for it in record["layers"]}
    for name in os.listdir(source):
        if name not in record["converted"]:
            os.remove(os.path.join(source, name))
    if not os.listdir(source):
        os.rmdir(source)
    return digests


def sync_all(names):
    for name in names:
        for folder, _, inside in os.walk(os.path.join("communes", name)):
            for it in inside:
                files.sync(os.path.join(folder, it))
            files.sync(folder)
    files.sync("communes")


def main():
    number = sys.argv[1]
    begin = time.time()
    with files.locked(f"work/locks/{number}"):
        plan = files.read_json("work/plan.json")
        batch = files.read_json(f"work/batches/{number}.json")
        os.makedirs("communes", exist_ok=True)
        records = [carry(plan, it) for it in batch["communes"]]
        sync_all(it["name"] for it in batch["communes"])
        # What the borders of all communes ask for is in a list of its own, since each of their jobs reads all of these.
        extents = [{key: it[key] for key in ("name", "extent", "cause", "key")} for it in records]
        files.write_whole(f"work/extents/{number}.json", files.text_of(extents))
        files.write_whole(f"work/carried/{number}.json", files.text_of(records))
        used = time.process_time()
        files.write_whole(
            f"work/times/carry-{number}.json",
            json.dumps(programs.seconds | {"python": used, "clock": time.time() - begin}) + "\n",
        )


main()
