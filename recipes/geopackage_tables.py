"""The tables of a GeoPackage, for geopackage.py: layers and their geometries, the frame, the layer of the
changes, and what differs between two files. It is no program.
"""
import contextlib
import os
import re
import sqlite3
import struct

from osgeo import ogr, osr

ogr.UseExceptions()
osr.UseExceptions()
CHANGES = "tinmove_changes"
FACTS = ("was", "now", "gap_mm", "first_layer", "first_fid", "second_layer", "second_fid")


class Refused(Exception):
    """What ends the run, with its line and its status."""

    def __init__(self, text, status):
        super().__init__(text)
        self.status = status


def quoted(name):
    return '"' + name.replace('"', '""') + '"'


class Layer:
    """A table with geometries, and the name of its file."""

    def __init__(self, data, table, column, file):
        self.table, self.column, self.file = table, column, file
        keys = [it[1] for it in data.execute(f"PRAGMA table_info({quoted(table)})") if it[5]]
        if len(keys) != 1:
            raise Refused(f"layer {table}: it has no column of fids", 4)
        self.key = keys[0]

    def rows(self, data):
        """The fids in order, each with its geometry, or None where there is none."""
        for fid, blob in data.execute(
            f"SELECT {quoted(self.key)}, {quoted(self.column)} FROM {quoted(self.table)} ORDER BY 1"
        ):
            yield fid, self.geometry(fid, blob)

    def geometry(self, fid, blob):
        if blob is None:
            return None
        try:
            return geometry_of(blob)
        except (ValueError, RuntimeError, struct.error) as error:
            raise Refused(f"layer {self.table}, fid {fid}: no geometry of a GeoPackage", 4) from error

    def texts(self, data, text_of):
        """The fids in order, each with its text, '' where there is no geometry, and its box."""
        found, curves = [], []
        for fid, geometry in self.rows(data):
            if geometry is None:
                found.append((fid, "", None))
                continue
            if geometry.HasCurveGeometry(0) or geometry.IsMeasured():
                curves.append((fid, geometry.GetGeometryName() + (" M" if geometry.IsMeasured() else "")))
                continue
            box = geometry.GetEnvelope()
            found.append((fid, text_of(geometry), None if geometry.IsEmpty() else (box[0], box[1])))
        if curves:
            raise Refused(
                f"layer {self.table}: {len(curves)} with curves or measures, the first of them fid {curves[0][0]}, "
                f"{curves[0][1]}: make straight pieces by ogr2ogr -nlt CONVERT_TO_LINEAR -dim XYZ",
                4,
            )
        return found


def head_length(blob):
    """The bytes before the well-known binary of a geometry of a GeoPackage."""
    if blob[:2] != b"GP" or blob[3] & 0x20:
        raise ValueError
    return 8 + (0, 32, 48, 48, 64)[blob[3] >> 1 & 7]


def geometry_of(blob):
    return ogr.CreateGeometryFromWkb(bytes(blob[head_length(blob) :]))


def blob_of(geometry, frame):
    """A geometry of a GeoPackage as GDAL writes it: little endian, with a box where it is no point."""
    flags, box = 0x01, b""
    if geometry.IsEmpty():
        flags = 0x11
    elif geometry.GetGeometryName() != "POINT":
        is_tall = geometry.Is3D()
        flags, values = (0x05, geometry.GetEnvelope3D()) if is_tall else (0x03, geometry.GetEnvelope())
        box = struct.pack(f"<{len(values)}d", *values)
    return b"GP\0" + bytes([flags]) + struct.pack("<i", frame) + box + bytes(geometry.ExportToIsoWkb(ogr.wkbNDR))


def open_copy(source, copy):
    """Copies a GeoPackage that may be open elsewhere, and opens the copy."""
    try:
        with open(source, "rb") as file:
            if not file.read(16).startswith(b"SQLite format 3\0"):
                raise Refused(f"{source}: no GeoPackage", 6)
        name = "file:" + "".join("%%%02X" % it for it in os.fsencode(os.path.abspath(source))) + "?mode=ro"
        data = sqlite3.connect(copy, isolation_level=None)
        with contextlib.closing(sqlite3.connect(name, uri=True)) as old:
            old.backup(data)
        data.execute("PRAGMA journal_mode = DELETE")
        data.execute("SELECT count(*) FROM gpkg_geometry_columns").fetchone()
    except OSError as error:
        raise Refused(f"{source}: {error.strerror}", 6) from error
    except sqlite3.Error as error:
        raise Refused(f"{source}: no GeoPackage ({error})", 6) from error
    # The triggers of the spatial indexes call these.
    boxes = {"ST_MinX": 0, "ST_MaxX": 1, "ST_MinY": 2, "ST_MaxY": 3}
    for function, at in boxes.items():
        data.create_function(function, 1, lambda blob, at=at: geometry_of(blob).GetEnvelope()[at], deterministic=True)
    data.create_function("ST_IsEmpty", 1, lambda blob: int(geometry_of(blob).IsEmpty()), deterministic=True)
    return data


def file_name_of(name):
    """A name without what the program does not take in the name of a file."""
    return re.sub(r"^-|[/\x00-\x1f\x7f-\x9f]", "_", name).encode(errors="replace")[:200].decode(errors="ignore")


def layers_of(data, source, wanted):
    """The layers to carry. Their files' names are theirs, without what no file's name has."""
    rows = data.execute("SELECT table_name, column_name FROM gpkg_geometry_columns ORDER BY rowid").fetchall()
    rows = [it for it in rows if it[0] != CHANGES]
    for name in wanted:
        if name not in [it[0] for it in rows]:
            raise Refused(f"{source}: no layer with geometries is named {name!r}", 2)
    layers, files = [], set()
    for table, column in rows:
        if data.execute("SELECT 1 FROM sqlite_master WHERE name = ? AND type = 'view'", (table,)).fetchone():
            raise Refused(f"layer {table} is a view, which would keep the old frame: take it off, and make it again", 4)
        if wanted and table not in wanted:
            continue
        stem = file_name_of(table)
        file, number = f"{stem}.wkt", 2
        while file.lower() in files:
            file, number = f"{stem}_{number}.wkt", number + 1
        files.add(file.lower())
        layers.append(Layer(data, table, column, file))
    if not layers:
        raise Refused(f"{source}: it has no layer with geometries", 4)
    return layers


def add_frame(data, number):
    """Adds the frame to those of the GeoPackage, and returns its number there."""
    frame = osr.SpatialReference()
    frame.ImportFromEPSG(number)
    text, later = frame.ExportToWkt(["FORMAT=WKT1_GDAL"]), frame.ExportToWkt(["FORMAT=WKT2_2015"])
    row = data.execute(
        "SELECT srs_id FROM gpkg_spatial_ref_sys WHERE upper(organization) = 'EPSG' AND organization_coordsys_id = ?", (number,)
    ).fetchone()
    if row:
        return row[0]
    if data.execute("SELECT 1 FROM gpkg_spatial_ref_sys WHERE srs_id = ?", (number,)).fetchone():
        raise Refused(f"the GeoPackage has another frame under the number {number}", 4)
    data.execute(
        "INSERT INTO gpkg_spatial_ref_sys (srs_name, srs_id, organization, organization_coordsys_id, definition)"
        " VALUES (?, ?, 'EPSG', ?, ?)",
        (frame.GetName(), number, number, text),
    )
    columns = [it[1] for it in data.execute("PRAGMA table_info(gpkg_spatial_ref_sys)")]
    if "definition_12_063" in columns:
        data.execute("UPDATE gpkg_spatial_ref_sys SET definition_12_063 = ? WHERE srs_id = ?", (later, number))
    return number


def drop_triggers(data, table):
    """Drops the triggers of a table besides those of its spatial index, and returns their texts."""
    rows = data.execute(
        "SELECT name, sql FROM sqlite_master WHERE type = 'trigger' AND lower(tbl_name) = lower(?)"
        " AND substr(name, 1, 6) <> 'rtree_' ORDER BY rowid",
        (table,),
    ).fetchall()
    for name, _ in rows:
        data.execute(f"DROP TRIGGER {quoted(name)}")
    return [text for _, text in rows]


def put_back(data, layers, texts, carried, frame):
    """Puts the carried geometries into the tables, and the frame and the extent."""
    for layer, rows, lines in zip(layers, texts, carried):
        boxes = []
        # Such as set the date of an edit would change other columns.
        triggers = drop_triggers(data, layer.table)
        for (fid, text, _), line in zip(rows, lines):
            if not text:
                continue
            geometry = ogr.CreateGeometryFromWkt(line)
            if not geometry.IsEmpty():
                boxes.append(geometry.GetEnvelope())
            data.execute(
                f"UPDATE {quoted(layer.table)} SET {quoted(layer.column)} = ? WHERE {quoted(layer.key)} = ?",
                (blob_of(geometry, frame), fid),
            )
        for trigger in triggers:
            data.execute(trigger)
        data.execute("UPDATE gpkg_geometry_columns SET srs_id = ? WHERE table_name = ?", (frame, layer.table))
        set_contents(data, layer.table, frame, boxes)


def set_contents(data, table, frame, boxes):
    extent = [None] * 4
    if boxes:
        extent = [min(it[0] for it in boxes), min(it[2] for it in boxes), max(it[1] for it in boxes), max(it[3] for it in boxes)]
    data.execute(
        "UPDATE gpkg_contents SET srs_id = ?, min_x = ?, min_y = ?, max_x = ?, max_y = ?,"
        " last_change = strftime('%Y-%m-%dT%H:%M:%fZ', 'now') WHERE table_name = ?",
        (frame, *extent, table),
    )


def has_table(data, name):
    return data.execute("SELECT 1 FROM sqlite_master WHERE lower(name) = lower(?)", (name,)).fetchone()


def drop_changes(data):
    """Drops the layer of the changes of an earlier run."""
    for it in (f"rtree_{CHANGES}_geom", CHANGES):
        data.execute(f"DROP TABLE IF EXISTS {quoted(it)}")
    for table in ("gpkg_extensions", "gpkg_geometry_columns", "gpkg_ogr_contents", "gpkg_metadata_reference", "gpkg_contents"):
        if has_table(data, table):
            data.execute(f"DELETE FROM {table} WHERE table_name = ?", (CHANGES,))


def add_changes(data, layers, changes, frame):
    drop_changes(data)
    data.execute(
        f"CREATE TABLE {CHANGES} (fid INTEGER PRIMARY KEY AUTOINCREMENT NOT NULL, geom POINT, was TEXT, now TEXT,"
        " gap_mm INTEGER, first_layer TEXT, first_fid INTEGER, second_layer TEXT, second_fid INTEGER)"
    )
    data.execute(
        "INSERT INTO gpkg_contents (table_name, data_type, identifier, srs_id) VALUES (?, 'features', ?, ?)",
        (CHANGES, CHANGES, frame),
    )
    data.execute("INSERT INTO gpkg_geometry_columns VALUES (?, 'geom', 'POINT', ?, 0, 0)", (CHANGES, frame))
    boxes = []
    for own, sides, (x, y) in changes:
        point = ogr.Geometry(ogr.wkbPoint)
        point.AddPoint_2D(x, y)
        boxes.append(point.GetEnvelope())
        values = [own["was"], own["now"], own.get("gap_mm")]
        for layer, fid, *_ in sides:
            values += [layers[layer].table, fid]
        data.execute(
            f"INSERT INTO {CHANGES} (geom, {', '.join(FACTS)}) VALUES (?, ?, ?, ?, ?, ?, ?, ?)",
            (blob_of(point, frame), *values),
        )
    set_contents(data, CHANGES, frame, boxes)


# What is another in a carried GeoPackage, of the tables that say what is in it.
OTHER_COLUMNS = {
    "gpkg_contents": {"srs_id", "min_x", "min_y", "max_x", "max_y", "last_change"},
    "gpkg_geometry_columns": {"srs_id"},
}


def items_of(data, schema, indexes):
    """The tables, views, indexes and triggers, by their names, each with its text."""
    rows = data.execute(f"SELECT name, tbl_name, type, sql FROM {schema}.sqlite_master").fetchall()
    return {
        name: (kind, text)
        for name, table, kind, text in rows
        if table != CHANGES and not name.startswith("sqlite_") and not name.startswith(tuple(indexes))
    }


def rows_text(columns, schema, table, names):
    """The query for all rows of a table without those of the layer of changes, each with how often it is there."""
    # Of values that are equal the types have to be so too: 1 is not 1.0. A column may have a collation by
    # which other texts are equal.
    wanted = ", ".join(f"{quoted(it)} COLLATE BINARY, typeof({quoted(it)})" for it in columns)
    own = f" WHERE table_name IS NOT '{CHANGES}'" if table.startswith("gpkg_") and "table_name" in names else ""
    return f"SELECT {wanted}, count(*) FROM {schema}.{quoted(table)}{own} GROUP BY {wanted}"


def differences(data, layers):
    """What differs between both files besides the geometries, the frames and the layer of changes."""
    carried = {it.table: {it.column} for it in layers}
    rows = data.execute("SELECT table_name, column_name FROM main.gpkg_geometry_columns").fetchall()
    indexes = [f"rtree_{table}_{column}" for table, column in rows]
    old, new = items_of(data, "main", indexes), items_of(data, "result", indexes)
    for name in sorted(set(old) | set(new)):
        if old.get(name) != new.get(name):
            yield f"{name} is not the same in both"
    for table in sorted(name for name, (kind, _) in old.items() if kind == "table" and old[name] == new.get(name)):
        names = [it[1] for it in data.execute(f"PRAGMA main.table_info({quoted(table)})")]
        columns = [it for it in names if it not in carried.get(table, set()) | OTHER_COLUMNS.get(table, set())]
        texts = [rows_text(columns, schema, table, names) for schema in ("main", "result")]
        # The frames have one more.
        for one, two, file in ((*texts, "SOURCE"), (*texts[::-1], "RESULT"))[: 1 if table == "gpkg_spatial_ref_sys" else 2]:
            (count,) = data.execute(f"SELECT count(*) FROM ({one} EXCEPT {two})").fetchone()
            if count:
                yield f"{table}: {count} rows of {file} are not in the other"
        if table in OTHER_COLUMNS:
            old_frames, new_frames = (
                dict(data.execute(f"SELECT table_name, srs_id FROM {schema}.{table}")) for schema in ("main", "result")
            )
            for name in sorted(set(old_frames) & set(new_frames) - set(carried) - {CHANGES}):
                if old_frames[name] != new_frames[name]:
                    yield f"{table}: {name} was not carried, and has another frame"
