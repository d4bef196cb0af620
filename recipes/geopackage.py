#!/usr/bin/python3
"""Carries a GeoPackage: all layers in one run, and only geometries and their frame are changed.

usage: geopackage.py [OPTION...] TIN.json SOURCE.gpkg EPSG RESULT.gpkg [LAYER...]
       geopackage.py --verify FOLDER [OPTION...] TIN.json SOURCE.gpkg EPSG RESULT.gpkg [LAYER...]

EPSG is the number of the new frame. Without LAYER all layers that have a geometry are carried; with
it the others stay as they are, in the frame that they name. RESULT is a copy of SOURCE in which each
geometry and its frame are replaced: fids, columns, types, NULL, empty geometries, styles, relations
and all other tables stay. The places of the changes are a layer of points in it, tinmove_changes,
with the layer and the fid of both sides; one that SOURCE has is made anew. The report is beside
RESULT, under its name and .report; its changes are not printed, since they are on the map.

  --cert FOLDER       keeps the certificates of the layers in the new folder FOLDER
  --without FOLDER    of the way back: takes out the vertices that were inserted, on this way and on
                      the one whose certificates are in FOLDER
  --verify FOLDER     writes nothing: whether RESULT's geometries are those of SOURCE as carried, by
                      the certificates in FOLDER, and whether all else is equal
  --inverse, --exact, --inside-only       those of tinmove

Layers that pass the limit of a run together go in strips from west to east, each with all that
reaches into it, so that no pair that meets is missed. Curves and measures are refused: make straight
pieces, or leave the measures out, by ogr2ogr -nlt CONVERT_TO_LINEAR -dim XYZ.

Status 0: all is written and nothing changed, or RESULT is verified; 1: all is written, and a change
is listed; 2 to 9: refused as by tinmove, and nothing is written; 10: RESULT is not verified.
Needs GDAL's Python module (Debian: python3-gdal), tinmove and tinplaces, or the programs that
TINMOVE and TINPLACES name.
"""
import argparse
import contextlib
import json
import math
import os
import re
import shutil
import sqlite3
import struct
import subprocess
import sys
import tempfile

sys.dont_write_bytecode = True
from osgeo import ogr, osr

import inserted_vertices
from geopackage_tables import (
    Refused,
    add_changes,
    add_frame,
    differences,
    file_name_of,
    layers_of,
    open_copy,
    put_back,
    quoted,
)

ogr.UseExceptions()
osr.UseExceptions()
# Bytes of the layers of a run, where TINMOVE_RUN_BYTES names no other number: the limit is 64 MiB.
MOST = 60 * 2**20


def source_text(geometry):
    return geometry.ExportToIsoWkt()


def written_text(geometry):
    """As tinmove writes it: three digits, and a blank behind the commas between points."""

    def numbers(found):
        points = (" ".join("%.3f" % float(it) for it in point.split()) for point in found[1].split(","))
        return "(" + ", ".join(points) + ")"

    return re.sub(r"\(([^()]*)\)", numbers, geometry.ExportToIsoWkt())


def strips(texts, most):
    """The places of the rows of each run, layer by layer: one run where they fit, else strips.

    Each row is in all strips that its box, a metre wider on each side, reaches into."""
    size = lambda row: len(row[1].encode()) + 1
    total = sum(size(row) for rows in texts for row in rows)
    count = math.ceil(2 * total / most) if total > most else 1
    placed = sorted((row[2][0], size(row)) for rows in texts for row in rows if row[2])
    ends, sum_of, share = [], 0, total / count
    for west, length in placed:
        sum_of += length
        if sum_of > share * (len(ends) + 1) and len(ends) < count - 1:
            ends.append(west)
    ends = [-math.inf, *ends, math.inf]
    for west, east in zip(ends, ends[1:]):
        # What has no place is of the first strip.
        inside = lambda box: west == -math.inf if box is None else box[0] - 1 <= east and box[1] + 1 >= west
        yield [[at for at, row in enumerate(rows) if inside(row[2])] for rows in texts]


class Programs:
    """Runs tinmove and tinplaces in a folder that has the triangulation and the layers."""

    def __init__(self, given, folder):
        self.source, self.folder, self.most = os.path.abspath(given.tin), folder, given.most
        self.tin = file_name_of(os.path.basename(self.source))
        self.options = ["--tin", self.tin, *given.options]

    def run(self, variable, words, allowed, folder):
        program = os.environ.get(variable) or variable.lower()
        program = os.path.abspath(program) if os.sep in program else program
        try:
            done = subprocess.run([program, *words], cwd=folder, capture_output=True, check=False)
        except OSError as error:
            raise Refused(f"{program}: {error.strerror}: put it on the PATH, or name it by {variable}", 125) from error
        said, remarks = done.stdout.decode(), done.stderr.decode(errors="replace")
        if done.returncode not in allowed:
            sys.stdout.write(said)
            sys.stderr.write(remarks)
            raise Stopped(done.returncode, remarks)
        return done.returncode, said, remarks


class Stopped(Exception):
    """The program refused a run, and has said why."""

    def __init__(self, status, remarks):
        super().__init__(status)
        self.status, self.remarks = status, remarks


class Run:
    """One run: its files, and where each row begins in them."""

    def __init__(self, programs, layers, texts, places, number):
        self.programs, self.layers, self.texts, self.places = programs, layers, texts, places
        self.folder = os.path.join(programs.folder, str(number))
        os.mkdir(self.folder)
        os.symlink(programs.source, os.path.join(self.folder, programs.tin))
        self.files = [it.file for it in layers]
        self.starts = []
        for layer, rows, chosen in zip(layers, texts, places):
            with open(os.path.join(self.folder, layer.file), "wb") as file:
                self.starts.append([])
                for at in chosen:
                    self.starts[-1].append(file.tell())
                    file.write(rows[at][1].encode() + b"\n")

    def migrate(self):
        words = ["migrate", *self.programs.options, "--cert", "--out", "out", "--", *self.files]
        return self.programs.run("TINMOVE", words, (0, 1), self.folder)

    def lines(self, layer, end=""):
        with open(os.path.join(self.folder, "out", layer.file + end), encoding="utf-8", newline="\n") as file:
            return [it.rstrip("\n") for it in file]

    def changes(self):
        """The changes, each with its place and, of both sides, the layer's number, the fid and the part."""
        words = [*self.programs.options, "--", *self.files]
        found = json.loads(self.programs.run("TINPLACES", words, (0, 1), self.folder)[1])["features"]
        for change in found:
            own, sides = change["properties"], []
            for side in ("first", "second"):
                layer, _, segment, piece = map(int, own[side].split("/"))
                row = row_at(self.starts[layer], own[side + "_at"])
                within = own[side + "_at"] - self.starts[layer][row]
                sides.append((layer, self.texts[layer][self.places[layer][row]][0], within, segment, piece))
            yield own, sides, place_of(change["geometry"])

    def keep(self, stopped):
        """Keeps the files of a refused run beside the result, and says where, and which row is refused."""
        kept = self.programs.folder + "-refused"
        os.rename(self.folder, kept)
        for number, layer in enumerate(self.layers):
            found = re.search(
                rf"^tinmove: {re.escape(layer.file)}:(?:([0-9]+):|(?:.*\n)*?tinmove: it is on line ([0-9]+),)", stopped.remarks, re.MULTILINE
            )
            line = int(found[1] or found[2]) if found else 0
            if 0 < line <= len(self.places[number]):
                fid = self.texts[number][self.places[number][line - 1]][0]
                return f"layer {layer.table}, fid {fid}, is line {line} of {os.path.join(kept, layer.file)}"
        return f"what was handed to the program is in {kept}"


def row_at(starts, at):
    """The last of the starts that is not behind a place."""
    low, high = 0, len(starts)
    while high - low > 1:
        middle = (low + high) // 2
        low, high = (middle, high) if starts[middle] <= at else (low, middle)
    return low


def place_of(geometry):
    """The point of a change: as it is given, or the written end that is nearest to the other segment."""
    if geometry["type"] == "Point":
        return tuple(geometry["coordinates"][:2])
    if geometry["type"] == "MultiLineString":
        parts = [{"type": "LineString", "coordinates": it} for it in geometry["coordinates"]]
    else:
        parts = geometry["geometries"]
    one, two = (ogr.CreateGeometryFromJson(json.dumps(it)) for it in parts)
    ends = []
    for part, other in ((one, two), (two, one)):
        for number in range(part.GetPointCount()):
            point = ogr.Geometry(ogr.wkbPoint)
            point.AddPoint_2D(part.GetX(number), part.GetY(number))
            ends.append((point.Distance(other), len(ends), point.GetX(), point.GetY()))
    return min(ends)[2:]


def carry(programs, layers, texts):
    """The status, the reports, the texts of each layer's rows, its certificate and the changes."""
    status, reports, changes, remarks = 0, [], {}, {}
    carried = [[None] * len(rows) for rows in texts]
    lists = [[[]] * len(rows) for rows in texts]
    for number, places in enumerate(strips(texts, programs.most)):
        run = Run(programs, layers, texts, places, number)
        try:
            ended, report, said = run.migrate()
            status = max(status, ended)
            reports.append(report)
            remarks.update(dict.fromkeys(said.splitlines(True)))
            for at, layer in enumerate(layers):
                keep_rows(run, at, layer, carried[at], lists[at])
            if ended == 1:
                for own, sides, place in run.changes():
                    changes.setdefault(tuple(sides), (own, sides, place))
        except Stopped as stopped:
            if stopped.status in (4, 5):
                raise Refused(run.keep(stopped), stopped.status) from stopped
            raise
        shutil.rmtree(run.folder)
    sys.stderr.writelines(remarks)
    return status, reports, carried, lists, list(changes.values())


def keep_rows(run, number, layer, carried, lists):
    """Takes over what a run wrote of a layer: the text of each row, and the lines of its certificate."""
    counts = inserted_vertices.Pieces(layer.file, run.lines(layer, ".cert"))
    for at, text in zip(run.places[number], run.lines(layer)):
        begin = counts.at
        inserted_vertices.without_in_wkt(text, counts)
        carried[at], lists[at] = text, counts.lines[begin : counts.at]
    counts.end()


def thinned(layers, carried, lists, folder):
    """The texts without inserted vertices: first those of this way, then those of the way there."""
    head = inserted_vertices.HEAD
    for layer, rows, own in zip(layers, carried, lists):
        name = os.path.join(folder, layer.file + ".cert")
        there = inserted_vertices.Pieces.read(name)
        for at, text in enumerate(rows):
            back = inserted_vertices.Pieces(layer.file, [head, *own[at]])
            rows[at] = inserted_vertices.without_in_wkt(inserted_vertices.without_in_wkt(text, back), there)
        there.end()


def write_certificates(folder, layers, lists):
    for layer, rows in zip(layers, lists):
        with open(os.path.join(folder, layer.file + ".cert"), "w", encoding="utf-8", newline="\n") as file:
            file.write(inserted_vertices.HEAD + "\n")
            for lines in rows:
                file.writelines(it + "\n" for it in lines)


def carry_file(given, folder):
    """Carries SOURCE into RESULT by way of a folder beside it, and returns the status."""
    copy = os.path.join(folder, "copy.gpkg")
    programs = Programs(given, folder)
    with contextlib.closing(open_copy(given.source, copy)) as data:
        layers = layers_of(data, given.source, given.layers)
        texts = [it.texts(data, source_text) for it in layers]
        status, reports, carried, lists, changes = carry(programs, layers, texts)
        if given.without:
            thinned(layers, carried, lists, given.without)
        data.execute("BEGIN")
        frame = add_frame(data, given.epsg)
        put_back(data, layers, texts, carried, frame)
        add_changes(data, layers, changes, frame)
        data.execute("COMMIT")
    certificates, report = os.path.join(folder, "certificates"), os.path.join(folder, "report")
    os.mkdir(certificates)
    write_certificates(certificates, layers, lists)
    with open(report, "w", encoding="utf-8") as file:
        file.writelines(reports)
    publish(((certificates, given.cert, 0o777), (report, given.result + ".report", 0o666), (copy, given.result, 0o666)))
    print("".join(it for report in reports for it in report.splitlines(True) if not it.startswith("change ")), end="")
    print(f"layers {len(layers)} rows {sum(map(len, texts))} changes {len(changes)}")
    return status


def publish(files):
    """Gives what was made its names, the result's last: each is whole when it has its name."""
    mask = os.umask(0)
    os.umask(mask)
    for name, result, mode in files:
        if result:
            os.chmod(name, mode & ~mask)
            shutil.move(name, result)


def verify_file(given, folder):
    """Compares RESULT with SOURCE, and returns the status."""
    programs = Programs(given, folder)
    with contextlib.closing(open_copy(given.source, os.path.join(folder, "source.gpkg"))) as data, contextlib.closing(
        open_copy(given.result, os.path.join(folder, "result.gpkg"))
    ) as new:
        layers = layers_of(data, given.source, given.layers)
        frame = add_frame(new, given.epsg)
        wrong, rows = [], 0
        texts = [it.texts(data, source_text) for it in layers]
        for number, places in enumerate(strips(texts, programs.most)):
            run = Run(programs, layers, texts, places, number)
            os.mkdir(os.path.join(run.folder, "out"))
            for layer, own, chosen in zip(layers, texts, places):
                if number == 0:
                    rows += len(own)
                    wrong += frame_faults(new, layer, frame)
                said = verify_layer(run, layer, own, chosen, new, given.verify)
                wrong += [f"{layer.table}: {said}"] if said else []
            shutil.rmtree(run.folder)
        data.execute("ATTACH ? AS result", (os.path.join(folder, "result.gpkg"),))
        wrong += differences(data, layers)
    for it in wrong:
        print(f"not verified: {it}")
    if not wrong:
        print(f"verified: layers {len(layers)} rows {rows}")
    return 10 if wrong else 0


def frame_faults(new, layer, frame):
    rows = new.execute("SELECT srs_id FROM gpkg_geometry_columns WHERE table_name = ?", (layer.table,)).fetchall()
    if rows != [(frame,)]:
        return [f"{layer.table}: another frame than EPSG {frame}"]
    named = f"SELECT {quoted(layer.column)} FROM {quoted(layer.table)} WHERE {quoted(layer.column)} IS NOT NULL"
    if any(it[:2] == b"GP" and struct.unpack("<i" if it[3] & 1 else ">i", it[4:8])[0] != frame for (it,) in new.execute(named)):
        return [f"{layer.table}: a geometry names another frame than EPSG {frame}"]
    return []


def verify_layer(run, layer, own, chosen, new, folder):
    """What tinmove says of a layer's rows of this run, or None where they are certified."""
    try:
        written = layer.texts(new, written_text)
    except (Refused, sqlite3.Error) as fault:
        return f"it cannot be read: {fault}"
    if [it[0] for it in own] != [it[0] for it in written]:
        return "other fids"
    counts = inserted_vertices.Pieces.read(os.path.join(folder, layer.file + ".cert"))
    lines = []
    for fid, text, _ in own:
        begin = counts.at
        for _ in range(segments_of(text)):
            counts.take()
        lines.append(counts.lines[begin : counts.at])
    counts.end()
    with open(os.path.join(run.folder, "out", layer.file), "w", encoding="utf-8", newline="\n") as file:
        file.writelines(written[at][1] + "\n" for at in chosen)
    write_certificates(os.path.join(run.folder, "out"), [layer], [[lines[at] for at in chosen]])
    words = ["--source", layer.file, "--written", f"out/{layer.file}", "--cert", f"out/{layer.file}.cert"]
    ended, said, remarks = run.programs.run("TINMOVE", ["verify", *run.programs.options, *words], (0, 10), run.folder)
    return None if ended == 0 else said.strip() + (" (" + remarks.splitlines()[0] + ")" if remarks else "")


def segments_of(text):
    lists = re.findall(r"\(([^()]*)\)", text)
    return sum(max(1, it.count(",")) for it in lists)


class Words(argparse.ArgumentParser):
    def error(self, message):
        raise Refused(message + " (--help says more)", 2)


def words_of():
    parser = Words(prog="geopackage.py", usage=argparse.SUPPRESS, add_help=False, allow_abbrev=False)
    for option in ("--cert", "--without", "--verify"):
        parser.add_argument(option, metavar="FOLDER")
    for option in ("--inverse", "--exact", "--inside-only"):
        parser.add_argument(option, action="append_const", dest="options", const=option, default=[])
    parser.add_argument("words", nargs="*")
    given = parser.parse_intermixed_args()
    if len(given.words) < 4:
        raise Refused("TIN.json, SOURCE.gpkg, EPSG and RESULT.gpkg are needed (--help says more)", 2)
    given.tin, given.source, given.epsg, given.result, *given.layers = given.words
    if not re.fullmatch(r"[1-9][0-9]{0,8}", given.epsg):
        raise Refused(f"{given.epsg!r} is no number of EPSG", 2)
    given.epsg = int(given.epsg)
    try:
        osr.SpatialReference().ImportFromEPSG(given.epsg)
    except RuntimeError as error:
        raise Refused(f"EPSG {given.epsg} is not known", 2) from error
    if given.verify and (given.cert or given.without):
        raise Refused("--verify writes nothing: --cert and --without do not go with it", 2)
    most = os.environ.get("TINMOVE_RUN_BYTES") or str(MOST)
    if not re.fullmatch(r"[1-9][0-9]{0,9}", most):
        raise Refused(f"TINMOVE_RUN_BYTES: {most!r} is no number of bytes", 2)
    given.most = int(most)
    if not os.path.isfile(given.tin):
        raise Refused(f"{given.tin}: no file", 6)
    for name in () if given.verify else (given.result, given.cert):
        if name and os.path.lexists(name):
            raise Refused(f"{name} is there already: choose another name, or remove it", 2)
    return given


def main():
    if sys.argv[1:] in (["--help"], ["-h"]):
        print(__doc__.strip())
        return 0
    folder = None
    try:
        given = words_of()
        beside = None if given.verify else os.path.dirname(os.path.abspath(given.result))
        try:
            folder = tempfile.mkdtemp(prefix="geopackage-", dir=beside)
        except OSError as error:
            raise Refused(f"{beside}: {error.strerror}", 7) from error
        return (verify_file if given.verify else carry_file)(given, folder)
    except Refused as refusal:
        print(f"geopackage.py: {refusal}", file=sys.stderr)
        return refusal.status
    except inserted_vertices.Refused as refusal:
        print(f"geopackage.py: {refusal}", file=sys.stderr)
        return 10 if given.verify else 2
    except Stopped as stopped:
        return stopped.status
    except KeyboardInterrupt:
        return 130
    except OSError as error:
        print(f"geopackage.py: {error.filename or given.result}: {error.strerror}", file=sys.stderr)
        return 7
    except sqlite3.Error as error:
        print(f"geopackage.py: {given.result}: {error}", file=sys.stderr)
        return 7
    finally:
        if folder:
            shutil.rmtree(folder, ignore_errors=True)


sys.exit(main())
