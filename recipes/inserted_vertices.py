#!/usr/bin/python3
"""Takes the vertices out of a carried layer that tinmove put in, by the layer's certificate.

usage: inserted_vertices.py CARRIED CERTIFICATE RESULT      layers in .wkt, .geojson or .json

A certificate has a line for each segment of the layer that was carried, with a number for each of
its pieces; between two pieces is an inserted vertex. All other bytes of CARRIED stay, so a GeoJSON's
bbox is still that of all vertices. For a map that comes back, take out those of the way back first,
and then those of the way there:

    tinmove migrate --tin tin.json --out there --cert roads.wkt
    tinmove migrate --tin tin.json --out back --cert --inverse there/roads.wkt
    inserted_vertices.py back/roads.wkt back/roads.wkt.cert there_again.wkt
    inserted_vertices.py there_again.wkt there/roads.wkt.cert roads_again.wkt

Status 2: the words or files are refused, and no file is written.
"""
import json
import os
import re
import sys
import tempfile

HEAD = "tinmove certificate 1"
# A list of points in well-known text. A MULTIPOINT is one whole, since each of its points is a path
# of its own, with brackets or without.
LIST = re.compile(r"(?i:MULTIPOINT)(?:\s+[zZ])?\s*\([^()]*(?:\([^()]*\)[^()]*)*\)|\([^()]*\)")
DIGIT = re.compile("[0-9]")
POSITION = re.compile(r"\[[^\[\]]*\d[^\[\]]*\]")
POSITIONS = re.compile(r"\[(?:\s*\[[^\[\]]*\d[^\[\]]*\]\s*,?)+\s*\]")
POSITIONED = ("Point", "MultiPoint", "LineString", "MultiLineString", "Polygon", "MultiPolygon")
BLANKS = re.compile(r"[ \t\r\n]*")


class Refused(Exception):
    """A file that is not what it should be, with a line that says so."""


class Pieces:
    """How many pieces each segment has, in the order of the layer."""

    def __init__(self, name, lines):
        if not lines or lines[0] != HEAD:
            raise Refused(f"{name}: no certificate: its first line is not '{HEAD}'")
        self.name, self.lines, self.at = name, lines, 1
        self.stayed = self.left_out = 0

    @classmethod
    def read(cls, name):
        return cls(name, read_text(name).splitlines())

    def take(self):
        if self.at == len(self.lines):
            raise Refused(f"{self.name}: a certificate of another layer: it has fewer segments")
        self.at += 1
        return len(self.lines[self.at - 1].split(" "))

    def end(self):
        if self.at != len(self.lines):
            raise Refused(f"{self.name}: a certificate of another layer: it has more segments")

    def point(self):
        """A path of one point."""
        self.take()
        self.stayed += 1

    def kept(self, count):
        """The places of the vertices to keep of a path of so many."""
        places = [0]
        if count == 1:
            self.take()
        while places[-1] < count - 1:
            places.append(places[-1] + self.take())
        if places[-1] != count - 1:
            raise Refused(f"{self.name}: a certificate of another layer: line {self.at} has too many pieces")
        self.stayed += len(places)
        self.left_out += count - len(places)
        return places


def read_text(name):
    try:
        with open(name, newline="", encoding="utf-8") as file:
            return file.read()
    except OSError as error:
        raise Refused(f"{name}: {error.strerror}") from error
    except UnicodeDecodeError as error:
        raise Refused(f"{name}: byte {error.start} is not UTF-8") from error


def without_in_wkt(text, pieces):
    """Well-known text without the inserted vertices."""

    def shortened(found):
        if found[0][0] != "(":
            for member in found[0].split(","):
                if DIGIT.search(member):  # EMPTY has no point
                    pieces.point()
            return found[0]
        if not DIGIT.search(found[0]):  # members that are EMPTY, as of MULTILINESTRING
            return found[0]
        points = found[0][1:-1].split(",")
        places = pieces.kept(len(points))
        if len(places) == len(points):
            return found[0]
        return "(" + ",".join(points[at] for at in places) + ")"

    return LIST.sub(shortened, text)


class Geometries:
    """The geometries of a GeoJSON text: the kind of each, and where its coordinates begin and end."""

    def __init__(self, text):
        self.text, self.found = text, []
        self.decoder = json.JSONDecoder()
        # A byte order mark may be before the object.
        self.object(self.skip(1 if text.startswith("\ufeff") else 0))
        self.found.sort(key=lambda it: it[1])

    def skip(self, at):
        return BLANKS.match(self.text, at).end()

    def plain(self, at):
        """A value that has no geometry, and where it ends."""
        return self.decoder.raw_decode(self.text, at)

    def behind(self, at):
        """Goes past the comma behind a value, where there is one."""
        at = self.skip(at)
        return self.skip(at + 1) if self.text[at] == "," else at

    def object(self, at):
        kind, span, at = None, None, self.skip(at + 1)
        while self.text[at] != "}":
            name, at = self.plain(at)
            begin = at = self.skip(self.skip(at) + 1)
            if name in ("features", "geometries", "geometry") and self.text[at] in "[{":
                at = self.objects(at) if self.text[at] == "[" else self.object(at)
            else:
                value, at = self.plain(at)
                kind = value if name == "type" else kind
                span = (begin, at) if name == "coordinates" else span
            at = self.behind(at)
        if span and kind in POSITIONED:
            self.found.append((kind, *span))
        return at + 1

    def objects(self, at):
        at = self.skip(at + 1)
        while self.text[at] != "]":
            at = self.behind(self.object(at))
        return at + 1


def without_in_geojson(text, pieces):
    """GeoJSON without the inserted vertices."""

    def shortened(found):
        points = [it[0] for it in POSITION.finditer(found[0])]
        places = pieces.kept(len(points))
        if len(places) == len(points):
            return found[0]
        return "[" + ",".join(points[at] for at in places) + "]"

    done, at = [], 0
    for kind, begin, end in Geometries(text).found:
        inner = text[begin:end]
        if kind in ("Point", "MultiPoint"):
            for _ in POSITION.finditer(inner):
                pieces.point()
        else:
            inner = POSITIONS.sub(shortened, inner)
        done += [text[at:begin], inner]
        at = end
    return "".join(done) + text[at:]


def write_whole(name, text):
    """Writes a file that has the name only when it is whole."""
    part = None
    try:
        with tempfile.NamedTemporaryFile(
            "w", encoding="utf-8", newline="", dir=os.path.dirname(name) or ".", prefix=".inserted-", delete=False
        ) as file:
            part = file.name
            file.write(text)
        mask = os.umask(0)
        os.umask(mask)
        os.chmod(part, 0o666 & ~mask)
        os.replace(part, name)
    except OSError as error:
        if part:
            os.unlink(part)
        raise Refused(f"{name}: {error.strerror}") from error


def main():
    if len(sys.argv) != 4:
        raise Refused("usage: inserted_vertices.py CARRIED CERTIFICATE RESULT")
    carried, certificate, result = sys.argv[1:]
    end = os.path.splitext(carried)[1].lower()
    if end not in (".wkt", ".geojson", ".json"):
        raise Refused(f"{carried}: layers in .wkt, .geojson and .json are taken")
    text, pieces = read_text(carried), Pieces.read(certificate)
    try:
        short = without_in_wkt(text, pieces) if end == ".wkt" else without_in_geojson(text, pieces)
    except (ValueError, IndexError) as error:
        raise Refused(f"{carried}: no layer that tinmove wrote") from error
    pieces.end()
    write_whole(result, short)
    print(f"vertices taken out {pieces.left_out}, kept {pieces.stayed}")


if __name__ == "__main__":
    try:
        main()
    except Refused as refusal:
        print(f"inserted_vertices.py: {refusal}", file=sys.stderr)
        sys.exit(2)
