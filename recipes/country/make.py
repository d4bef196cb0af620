#!/usr/bin/python3
"""Makes a country to try: control points, their triangulation, and communes of parcels and points.

usage: make.py FOLDER [--communes N] [--columns N] [--rows N] [--control N] [--seed N]
               [--drawings N] [--texts N] [--packages N] [--odd-names] [--fault]

FOLDER/points.csv and FOLDER/tin.json carry FOLDER/communes, N folders (60) of COLUMNS by ROWS (50 by 40)
parcels. Neighbours share their corners; a third of the points inside a side belong to one of the two
parcels alone, across the borders of communes too. Some parcels have holes and islands. Every N-th
commune has its parcels as a drawing, as well-known text or as a GeoPackage. --odd-names gives the first
communes names with blanks, quotes, line feeds and signs of the shell; --fault cuts the last commune's
layer off in its middle. Equal arguments make equal files. Needs Debian's python3-gdal and gdal-bin.
"""
import argparse
import hashlib
import json
import math
import multiprocessing
import os
import random
import subprocess

WEST, SOUTH, STEP = 600000.0, 200000.0, 100.0
# Of the points inside an upright side, those that the parcel in the west has not.
ONE_SIDED = 0.35
OWNERS = ["Bär, A.", 'Müller "Söhne" AG', "Einwohnergemeinde", "Ch. Zürcher\nErben", None]
NAMES = [
    "La Chaux de Fonds",
    "d'Or",
    'Saint "Quentin"',
    "a$(touch PWNED)",
    "Zürich `touch PWNED`",
    "two\nlines",
    "-rf",
    "x; touch PWNED &",
    "100% {braces} %s",
    "*",
    "back\\slash",
    "tab\there",
    " blanks ",
    "{wildcards.batch}",
    "<b>&amp;",
    "é" * 120,
]
HEAD = '"crs":{"type":"name","properties":{"name":"urn:ogc:def:crs:EPSG::21781"}}'


class Country:
    """Random numbers by what they are for: each is of its key and the seed alone."""

    def __init__(self, seed):
        self.salt = seed.to_bytes(16, "little")

    def chance(self, *key):
        found = hashlib.blake2b(repr(key).encode(), digest_size=8, salt=self.salt).digest()
        return int.from_bytes(found, "big") / 2**64

    def corner(self, i, j):
        east = WEST + STEP * i + (self.chance("x", i, j) - 0.5) * 50
        return round(east, 3), round(SOUTH + STEP * j + (self.chance("y", i, j) - 0.5) * 50, 3)

    def within(self, word, i, j, a, b):
        """A point inside a side, for two sides of five, and the number by which a parcel lacks it."""
        if self.chance(word, i, j) >= 0.4:
            return None
        along = 0.3 + 0.4 * self.chance(word + "t", i, j)
        place = tuple(round(a[k] + along * (b[k] - a[k]), 3) for k in (0, 1))
        return place, self.chance(word + "s", i, j)

    def level(self, i, j):
        return self.within("h", i, j, self.corner(i, j), self.corner(i + 1, j))

    def upright(self, i, j):
        return self.within("v", i, j, self.corner(i, j), self.corner(i, j + 1))

    def ring(self, i, j):
        sides = [
            (self.corner(i, j), self.level(i, j), False),
            (self.corner(i + 1, j), self.upright(i + 1, j), True),
            (self.corner(i + 1, j + 1), self.level(i, j + 1), True),
            (self.corner(i, j + 1), self.upright(i, j), False),
        ]
        places = []
        for corner, inside, may_lack in sides:
            places.append(corner)
            if inside and not (may_lack and inside[1] <= ONE_SIDED):
                places.append(inside[0])
        return places + places[:1]

    def island(self, i, j, size=0.25, aside=0):
        middle = [sum(self.corner(i + a, j + b)[k] for a in (0, 1) for b in (0, 1)) / 4 + (aside, 0)[k] for k in (0, 1)]
        turns = [it * math.pi / 3 for it in range(6)]
        return [
            (
                round(middle[0] + size * STEP * math.cos(it) * 0.5, 3),
                round(middle[1] + size * STEP * math.sin(it) * 0.5, 3),
            )
            for it in turns
        ]

    def parcel(self, i, j):
        """The features of one cell: a parcel, and what lies in its holes."""
        own = {
            "egrid": f"CH{i:04d}{j:04d}",
            "number": i * 1000 + j,
            "owner": OWNERS[(i * 7 + j) % 5],
            "area": round(self.chance("a", i, j) * 1e4, 3),
            "valid_from": "1998-06-30",
        }
        outer, kind = self.ring(i, j), self.chance("hole", i, j)
        if kind < 0.1:
            island = self.island(i, j)
            inner = dict(own, egrid=own["egrid"] + "E", number=10**6 + i * 1000 + j)
            hole = island[::-1]
            return [area(own, [outer, hole + hole[:1]]), area(inner, [island + island[:1]])]
        if kind < 0.15:
            ones = [self.island(i, j, 0.15, it) for it in (-12, 12)]
            inner = dict(own, egrid=own["egrid"] + "M", number=2 * 10**6 + i * 1000 + j)
            holes = [it[::-1] + it[-1:] for it in ones]
            return [area(own, [outer, *holes]), feature(inner, "MultiPolygon", [[it + it[:1]] for it in ones])]
        return [area(own, [outer])]

    def points(self, west, south, columns, rows):
        for i in range(west, west + columns + 1):
            for j in range(south, south + rows + 1):
                height = round(400 + 200 * self.chance("z", i, j), 3)
                yield feature({"num": f"{i}/{j}"}, "Point", [*self.corner(i, j), height])


def feature(properties, kind, coordinates):
    return {"type": "Feature", "properties": properties, "geometry": {"type": kind, "coordinates": coordinates}}


def area(properties, rings):
    return feature(properties, "Polygon", rings)


def write_geojson(path, layer, features):
    with open(path, "w", encoding="utf-8") as file:
        file.write('{"type":"FeatureCollection","name":"%s",\n%s,\n"features":[\n' % (layer, HEAD))
        file.write(",\n".join(json.dumps(it, ensure_ascii=False) for it in features) + "\n]}\n")


def parts_of(features):
    for it in features:
        geometry = it["geometry"]
        yield from geometry["coordinates"] if geometry["type"] == "MultiPolygon" else [geometry["coordinates"]]


def write_text(path, features):
    with open(path, "w", encoding="ascii") as file:
        for rings in parts_of(features):
            file.write(
                "POLYGON ("
                + ", ".join("(" + ", ".join("%.3f %.3f" % it for it in ring) + ")" for ring in rings)
                + ")\n"
            )


def write_drawing(path, features):
    rows = ["0\nSECTION\n2\nHEADER\n9\n$HANDSEED\n5\nFFFFF\n0\nENDSEC\n0\nSECTION\n2\nENTITIES\n"]
    for number, ring in enumerate((ring for rings in parts_of(features) for ring in rings), 256):
        rows.append(f"0\nLWPOLYLINE\n5\n{number:X}\n8\nparcels\n90\n{len(ring) - 1}\n70\n1\n")
        rows += ["10\n%.3f\n20\n%.3f\n" % it for it in ring[:-1]]
    with open(path, "w", encoding="ascii") as file:
        file.write("".join(rows) + "0\nENDSEC\n0\nEOF\n")


def write_package(folder, features):
    write_geojson(f"{folder}/parcels.geojson", "parcels", features)
    subprocess.run(
        ["ogr2ogr", "-f", "GPKG", f"{folder}/map.gpkg", f"{folder}/parcels.geojson", "-nln", "parcels"], check=True
    )
    os.remove(f"{folder}/parcels.geojson")


def is_each(number, count):
    """Whether this is an N-th commune."""
    return count > 0 and number % count == count - 1


def write_commune(job):
    words, number, place, name = job
    folder = os.path.join(words.folder, "communes", name)
    os.makedirs(folder, exist_ok=True)
    country = Country(words.seed)
    west, south = place[0] * words.columns, place[1] * words.rows
    features = [
        it
        for j in range(south, south + words.rows)
        for i in range(west, west + words.columns)
        for it in country.parcel(i, j)
    ]
    if is_each(number, words.drawings):
        write_drawing(f"{folder}/parcels.dxf", features)
    elif is_each(number, words.texts):
        write_text(f"{folder}/parcels.wkt", features)
    elif is_each(number, words.packages):
        write_package(folder, features)
    else:
        write_geojson(f"{folder}/parcels.geojson", "parcels", features)
    write_geojson(f"{folder}/points.geojson", "points", country.points(west, south, words.columns, words.rows))
    if words.fault and number == words.communes - 1:
        path = f"{folder}/points.geojson"
        os.truncate(path, os.path.getsize(path) // 2)


def write_control(words, across, along):
    """About the asked number of points, over the communes and 3 km round them, moved by up to a metre."""
    random.seed(5 + words.seed)
    west, south = WEST - 3000, SOUTH - 3000
    width, height = across * words.columns * STEP + 6000, along * words.rows * STEP + 6000
    columns = round(math.sqrt(words.control * width / height))
    rows = round(words.control / columns)
    with open(f"{words.folder}/points.csv", "w", encoding="ascii") as file:
        file.write("name,x,y,X,Y\n")
        for a in range(columns):
            for b in range(rows):
                x, y = west + width * a / (columns - 1), south + height * b / (rows - 1)
                if 0 < a < columns - 1:
                    x += random.uniform(-0.3, 0.3) * width / columns
                if 0 < b < rows - 1:
                    y += random.uniform(-0.3, 0.3) * height / rows
                x, y = round(x, 3), round(y, 3)
                u, v = (x - west) / width * 2 - 1, (y - south) / height * 2 - 1
                dx = 0.62 * u - 0.31 * v + 0.25 * u * v + 0.05 * math.sin(9 * u + 3 * v) + random.gauss(0, 0.02)
                dy = -0.44 * u + 0.52 * v - 0.12 * u * u + 0.05 * math.cos(7 * v - 2 * u) + random.gauss(0, 0.02)
                file.write("TP%04d,%.3f,%.3f,%.3f,%.3f\n" % (a * rows + b, x, y, x + 2000000 + dx, y + 1000000 + dy))


def read_words():
    words = argparse.ArgumentParser(description=__doc__, formatter_class=argparse.RawDescriptionHelpFormatter)
    words.add_argument("folder")
    for name, value in (("communes", 60), ("columns", 50), ("rows", 40), ("control", 2000), ("seed", 0)):
        words.add_argument("--" + name, type=int, default=value)
    for name in ("drawings", "texts", "packages"):
        words.add_argument("--" + name, type=int, default=0)
    words.add_argument("--odd-names", action="store_true")
    words.add_argument("--fault", action="store_true")
    return words.parse_args()


def main():
    words = read_words()
    os.makedirs(words.folder, exist_ok=True)
    across = math.ceil(math.sqrt(words.communes * 5 / 3))
    along = math.ceil(words.communes / across)
    write_control(words, across, along)
    recipe = os.path.join(os.path.dirname(os.path.abspath(__file__)), "..", "triangulate.py")
    subprocess.run(
        [recipe, f"{words.folder}/points.csv", f"{words.folder}/tin.json"], check=True, stdout=subprocess.DEVNULL
    )
    odd = NAMES if words.odd_names else []
    names = [odd[it] if it < len(odd) else str(1000 + it) for it in range(words.communes)]
    jobs = [(words, it, divmod(it, along), names[it]) for it in range(words.communes)]
    with multiprocessing.Pool() as pool:
        pool.map(write_commune, jobs, chunksize=1)
    print(f"{words.communes} communes of {words.columns * words.rows} parcels")


main()
