#!/usr/bin/env python3
"""Whether recipes/check_certificate.py and 'tinmove verify' say the same.

usage: checks/check_certificates.py [N [SEED [PROGRAM]]]     N 5,000, SEED 1, PROGRAM crates/tinmove/out/tinmove
First come the certificates of the tests (crates/run_tests/src), with each change of one byte of a certificate and of a
written layer, and a 9 in front of each digit of a certificate. Then come N mutations of these and of layers that are
made by chance, of all kinds, with and without heights, over a grid with gaps: of the certificate most often, of the
written layer, of the source and of the triangulation. Of the last two the status is compared, of all others the line.
No drawings.
Prints each case that is answered otherwise, with its files, how many cases had which answer, and ends with 1 where one
was answered otherwise. No part of the gate.
"""
import ast
import collections
import contextlib
import io
import multiprocessing
import os
import random
import re
import subprocess
import sys
import tempfile

top = os.path.dirname(os.path.dirname(os.path.abspath(__file__)))
runs = int(sys.argv[1]) if len(sys.argv) > 1 else 5000
seed = int(sys.argv[2]) if len(sys.argv) > 2 else 1
program = os.path.abspath(sys.argv[3] if len(sys.argv) > 3 else top + "/crates/tinmove/out/tinmove")
with open(top + "/recipes/check_certificate.py") as file:
    CHECKER = compile(file.read(), "check_certificate.py", "exec")
Case = collections.namedtuple("Case", "tin source written cert name options")


# What the checker answers of the files of this folder: its status and its line.
def checked(words):
    said = io.StringIO()
    sys.argv[1:] = words[1:]
    with contextlib.redirect_stdout(said), contextlib.redirect_stderr(said):
        try:
            exec(CHECKER, {"__name__": "__main__"})
            status = 0
        except SystemExit as end:
            status = end.code
    return status, said.getvalue()


def verified(words):
    end = subprocess.run([program] + words, stdout=subprocess.PIPE, stderr=subprocess.DEVNULL)
    return end.returncode, end.stdout.decode()


def answers(case):
    texts = {"t.json": case.tin, case.name: case.source, "w": case.written, "c": case.cert}
    for name, text in texts.items():
        with open(name, "wb") as file:
            file.write(text)
    words = ["verify", "--tin", "t.json", "--source", case.name, "--written", "w", "--cert", "c", *case.options]
    program_says, checker_says = verified(words), checked(words)
    same = program_says[0] == checker_says[0] and (program_says[0] in (3, 4) or program_says[1] == checker_says[1])
    kind = program_says[1].split(" at ")[0].strip() if program_says[0] == 10 else program_says[1].split(":")[0].strip()
    return same, re.sub(r" \d+/\d+", "", kind), program_says, checker_says, case


# The layer with what a migration makes of it, or None where it is refused.
def carried(tin, source, name, options):
    for file_name, text in (("t.json", tin), (name, source)):
        with open(file_name, "wb") as file:
            file.write(text)
    said = subprocess.run([program, "migrate", "--tin", "t.json", "--out", "o", "--cert", *options, name],
                          stdout=subprocess.PIPE, stderr=subprocess.DEVNULL)
    if said.returncode > 1:
        return None
    with open("o/" + name, "rb") as written, open(f"o/{name}.cert", "rb") as cert:
        return Case(tin, source, written.read(), cert.read(), name, options)


# The constants of the tests and of the texts that they share, their layers, and the files of their verifications.
def tests():
    sources = [("tin_texts", "lib"), *(("run_tests", it) for it in ("memory_runs", "certificates", "altered_certificates"))]
    texts = {name: open(f"{top}/crates/{crate}/src/{name}.rt").read() for crate, name in sources}
    string = r'r#"(?:[^"]|"(?!#))*"#|"(?:[^"\\]|\\.)*"'

    def value(raw):
        if raw.startswith("concat!"):
            return b"".join(map(value, re.findall(string, raw)))
        return (raw[3:-2] if raw.startswith("r#") else ast.literal_eval(raw) if raw[0] == '"' else consts[raw].decode()).encode()

    consts = {}
    for text in texts.values():
        for name, raw in re.findall(rf"const (\w+): &str =\s*((?:{string})|concat!\((?:\s*(?:{string}),?)*\s*\));", text):
            consts[name] = value(raw)
    row = rf'\(\s*"([^"]*)",\s*({string}|\w+),?\s*\)'
    for files in re.findall(rf"&VERIFY,\s*&\[((?:\s*{row},?)*)\s*\]", texts["certificates"]):
        found = {name: value(raw) for name, raw in re.findall(row, files[0])}
        if len(found) == 4:
            yield Case(found["s.json"], found["l.wkt"], found["w"], found["c"], "l.wkt", [])
    layer = rf"CarriedLayer \{{\s*tin: (\w+),\s*layer: ({string}|\w+),\s*job: &(\w+),\s*options: &\[([^]]*)\]"
    for tin, raw, job, options in re.findall(layer, texts["altered_certificates"]):
        if job != "DXF":
            case = carried(value(tin), value(raw), "l." + job.lower(), re.findall('"(.*?)"', options))
            yield case
            yield from changes(case)


# Each change that the tests make too.
def changes(case):
    for at in range(len(case.cert)):
        yield case._replace(cert=case.cert[:at] + bytes([case.cert[at] ^ 64]) + case.cert[at + 1:])
        if case.cert[at:at + 1].isdigit():
            yield case._replace(cert=case.cert[:at] + b"9" + case.cert[at:])
    for at in range(len(case.written)):
        yield case._replace(written=case.written[:at] + bytes([case.written[at] ^ 64]) + case.written[at + 1:])


# A triangulation of a grid, some of whose triangles are missing, and a layer in it.
def made_tin(chance):
    n = chance.randint(1, 4)
    corners, number = [], lambda i, k: k * (n + 1) + i
    for k in range(n + 1):
        for i in range(n + 1):
            x, y = 10 * i + chance.uniform(-2, 2), 10 * k + chance.uniform(-2, 2)
            corners.append("[%.3f,%.3f,%.3f,%.3f]" % (x, y, 2000 + x + chance.uniform(-.5, .5), 1000 + y + chance.uniform(-.5, .5)))
    triangles = []
    for k in range(n):
        for i in range(n):
            a, b, c, d = number(i, k), number(i + 1, k), number(i + 1, k + 1), number(i, k + 1)
            triangles += chance.choice([[[a, b, c], [a, d, c]], [[a, b, d], [c, b, d]]])
    triangles = [it for it in triangles if chance.random() < 0.95] or triangles
    return n, ('{"file_type":"triangulation_file","format_version":"1.%d","transformed_components":["horizontal"],'
               '"vertices_columns":["source_x","source_y","target_x","target_y"],"triangles_columns":["idx_vertex1",'
               '"idx_vertex2","idx_vertex3"],"vertices":[%s],"triangles":%s}'
               % (chance.randrange(2), ",".join(corners), triangles)).encode(), corners


def made_layer(chance, n, corners):
    digits = chance.choice([0, 1, 3, 3, 4])
    number = lambda low, high: "%.*f" % (digits, chance.uniform(low, high))

    def point(z):
        if chance.random() < 0.15:
            words = chance.choice(corners)[1:-1].split(",")[:2]
        else:
            words = [number(1, 10 * n - 1), number(1, 10 * n - 1)]
        return words + [number(-5, 500)] * z

    def points(z, ring=False):
        found = [point(z) for _ in range(chance.randint(3, 5) if ring else chance.randint(1, 5))]
        return found + found[:1] * ring + found[-1:] * (chance.random() < 0.1 and not ring)

    def wkt(depth=0):
        kind = chance.choice(["POINT", "LINESTRING", "POLYGON", "MULTIPOINT", "MULTILINESTRING", "MULTIPOLYGON"]
                             + ["GEOMETRYCOLLECTION"] * (depth < 2))
        z = chance.random() < 0.3
        bracket = lambda items: "(" + chance.choice([",", ", ", " ,"]).join(items) + ")" if items else "EMPTY"
        text = lambda found: bracket(" ".join(it) for it in found)
        several = lambda one: bracket([one() for _ in range(chance.randint(0, 3))])
        body = {"POINT": lambda: text([point(z)]), "LINESTRING": lambda: text(points(z)),
                "POLYGON": lambda: several(lambda: text(points(z, True))),
                "MULTIPOINT": lambda: several(lambda: chance.choice([" ".join(point(z)), text([point(z)]), "EMPTY"])),
                "MULTILINESTRING": lambda: several(lambda: text(points(z))),
                "MULTIPOLYGON": lambda: several(lambda: several(lambda: text(points(z, True)))),
                "GEOMETRYCOLLECTION": lambda: several(lambda: wkt(depth + 1))}[kind]()
        return kind + " Z " * z + " " * chance.randint(0, 1) + body

    def geojson(depth=0):
        kind = chance.choice(["Point", "LineString", "Polygon", "MultiPoint", "MultiLineString", "MultiPolygon"]
                             + ["GeometryCollection"] * (depth < 2))
        array = lambda items: "[" + chance.choice([",", ", ", " , "]).join(items) + "]"
        text = lambda found: array(array(it) for it in found)
        several = lambda one: array([one() for _ in range(chance.randint(0, 3))])
        z = lambda: chance.random() < 0.5
        line, ring = lambda: text([point(z()) for _ in range(chance.randint(0, 4))]), lambda: text(points(z(), True))
        body = {"Point": lambda: array(point(z()) if chance.random() < 0.9 else []), "LineString": line,
                "Polygon": lambda: several(ring), "MultiPoint": line, "MultiLineString": lambda: several(line),
                "MultiPolygon": lambda: several(lambda: several(ring)),
                "GeometryCollection": lambda: several(lambda: geojson(depth + 1))}[kind]()
        members = ['"type":"%s"' % kind, '"%s":%s' % ("geometries" if kind[0] == "G" else "coordinates", body)]
        members += ['"bbox":' + chance.choice(["[]", "null", "[0,0,1,1]"])] * (chance.random() < 0.3)
        chance.shuffle(members)
        return "{" + ",".join(members) + "}"

    if chance.random() < 0.5:
        return "l.wkt", "\n".join(wkt() for _ in range(chance.randint(1, 4))).encode()
    features = ['{"type":"Feature","properties":{"n":%d},"geometry":%s}' % (i, geojson() if i else "null") for i in range(3)]
    crs = ['"crs":{"type":"name"}'] * chance.randrange(2)
    return "l.geojson", ("{" + ",".join(['"type":"FeatureCollection"', *crs, '"features":[%s]' % ",".join(features)]) + "}").encode()


def made(chance):
    while True:
        n, tin, corners = made_tin(chance)
        name, source = made_layer(chance, n, corners)
        options = ["--exact"] * (chance.random() < 0.05)
        if chance.random() < 0.1:
            tin = tin.replace(b'"format', b'"fallback_strategy":"nearest_side","format')
            options += ["--inside-only"]
        case = carried(tin, source, name, options)
        if case and chance.random() < 0.2:
            return carried(tin, case.written, name, options + ["--inverse"]) or case
        if case:
            return case


PIECES = [b"0", b"1", b"2", b" ", b"\n", b"9", b"-", b".", b"e1", b"Z", b"EMPTY", b",", b"(", b")", b"[", b"]", b"{}", b"null", b'"',
          b"4294967295", b"4294967296", b"\r", b"01", b"\xff", b":"]


def mutated(chance, text, is_cert):
    if is_cert and chance.random() < 0.75:
        lines = [it.split(b" ") for it in text.split(b"\n")]
        at = chance.randrange(1, len(lines) - 1) if len(lines) > 2 else 0
        other = chance.randrange(len(lines))
        way, place = chance.randrange(8), chance.randrange(len(lines[at]))
        if way < 3:
            lines[at][place] = b"%d" % chance.randrange(40)
        elif way == 3:
            del lines[at][place]
        elif way == 4:
            lines[at].insert(place, chance.choice(lines[at]))
        elif way == 5:
            lines[at].reverse()
        elif way == 6:
            lines[at], lines[other] = lines[other], lines[at]
        else:
            lines[at:at] = [lines[other]] if chance.random() < 0.5 else []
        return b"\n".join(b" ".join(it) for it in lines)
    start = chance.randint(0, len(text))
    end = min(len(text), start + chance.choice([0, 1, 1, 2, 8]))
    return text[:start] + chance.choice([b"", text[start:end] * 2, *[chance.choice(PIECES)] * 2]) + text[end:]


def one(number):
    chance = random.Random(f"{seed} {number}")
    case = chance.choice(BASES) if chance.random() < 0.2 else made(chance)
    part = chance.choice(["cert"] * 6 + ["written"] * 2 + ["source", "tin"])
    for _ in range(chance.choice([0, 1, 1, 1, 1, 2])):
        case = case._replace(**{part: mutated(chance, getattr(case, part), part == "cert")})
    return answers(case)


def in_folder():
    os.chdir(tempfile.mkdtemp(dir=work.name))


work = tempfile.TemporaryDirectory()
in_folder()
TESTS = list(tests())
BASES = [it for it in TESTS if answers(it)[2][0] == 0]
if len(BASES) < 10:
    sys.exit("no certificates were found in the tests, or the program certifies none of them")
counts, bad = collections.Counter(), 0
with multiprocessing.Pool(initializer=in_folder) as pool:
    for group, found in (("tests", pool.imap_unordered(answers, TESTS, 16)), ("mutations", pool.imap_unordered(one, range(runs), 16))):
        for same, kind, program_says, checker_says, case in found:
            counts[group, kind] += 1
            if not same:
                bad += 1
                print(f"otherwise: verify {program_says}, the checker {checker_says}, of {case}")
os.chdir("/")
for group in ("tests", "mutations"):
    print(f"{group}: " + ", ".join(f"{kind} {count}" for (of, kind), count in sorted(counts.items()) if of == group))
print(f"{sum(counts.values())} cases, {bad} answered otherwise")
sys.exit(1 if bad else 0)
