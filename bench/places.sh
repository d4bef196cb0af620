#!/bin/sh
# What putting 100,000 changes on the map takes beyond finding them: a table of processor times and peaks
# of memory of 'tinmove migrate' and 'tinplaces' on the same words, and their difference; the yardstick is
# Python's json.load of the triangulation. Then, where 'tinplaces' has '--faults', the time of that on
# 524,288 sound triangles beside 'tinmove check', in turns.
# Python's json reads each output (the points, '--lines', '--sides', '--faults'), and where they are there so
# do ogr2ogr, ogrinfo and QGIS (Debian's gdal-bin and python3-qgis, without a display): each has to be of one
# geometry type, with the number of features and the extent that Python finds, and QGIS has to draw it.
# Each point is held against the two segments of '--lines' by Python's fractions: of the four ends it is the
# first that is nearest to the other segment.
# usage: bench/places.sh [TINMOVE TINPLACES [COUNT]]     the programs are the built ones if left out
# The map has COUNT squares of 10 m, each with README's line and point, so each with one change whose
# gap is 1 mm. Each program runs TRIES times (5 if not set), in turns, and the quickest counts. Needs
# python3. No part of the gate. The last line is 'the places fit'; the status is 1 where they do not: where a
# value differs, or the changes take over 0.2 s or 100 bytes each beyond 'migrate', or faults over 1.3 of a check.
set -eu
top=$(CDPATH='' cd -- "$(dirname -- "$0")/.." && pwd)
fail() { echo "places.sh: $1" >&2; exit 2; }
tinmove=${1:-$top/crates/tinmove/out/tinmove} tinplaces=${2:-$top/crates/tinplaces/out/tinplaces} count=${3:-100000}
case $count in '' | 0* | *[!0-9]*) fail "'$count' is no number of changes" ;; esac
for file in "$tinmove" "$tinplaces"; do [ -x "$file" ] || fail "$file is no program: run ./tinmove and ./tinplaces once"; done
tinmove=$(readlink -f -- "$tinmove") tinplaces=$(readlink -f -- "$tinplaces")
folder=$(mktemp -d)
trap 'rm -rf "$folder"' EXIT
cd "$folder"
# The maps are made apart, since a process counts the memory of the one that begins it.
python3 - "$count" <<'END'
import json, sys

count = int(sys.argv[1])


def write(name, vertices, triangles):
    with open(name, "w", encoding="utf-8") as file:
        json.dump(
            {
                "file_type": "triangulation_file",
                "format_version": "1.1",
                "transformed_components": ["horizontal"],
                "vertices_columns": ["source_x", "source_y", "target_x", "target_y"],
                "triangles_columns": ["idx_vertex1", "idx_vertex2", "idx_vertex3"],
                "vertices": vertices,
                "triangles": triangles,
            },
            file,
        )


def grid(side, moved=()):
    """A grid of squares of 10 m, each cut in two; the target of these corners is 15 m farther on both axes."""
    vertices = []
    for number in range((side + 1) ** 2):
        x, y = number % (side + 1) * 10, number // (side + 1) * 10
        more = 15 if number in moved else 0
        vertices.append([x, y, x + 100 + more, y + 100 + more])
    triangles = []
    for number in range(side * side):
        a = number // side * (side + 1) + number % side
        triangles += [[a, a + 1, a + side + 2], [a, a + side + 2, a + side + 1]]
    return vertices, triangles


side = int(count**0.5) + 1
vertices, triangles, lines, areas = [], [], [], []
for number in range(count):
    x, y = number % side * 20, number // side * 20
    at = 4 * number
    for dx, dy, more in ((0, 0, 0), (10, 0, 0), (10, 10, 0.003), (0, 10, 0)):
        vertices.append([x + dx, y + dy, round(x + dx + 100 + more, 3), round(y + dy + 100 + more, 3)])
    triangles += [[at, at + 1, at + 2], [at, at + 2, at + 3]]
    lines.append(f"LINESTRING ({x + 10} {y}, {x} {y + 10})\nPOINT ({x + 6} {y + 4})\n")
    areas.append(f"POLYGON (({x + 10} {y}, {x} {y + 10}, {x} {y}, {x + 10} {y}))\nPOINT ({x + 6} {y + 4})\n")
write("squares.json", vertices, triangles)
with open("lines.wkt", "w", encoding="utf-8") as file:
    file.writelines(lines)
with open("areas.wkt", "w", encoding="utf-8") as file:
    file.writelines(areas[:1000])
write("sound.json", *grid(512))
write("faulty.json", *grid(10, [60]))
END
python3 - "$tinmove" "$tinplaces" "$count" "${TRIES:-5}" <<'END'
import json, os, shutil, subprocess, sys, time
from decimal import Decimal
from fractions import Fraction

tinmove, tinplaces, count, tries = sys.argv[1], sys.argv[2], int(sys.argv[3]), int(sys.argv[4])
bad = 0


def fail(text):
    global bad
    bad = 1
    print(text)


def measured(words, out, wanted):
    """The user and system seconds of a run, and its peak of memory in bytes."""
    with open(out, "wb") as file:
        child = subprocess.Popen(words, stdout=file, stderr=subprocess.DEVNULL)
        _, status, used = os.wait4(child.pid, 0)
    if os.waitstatus_to_exitcode(status) != wanted:
        sys.exit(f"places.sh: status {os.waitstatus_to_exitcode(status)} of {' '.join(words)}")
    return used.ru_utime + used.ru_stime, used.ru_maxrss * 1024


def in_turns(*runs):
    """The least seconds and bytes of each run."""
    found = [[measured(*run) for run in runs] for _ in range(tries)]
    return [tuple(map(min, zip(*(it[at] for it in found)))) for at in range(len(runs))]


HELP = subprocess.run([tinplaces, "--help"], capture_output=True, text=True, check=True).stdout
HAS_FAULTS = "\n  --faults" in HELP
HAS_SIDES = "\n  --sides" in HELP and "sides have no feature" not in HELP
HAS_NAME = "\n  --name" in HELP
migrated, placed, lined = in_turns(
    ([tinmove, "migrate", "--tin", "squares.json", "--out", "out", "lines.wkt"], "report", 1),
    ([tinplaces, "--tin", "squares.json", "lines.wkt"], "places.geojson", 1),
    ([tinplaces, "--tin", "squares.json", "--lines", "lines.wkt"], "lines.geojson", 1),
)
outputs = [("places.geojson", "Point", count), ("lines.geojson", "MultiLineString", count)]
if HAS_NAME:
    measured([tinplaces, "--tin", "squares.json", "--name", "owner", "--across", "lines.wkt"], "none.geojson", 0)
if HAS_SIDES:
    for name, more, kind in (("sides.geojson", [], "Point"), ("side_lines.geojson", ["--lines"], "MultiLineString")):
        measured([tinplaces, "--tin", "squares.json", "--sides", *more, "areas.wkt"], name, 1)
        outputs.append((name, kind, 2 * min(count, 1000)))
if HAS_FAULTS:
    checked, faulted = in_turns(
        ([tinmove, "check", "--tin", "sound.json"], "said", 0),
        ([tinplaces, "--tin", "sound.json", "--faults"], "sound.geojson", 0),
    )
    for name, more, kind in (("faults.geojson", [], "Point"), ("fault_lines.geojson", ["--lines"], "MultiLineString")):
        measured([tinplaces, "--tin", "faulty.json", "--faults", *more], name, 1)
        outputs.append((name, kind, None))


def yardstick():
    began = time.process_time()
    with open("squares.json", encoding="utf-8") as file:
        json.load(file)
    return time.process_time() - began


unit = min(yardstick() for _ in range(3))
beyond = placed[0] - migrated[0], placed[1] - migrated[1]
print(f"| {count} changes | seconds | in yardsticks | MB |\n|---|---|---|---|")
rows = [("`tinmove migrate`", migrated), ("`tinplaces`", placed), ("`tinplaces --lines`", lined), ("beyond", beyond)]
for name, (took, room) in rows:
    print(f"| {name} | {took:.2f} | {took / unit:.2f} | {room / 1e6:.1f} |")
print(f"| yardstick | {unit:.2f} | 1.00 | |")
print(f"beyond: {beyond[0] / count * 1e6:.2f} microseconds and {beyond[1] / count:.0f} bytes a change")
if beyond[0] > 0.2 * count / 100000:
    fail("more than 0.2 seconds beyond for 100,000 changes")
if beyond[1] > 100 * count:
    fail("more than 100 bytes a change beyond")
if HAS_FAULTS:
    print(f"faults of 524,288 sound triangles: {faulted[0]:.2f} s and {faulted[1] / 1e6:.1f} MB, check {checked[0]:.2f} s and "
        f"{checked[1] / 1e6:.1f} MB, ratio {faulted[0] / checked[0]:.3f}")
    if faulted[0] > 1.3 * checked[0]:
        fail("faults take more than 1.3 of a check")


def square(p, c, d):
    """The square of the distance of a point and a segment."""
    along = [d[0] - c[0], d[1] - c[1]]
    length = along[0] ** 2 + along[1] ** 2
    part = 0 if length == 0 else Fraction((p[0] - c[0]) * along[0] + (p[1] - c[1]) * along[1]) / length
    part = max(0, min(1, part))
    return (c[0] + part * along[0] - p[0]) ** 2 + (c[1] + part * along[1] - p[1]) ** 2


def nearest(first, second):
    """The end that is nearest to the other segment, the first of equals."""
    ends = [(p, *second) for p in first] + [(p, *first) for p in second]
    return min(ends, key=lambda end: square(*end))[0]


report = [line.split() for line in open("report", encoding="utf-8") if line.startswith("change ")]
with open("places.geojson", encoding="utf-8") as file:
    features = json.load(file)["features"]
if len(report) != count or len(features) != count:
    fail(f"{len(report)} lines of the report and {len(features)} features")
with open("lines.wkt", "rb") as file:
    texts = file.read()
starts = [0]
for line in texts.splitlines(keepends=True):
    starts.append(starts[-1] + len(line))
for number, (line, feature) in enumerate(zip(report, features)):
    said = feature["properties"]
    first, second = (int(said[it].split("/")[1]) for it in ("first", "second"))
    if (
        [said["first"], said["second"], said["was"], said["now"]] != line[1:]
        or said["change"] != number
        or said["gap_mm"] != 1
        or said["first_at"] != texts.index(b"(", starts[first]) + 1
        or said["second_at"] != texts.index(b"(", starts[second]) + 1
        or [said["first_feature"], said["second_feature"]] != [first + 1, second + 1]
    ):
        fail(f"feature {number}: {said}, and the report has {line}")
        break
with open("lines.geojson", encoding="utf-8") as file:
    lined_features = json.load(file, parse_float=Decimal)["features"]
with open("places.geojson", encoding="utf-8") as file:
    exact = json.load(file, parse_float=Decimal)["features"]
for feature, other in zip(exact[:5000], lined_features[:5000]):
    first, second = [[[Fraction(at) for at in end] for end in line] for line in other["geometry"]["coordinates"]]
    place = [Fraction(at) for at in feature["geometry"]["coordinates"]]
    if place != nearest(first, second) or feature["properties"] != other["properties"]:
        fail(f"another place: {feature}, and the lines are {other}")
        break


def positions(geometry):
    if geometry["type"] == "Point":
        return [geometry["coordinates"]]
    return [it for line in geometry["coordinates"] for it in line]


def facts(name):
    """What Python finds: the geometry types, the number of features, and the extent."""
    with open(name, encoding="utf-8") as file:
        found = json.load(file)["features"]
    ends = [it for feature in found for it in positions(feature["geometry"])]
    box = [fold(it[axis] for it in ends) for fold in (min, max) for axis in (0, 1)]
    return {it["geometry"]["type"] for it in found}, len(found), box


# What QGIS reads and draws: a line for each file, with the geometry type, the number of features, the extent and how
# many of 300 by 300 pixels are drawn.
QGIS = """
import sys
from qgis.core import QgsApplication, QgsMapRendererSequentialJob, QgsMapSettings, QgsVectorLayer, QgsWkbTypes
from qgis.PyQt.QtCore import QSize
QgsApplication.setPrefixPath("/usr", True)
program = QgsApplication([], False)
program.initQgis()
for name in sys.argv[1:]:
    layer = QgsVectorLayer(name, "places", "ogr")
    settings = QgsMapSettings()
    settings.setLayers([layer])
    settings.setOutputSize(QSize(300, 300))
    box = layer.extent()
    settings.setExtent(box.buffered(max(box.width(), box.height()) / 10 + 1))
    job = QgsMapRendererSequentialJob(settings)
    job.start()
    job.waitForFinished()
    image = job.renderedImage()
    drawn = sum(image.pixelColor(x, y).value() < 250 or image.pixelColor(x, y).saturation() > 5 for x in range(300) for y in range(300))
    print(QgsWkbTypes.displayString(layer.wkbType()), layer.featureCount(), box.xMinimum(), box.yMinimum(), box.xMaximum(), box.yMaximum(), drawn)
"""


def read_by_qgis(names):
    """What QGIS reads of each file, or nothing where there is no QGIS."""
    if not os.path.exists("/usr/lib/python3/dist-packages/qgis"):
        return None
    words = ["/usr/bin/python3", "-c", QGIS, *names]
    ran = subprocess.run(words, capture_output=True, text=True, check=False, env={**os.environ, "QT_QPA_PLATFORM": "offscreen"})
    return [it.split() for it in ran.stdout.split("\n") if it]


def is_near(one, other):
    return len(one) == len(other) and all(abs(float(a) - float(b)) < 1e-5 for a, b in zip(one, other))


by_qgis = read_by_qgis([it[0] for it in outputs])
for at, (name, kind, wanted) in enumerate(outputs):
    kinds, features, box = facts(name)
    if kinds != {kind} or wanted not in (None, features):
        fail(f"{name}: {features} features of {kinds}")
    said = [f"{features} features of type {kind}"]
    if shutil.which("ogrinfo"):
        told = subprocess.run(["ogrinfo", "-ro", "-so", "-al", name], capture_output=True, text=True, check=True).stdout
        extent = [it for line in told.split("\n") if line.startswith("Extent: ") for it in line[8:].translate({40: " ", 41: " ", 44: " "}).split() if it != "-"]
        spaced = "Multi Line String" if kind == "MultiLineString" else kind
        if f"Geometry: {spaced}\n" not in told or f"Feature Count: {features}\n" not in told or not is_near(extent, box):
            fail(f"ogrinfo reads of {name}:\n{told}")
        said.append("ogrinfo reads them")
    if by_qgis is not None:
        read = by_qgis[at] if at < len(by_qgis) else []
        if read[:2] != [kind, str(features)] or not is_near(read[2:6], box) or int(read[6]) < 20:
            fail(f"QGIS reads of {name}: {' '.join(read)}")
        else:
            said.append(f"QGIS draws them in {read[6]} pixels")
    if shutil.which("ogr2ogr"):
        subprocess.run(["ogr2ogr", "-f", "GPKG", "-overwrite", "places.gpkg", name, "-nln", "places"], check=True, stderr=subprocess.DEVNULL)
        told = subprocess.run(["ogrinfo", "-ro", "-so", "places.gpkg", "places"], capture_output=True, text=True, check=True).stdout
        if f"Feature Count: {features}\n" not in told:
            fail(f"a GeoPackage of {name}:\n{told}")
        said.append("a GeoPackage takes them")
    print(f"{name}: {', '.join(said)}")
if bad:
    sys.exit(1)
print("the places fit")
END
