#!/usr/bin/python3
"""Runs both Processing scripts in QGIS without a window, and compares what they write; for try.sh.

usage: try.py FOLDER_OF_PROGRAMS MAP.gpkg TIN.json FOLDER      MAP has the layers parcels and roads
"""
import importlib.util
import os
import subprocess
import sys
import threading
import time

from qgis.core import QgsApplication, QgsProcessingContext, QgsProcessingFeedback, QgsProject, QgsVectorLayer, QgsWkbTypes

HERE = os.path.dirname(os.path.abspath(__file__))


class Log(QgsProcessingFeedback):
    def __init__(self):
        super().__init__(False)
        self.lines = []

    def pushInfo(self, text):
        self.lines += text.splitlines()

    def pushWarning(self, text):
        self.lines += text.splitlines()

    def reportError(self, text, fatal=False):
        self.lines += text.splitlines()


def algorithm(file, name):
    spec = importlib.util.spec_from_file_location(file, os.path.join(HERE, file + ".py"))
    module = importlib.util.module_from_spec(spec)
    spec.loader.exec_module(module)
    made = getattr(module, name)()
    made.initAlgorithm()
    return made


def run(made, parameters, feedback=None):
    log, context = feedback or Log(), QgsProcessingContext()
    context.setProject(QgsProject.instance())
    try:
        results, is_well = made.run(parameters, context, log)
    except Exception as error:  # a refusal is an exception of QGIS, whose lines are wanted
        return None, log.lines + str(error).splitlines()
    return (results if is_well else None), log.lines


def wanted(what, found, expected):
    if found != expected:
        print(f"FAILED: {what}: {found} in place of {expected}")
        sys.stdout.flush()
        os._exit(1)
    print(f"{what}: as wanted")


def layer(name, table):
    made = QgsVectorLayer(f"{name}|layername={table}", table, "ogr")
    wanted(f"{table} is a layer", made.isValid(), True)
    return made


def rows(it, with_geometry=False):
    names = [f.name() for f in it.fields() if f.name() != "fid"]
    return {f.id(): [f[n] for n in names] + ([f.geometry().asWkt(3)] if with_geometry else []) for f in it.getFeatures()}


def carries(programs, name, tin, folder):
    made, output = algorithm("carry_layers", "CarryLayers"), os.path.join(folder, "carried by QGIS.gpkg")
    parcels, roads = layer(name, "parcels"), layer(name, "roads")
    words = {"LAYERS": [parcels, roads], "TIN": tin, "CRS": "EPSG:2056", "FOLDER": programs, "OUTPUT": output, "LOAD": False}
    results, lines = run(made.create(), words)
    wanted("the changes", results and results["CHANGES"], 4)
    wanted("the log names the layers", [it.split(" name ")[1] for it in lines if it.startswith("layer ")], ["parcels.wkt", "roads.wkt"])
    for old in (parcels, roads):
        new = layer(output, old.name())
        wanted("the frame", new.crs().authid(), "EPSG:2056")
        wanted("the kind", QgsWkbTypes.displayString(new.wkbType()), QgsWkbTypes.displayString(old.wkbType()))
        wanted("the fields", [(f.name(), f.typeName()) for f in new.fields()], [(f.name(), f.typeName()) for f in old.fields()])
        wanted("ids and attributes", rows(new), rows(old))
    # QGIS frees a geometry with the last name of its feature, and a layer's features with the layer.
    carried = layer(output, "roads")
    road = [it.geometry() for it in carried.getFeatures()][0]
    heights = [round(it.z(), 3) for it in road.vertices()]
    wanted("heights of the road", heights, [430.0, 436.2, 438.267, 439.3, 445.5, 447.25])
    changes = layer(output, "tinmove_changes")
    wanted("changes are points", QgsWkbTypes.displayString(changes.wkbType()), "Point")
    sides = {(f["first_layer"], f["first_fid"], f["second_layer"], f["second_fid"]) for f in changes.getFeatures()}
    wanted("the features of the changes", sides, {("parcels", 7, "parcels", 23), ("parcels", 19, "parcels", 23)})

    whole = rows(layer(output, "parcels"), True)
    parcels.selectByIds([19, 23])
    results, lines = run(made.create(), {**words, "LAYERS": [parcels], "SELECTED": True})
    wanted("selected features alone", rows(layer(output, "parcels"), True), {it: whole[it] for it in (19, 23)})

    results, lines = run(made.create(), {**words, "INVERSE": True, "OUTPUT": output + "2.gpkg"})
    wanted("a refusal has no result", (results, os.path.exists(output + "2.gpkg")), (None, False))
    wanted("the refusal's line is in the log", any(it.strip().endswith("outside: layer 0 path 0 segment 0") for it in lines), True)
    wanted("and the feature", any("line 1 is the feature 7 of parcels" in it for it in lines), True)


def reads(programs, name, tin, folder):
    """What recipes/geopackage.py writes is a map in QGIS, its changes too."""
    output = os.path.join(folder, "by the recipe.gpkg")
    named = {it.upper(): os.path.join(programs, it) for it in ("tinmove", "tinplaces")}
    words = [os.path.join(HERE, "..", "geopackage.py"), tin, name, "2056", output]
    ended = subprocess.run(words, env={**os.environ, **named}, stdout=subprocess.DEVNULL, check=False).returncode
    wanted("the recipe's status", ended, 1)
    for table, kind, count in (("parcels", "Polygon", 4), ("roads", "LineStringZ", 1), ("tinmove_changes", "Point", 4)):
        it = layer(output, table)
        found = (QgsWkbTypes.displayString(it.wkbType()), it.featureCount(), it.crs().authid(), it.extent().isEmpty(), it.renderer() is None)
        wanted(f"{table} of the recipe", found, (kind, count, "EPSG:2056", False, False))


def cancels(name, tin, folder):
    """A program that does not end by itself: it must be gone soon after Cancel."""
    programs = os.path.join(folder, "slow programs")
    os.makedirs(programs)
    with open(os.path.join(programs, "tinmove"), "w", encoding="utf-8") as file:
        file.write('#!/bin/sh\necho $$ >"$0.number"\nexec sleep 120\n')
    os.chmod(os.path.join(programs, "tinmove"), 0o755)
    log, began = Log(), time.monotonic()
    threading.Timer(1.5, log.cancel).start()
    words = {"LAYERS": [layer(name, "roads")], "TIN": tin, "CRS": "EPSG:2056", "FOLDER": programs}
    output = os.path.join(folder, "cancelled.gpkg")
    results, _ = run(algorithm("carry_layers", "CarryLayers").create(), {**words, "OUTPUT": output, "LOAD": False}, log)
    wanted("Cancel ends the run", (results, time.monotonic() - began < 30, os.path.exists(output)), (None, True, False))
    with open(os.path.join(programs, "tinmove.number"), encoding="utf-8") as file:
        number = int(file.read())
    wanted("and the program", os.path.exists(f"/proc/{number}"), False)


FAULTS = """{"type":"FeatureCollection","features":[
{"type":"Feature","properties":{"fault":0,"kind":"flat","frame":"source","first_triangle":5,"first_corners":[1,2,4],"second_triangle":null},"geometry":{"type":"Point","coordinates":[600000,200000]}},
{"type":"Feature","properties":{"fault":1,"kind":"turns over","frame":"target","first_triangle":3,"first_corners":[6,3,4],"second_triangle":null},"geometry":{"type":"Point","coordinates":[2600000.1,1200000.2]}}]}"""


def checks(programs, tin, folder):
    made = algorithm("check_triangulation", "CheckTriangulation")
    outputs = {it: os.path.join(folder, it + ".gpkg") for it in ("SOURCE_FAULTS", "TARGET_FAULTS")}
    words = {"TIN": tin, "FOLDER": programs, "SOURCE_CRS": "EPSG:21781", "TARGET_CRS": "EPSG:2056", **outputs}
    results, lines = run(made.create(), words)
    wanted("a sound triangulation", (results["IS_SOUND"], "sound: corners 9 triangles 8 inexact 0" in lines), (True, True))

    with open(tin, encoding="utf-8") as file:
        text = file.read().replace("2600000.000,1200000.000", "2620000.000,1200000.000")
    wrong = os.path.join(folder, "wrong.json")
    with open(wrong, "w", encoding="utf-8") as file:
        file.write(text)
    results, lines = run(made.create(), {**words, "TIN": wrong})
    wanted("a wrong control point", (results["IS_SOUND"], any("triangle" in it for it in lines)), (False, True))

    # A tinplaces that lists faults, whatever the built one does.
    faulty = os.path.join(folder, "faulty programs")
    os.makedirs(faulty)
    os.symlink(os.path.join(programs, "tinmove"), os.path.join(faulty, "tinmove"))
    with open(os.path.join(faulty, "tinplaces"), "w", encoding="utf-8") as file:
        file.write(f"#!/bin/sh\ncat <<'END'\n{FAULTS}\nEND\nexit 1\n")
    os.chmod(os.path.join(faulty, "tinplaces"), 0o755)
    results, _ = run(made.create(), {**words, "TIN": wrong, "FOLDER": faulty})
    for name, place, fault in (("SOURCE_FAULTS", "Point (600000 200000)", "flat"), ("TARGET_FAULTS", "Point (2600000.1 1200000.2)", "turns over")):
        found = [(f["kind"], f.geometry().asWkt(1)) for f in QgsVectorLayer(outputs[name], name, "ogr").getFeatures()]
        wanted(f"the faults of {name}", found, [(fault, place)])


def main():
    programs, name, tin, folder = sys.argv[1:]
    QgsApplication.setPrefixPath("/usr", True)
    application = QgsApplication([], False)
    application.initQgis()
    carries(programs, name, tin, folder)
    reads(programs, name, tin, folder)
    cancels(name, tin, folder)
    checks(programs, tin, folder)
    print("both scripts ran")
    sys.stdout.flush()
    # QGIS may fail as it ends.
    os._exit(0)


main()
