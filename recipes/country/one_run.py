#!/usr/bin/python3
"""Compares the changes of a finished workflow with those of one run of all its layers, pair by pair.

usage: one_run.py RESULT [LAYER]

RESULT is the folder of results. One run takes at most 64 MiB: where the communes have more, only layers
of the name LAYER, as parcels.geojson, are compared. Of each change both features with their communes,
both relations, the gap and the place are compared. The status is 1 where the two differ.
"""
import collections
import json
import os
import sys
import tempfile

sys.path.insert(0, os.path.join(os.path.dirname(os.path.abspath(__file__)), "scripts"))
import changes
import files
import layers
import programs


def sides_as_key(sides, own, place):
    return (tuple(sorted(sides)), own["was"], own["now"], own["gap_mm"], tuple(place))


def of_workflow(records, only):
    """The changes that the workflow lists, and how many of them are across a border."""
    found, across = collections.Counter(), 0
    names = [os.path.join("communes", it["name"], "changes.geojsonl") for it in records]
    names += [os.path.join("work/borders", it) for it in os.listdir("work/borders") if it.endswith(".geojsonl")]
    for name in names:
        with open(name, encoding="utf-8") as file:
            for line in file:
                feature = json.loads(line)
                own = feature["properties"]
                sides = [
                    tuple(own[f"{side}_{word}"] for word in ("commune", "layer", "feature"))
                    for side in ("first", "second")
                ]
                if only not in (None, *(it[1] for it in sides)) or (only and sides[0][1] != sides[1][1]):
                    continue
                across += sides[0][0] != sides[1][0]
                found[sides_as_key(sides, own, feature["geometry"]["coordinates"])] += 1
    return found, across


def link_all(plan, records, folder):
    """A link to each layer of each commune; gives the commune, layer and features of each."""
    rows = []
    for record in records:
        for name in record["layers"]:
            source = os.path.join(plan["communes"], record["name"])
            if name in record["converted"]:
                source = os.path.join(os.getcwd(), "communes", record["name"], "source")
            link = f"{len(rows)}{layers.kind_of(name)}"
            os.symlink(os.path.join(source, name), os.path.join(folder, link))
            with open(os.path.join(source, name), "rb") as file:
                features = layers.features_of(name, file.read())
            rows.append((link, *map(changes.as_text, (record["name"], name)), features, [it.start for it in features]))
    return rows


def of_one_run(plan, records):
    found = collections.Counter()
    with tempfile.TemporaryDirectory() as folder:
        rows = link_all(plan, records, folder)
        words = [plan["tinplaces"], "--tin", plan["tin"], *plan["options_of_places"], "--", *(it[0] for it in rows)]
        status, output, messages = programs.run(words, folder)
    if status not in (0, 1):
        sys.exit(programs.first_line(messages))
    for place, own, sides in changes.changes_of(output):
        ends = []
        for layer, at, _ in sides:
            _, commune, name, features, starts = rows[layer]
            is_drawing = layers.kind_of(name) == ".dxf"
            ends.append((commune, name, features[changes.number_of(starts, at - is_drawing)].label))
        found[sides_as_key(ends, own, place)] += 1
    return found


def main():
    os.chdir(sys.argv[1])
    only = sys.argv[2] if len(sys.argv) > 2 else None
    plan = files.read_json("work/plan.json")
    records = [
        it for number in plan["batches"] for it in files.read_json(f"work/carried/{number}.json") if not it["cause"]
    ]
    records.sort(key=lambda it: it["name"])
    for it in records:
        it["layers"] = [name for name in it["layers"] if only in (None, name)]
    ours, across = of_workflow(records, only)
    one = of_one_run(plan, records)
    for word, rest in (("one run alone", one - ours), ("the workflow alone", ours - one)):
        for key in sorted(rest.elements())[:10]:
            print(f"{word} lists {key}", file=sys.stderr)
    print(f"one run: {one.total()} changes; the workflow: {ours.total()}, of them {across} across borders; ", end="")
    print(f"in both {(one & ours).total()}")
    sys.exit(int(one != ours))


main()
