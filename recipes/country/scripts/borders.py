#!/usr/bin/python3
"""Compares what meets across the borders of a batch's communes. usage: borders.py NUMBER, in the folder of results

A border belongs to the batch of its first commune, by name. Two communes have one where their extents
are at most a metre apart. What is compared are the features of the one that may meet one of the other.
Borders whose communes are as before are not compared again.
"""
import json
import os
import shutil
import sys
import tempfile
import time

import changes
import files
import layers
import planning
import programs

# Millimetres. Pieces that are related in another way after rounding are at most 2 mm apart before it.
MARGIN = 10
NEAR = 1000
CELL = 200_000
# Borders of a commune that are compared in one run.
TOGETHER = 16


def are_near(a, b, margin):
    return a[0] <= b[2] + margin and b[0] <= a[2] + margin and a[1] <= b[3] + margin and b[1] <= a[3] + margin


def pairs_of(records):
    """The pairs of records whose extents are near, by a sweep from west to east; the first has the lesser name."""
    found, beside = [], []
    for row in sorted((it for it in records if it["extent"]), key=lambda it: (it["extent"][0], it["name"])):
        beside = [it for it in beside if it["extent"][2] + NEAR >= row["extent"][0]]
        for it in beside:
            if are_near(it["extent"], row["extent"], NEAR):
                found.append(sorted((it, row), key=lambda each: each["name"]))
        beside.append(row)
    return sorted(found, key=lambda it: (it[0]["name"], it[1]["name"]))


def cells_of(box):
    for i in range((box[0] - MARGIN) // CELL, (box[2] + MARGIN) // CELL + 1):
        for j in range((box[1] - MARGIN) // CELL, (box[3] + MARGIN) // CELL + 1):
            yield i, j


class Commune:
    """The features of a commune with their boxes, and its layers where a border asks for them."""

    def __init__(self, plan, name):
        self.plan, self.data = plan, {}
        self.record = files.read_json(os.path.join("communes", name, "record.json"))
        self.rows = []
        for row in files.read_json(os.path.join("communes", name, "index.json")) or ():
            self.rows += [(row["layer"], *it) for it in row["features"] if it[3]]

    def near(self, box):
        """The numbers of features that are near a box."""
        return [k for k, it in enumerate(self.rows) if are_near(it[4], box, MARGIN)]

    def layer(self, name):
        if name not in self.data:
            folder = os.path.join(self.plan["communes"], self.record["name"])
            if name in self.record["converted"]:
                folder = os.path.join("communes", self.record["name"], "source")
            with open(os.path.join(folder, name), "rb") as file:
                data = file.read()
            if files.digest_of(data) != self.record["digests"][name]:
                raise OSError(None, "changed while the workflow ran", name)
            self.data[name] = data
        return self.data[name]

    def feature(self, number):
        name, start, end, *_ = self.rows[number]
        return layers.feature_as_bytes(name, self.layer(name), start, end)

    def side(self, number):
        """Commune, layer, feature and name, as a person looks for them."""
        name, start, end, label, _ = self.rows[number]
        return self.record["name"], name, label, layers.member_of(name, self.layer(name), start, end, self.plan["name"])


def meeting(first, second):
    """The numbers of features of either that may meet one of the other, over a grid of cells."""
    ones, others = first.near(second.record["extent"]), second.near(first.record["extent"])
    grid, taken = {}, (set(), set())
    for number in ones:
        for cell in cells_of(first.rows[number][4]):
            grid.setdefault(cell, []).append(number)
    for number in others:
        box = second.rows[number][4]
        for cell in cells_of(box):
            for it in grid.get(cell, ()):
                if are_near(first.rows[it][4], box, MARGIN):
                    taken[0].add(it)
                    taken[1].add(number)
    return [sorted(it) for it in taken]


def write_strip(path, commune, numbers):
    """Writes these features as one layer; gives the byte at which each starts."""
    return layers.write_strip(path, map(commune.feature, numbers))


def fault_of(error):
    """What the row of a border says of an error."""
    if isinstance(error, programs.Refused):
        return {"cause": programs.cause_of(error.status), "status": error.status, "line": error.line}
    if isinstance(error, OSError):
        line = programs.shown(f"{error.filename}: {error.strerror}")
        return {"cause": programs.CHANGED, "status": 6, "line": line}
    return {"cause": "script", "status": 0, "line": programs.shown(f"{type(error).__name__}: {error}")}


def run_places(plan, communes, numbers, room):
    """The changes between the first commune and each other one, as lines. Those of two others are of their border."""
    starts = [write_strip(f"{room}/{k}.geojson", it, numbers[k]) for k, it in enumerate(communes)]
    words = [plan["tinplaces"], "--tin", plan["tin"], *plan["options_of_places"]]
    words += ["--across"] if plan["has_across"] else []
    output = programs.output_of([*words, "--", *(f"{k}.geojson" for k in range(len(communes)))], room)
    lines = [[] for _ in communes[1:]]
    for place, own, sides in changes.changes_of(output):
        layers_of = [it[0] for it in sides]
        if layers_of[0] != layers_of[1] and 0 in layers_of:
            there = [numbers[layer][changes.number_of(starts[layer], at)] for layer, at, _ in sides]
            ends = [communes[layer].side(number) for layer, number in zip(layers_of, there)]
            lines[max(layers_of) - 1].append(changes.point(place, own, ends))
    return lines


def compare(plan, first, others, strips):
    """Of each border of the first commune what its row says of a fault, and its changes as lines.

    One run for all, so that the triangulation is read once; where that is refused, one for each.
    """
    room = tempfile.mkdtemp(prefix="tinmove-border-")
    try:
        own = sorted({number for numbers, _ in strips for number in numbers})
        found = run_places(plan, [first, *others], [own, *(it[1] for it in strips)], room)
        if plan["tinledger"]:
            for other, strip, lines in zip(others, strips, found):
                if lines:
                    write_report(plan, first, other, strip)
        return [({}, lines) for lines in found]
    except Exception as error:  # whatever is wrong with a border stops nothing but itself
        if len(others) == 1:
            return [(fault_of(error), [])]
    finally:
        shutil.rmtree(room)
    return [compare(plan, first, [other], [strip])[0] for other, strip in zip(others, strips)]


def room_of(first, second):
    """The folder with the report of a border, for the ledger."""
    return "borders/" + files.digest_of(files.text_of([first, second]).encode())[:24]


def write_report(plan, first, second, strip):
    """The report of a migration of the two strips with the changes between them alone, and what was written."""
    target = room_of(first.record["name"], second.record["name"])
    with tempfile.TemporaryDirectory(prefix="tinmove-border-") as room:
        for k, it in enumerate((first, second)):
            write_strip(f"{room}/{k}.geojson", it, strip[k])
        words = [plan["tinmove"], "migrate", "--tin", plan["tin"], "--out", "layers", *plan["options_of_places"], "--"]
        report = programs.output_of([*words, "0.geojson", "1.geojson"], room)
        shutil.rmtree(target, ignore_errors=True)
        os.makedirs(target)
        shutil.move(f"{room}/layers", f"{target}/layers")
    files.write_whole(f"{target}/report.txt", across_alone(report.decode()))


def across_alone(report):
    """A report with the changes between its two layers alone."""
    lines = report.split("\n")
    ends = {it: [word.split("/")[0] for word in it.split(" ")[1:3]] for it in lines if it.startswith("change ")}
    across = [it for it, (one, other) in ends.items() if one != other]
    rest = [f"changes {len(across)}" if it.startswith("changes ") else it for it in lines if it not in ends]
    at = next(k for k, it in enumerate(rest) if it.startswith("changes ")) + 1
    return "\n".join(rest[:at] + across + rest[at:])


def borders_of(plan, first, others):
    """The rows of a commune's borders with some others, each with its changes as lines of GeoJSON."""
    rows = [{"first": first["name"], "second": it["name"], "features": [0, 0]} for it in others]
    results = [(row | {"cause": None, "status": 0, "line": ""}, []) for row in rows]
    whole = []
    for k, it in enumerate(others):
        refused = [each["name"] for each in (first, it) if each["cause"]]
        if refused:
            line = ", ".join(map(programs.shown, refused))
            results[k] = (rows[k] | {"cause": "commune refused", "status": 0, "line": line}, [])
        else:
            whole.append(k)
    if whole:
        one, communes = Commune(plan, first["name"]), [Commune(plan, others[k]["name"]) for k in whole]
        strips = [meeting(one, it) for it in communes]
        near = [k for k, it in enumerate(strips) if it[0]]
        found = compare(plan, one, [communes[k] for k in near], [strips[k] for k in near]) if near else []
        for k, (part, lines) in zip(near, found):
            row = results[whole[k]][0] | {"features": [len(it) for it in strips[k]], "status": int(bool(lines))}
            results[whole[k]] = (row | part, lines)
    return results


def is_kept(plan, old, keys):
    """Whether a border is as it was: both communes are, and its report is there where there is a ledger."""
    if not old or old["keys"] != keys or None in keys or old["row"]["cause"] in programs.PASSING:
        return False
    room = room_of(old["row"]["first"], old["row"]["second"])
    return not plan["tinledger"] or not old["lines"] or os.path.exists(f"{room}/report.txt")


def compare_all(plan, pairs, kept):
    """Rows and lines of all pairs; those of kept where both communes have the key that they had."""
    rows, missing = {}, {}
    for pair in pairs:
        name = json.dumps([it["name"] for it in pair])
        rows[name] = kept.get(name)
        if not is_kept(plan, rows[name], [it["key"] for it in pair]):
            missing.setdefault(pair[0]["name"], []).append((name, pair))
    for group in missing.values():
        for begin in range(0, len(group), TOGETHER):
            part = group[begin : begin + TOGETHER]
            results = borders_of(plan, part[0][1][0], [pair[1] for _, pair in part])
            for (name, pair), (row, lines) in zip(part, results):
                rows[name] = {"keys": [it["key"] for it in pair], "row": row, "lines": lines}
    return rows


def main():
    number = sys.argv[1]
    begin = time.time()
    with files.locked(f"work/locks/border-{number}"):
        plan = files.read_json("work/plan.json")
        records = [it for batch in plan["batches"] for it in files.read_json(f"work/extents/{batch}.json")]
        count = len(plan["batches"])
        own = [it for it in pairs_of(records) if f"{planning.batch_of(it[0]['name'], count):04}" == number]
        rows = compare_all(plan, own, files.read_json(f"work/kept/{number}.json") or {})
        files.write_whole(f"work/kept/{number}.json", files.text_of(rows))
        files.write_whole(
            f"work/borders/{number}.geojsonl", "".join(line for it in rows.values() for line in it["lines"])
        )
        files.write_whole(
            f"work/borders/{number}.json",
            files.text_of([it["row"] | {"changes": len(it["lines"])} for it in rows.values()]),
        )
        used = time.process_time()
        files.write_whole(
            f"work/times/border-{number}.json",
            json.dumps(programs.seconds | {"python": used, "clock": time.time() - begin}) + "\n",
        )


if __name__ == "__main__":
    main()
