#!/usr/bin/python3
"""Writes summary.html, summary.csv, borders.csv and changes.gpkg. usage: summary.py, in the folder of results

They are made of the records of all batches alone and have no date, so equal results give equal bytes.
"""
import collections
import csv
import glob
import html
import io
import os
import shutil
import sys
import urllib.parse

import files
import programs

# Of the communes with changes the quarter with the fewest has the first colour.
COLOURS = ("#c6dbef", "#6baed6", "#2171b5", "#08306b")
NONE, REFUSED = "#f2f2f2", "#d7301f"
WIDTH = 1000

STYLE = """body { font: 15px sans-serif; margin: 2em auto; max-width: 70em; padding: 0 1em; color: #222 }
table { border-collapse: collapse; margin: 1em 0 }
td, th { border: 1px solid #ccc; padding: .2em .6em; text-align: left }
td.n { text-align: right }
svg { max-width: 100%; height: auto; border: 1px solid #ccc }
.k { padding: 0 .7em; margin-right: .3em }
code { white-space: pre-wrap }"""
HEAD = '<!DOCTYPE html>\n<html lang="en"><head><meta charset="utf-8"><title>A country</title><style>\n'
LINKS = """<p><a href="changes.gpkg">changes.gpkg</a> has all changes as points;
<a href="summary.csv">summary.csv</a> and <a href="borders.csv">borders.csv</a> are the tables.</p>
"""
COLUMNS = "<table><tr><th>commune</th><th></th><th>layers</th><th>features</th><th>pieces</th><th>within</th>"


def batches_of(kind, numbers):
    return [it for number in numbers for it in files.read_json(f"work/{kind}/{number}.json")]


def table_of(columns, rows):
    text = io.StringIO()
    writer = csv.writer(text, lineterminator="\n")
    writer.writerow(columns)
    writer.writerows(rows)
    return text.getvalue()


def rows_of_communes(records, across):
    for it in records:
        yield [
            it["name"],
            "refused" if it["cause"] else "carried",
            it["cause"] or "",
            len(it["layers"]),
            it["features"],
            it["pieces"],
            it["within"],
            across[it["name"]],
            "" if it["sides"] is None else it["sides"],
            it["line"],
            " ".join(it["passed"]),
        ]


def rows_of_borders(borders):
    for it in borders:
        state = "not compared" if it["cause"] else "compared"
        yield [it["first"], it["second"], state, it["cause"] or "", *it["features"], it["changes"], it["line"]]


def write_changes(records, kept, epsg):
    """All changes as points: those of each commune in the order of its report, then those of each border."""
    room = "work/changes"
    shutil.rmtree(room, ignore_errors=True)
    os.makedirs(room)
    with open(f"{room}/changes.geojsonl", "wb") as file:
        for it in [it for it in records if not it["cause"]]:
            with open(os.path.join("communes", it["name"], "changes.geojsonl"), "rb") as part:
                shutil.copyfileobj(part, file)
        for _, it in sorted(kept.items()):
            file.write("".join(it["lines"]).encode("utf-8", "backslashreplace"))
        is_empty = file.tell() == 0
    source = f"GeoJSONSeq:{room}/changes.geojsonl"
    if is_empty:
        source = f"{room}/none.geojson"
        files.write_whole(source, '{"type":"FeatureCollection","features":[]}\n')
    words = [
        "ogr2ogr",
        "--config",
        "OGR_CURRENT_DATE",
        "2000-01-01T00:00:00.000Z",
        "-f",
        "GPKG",
        f"{room}/changes.gpkg",
        source,
    ]
    status, _, error = programs.run(
        [*words, "-nln", "changes", "-nlt", "POINT", "-a_srs", f"EPSG:{epsg}"], ".", "other"
    )
    if status != 0:
        sys.exit(f"changes.gpkg: {programs.first_line(error)}")
    files.sync(f"{room}/changes.gpkg")
    os.replace(f"{room}/changes.gpkg", "changes.gpkg")
    shutil.rmtree(room)


def escaped(text):
    return html.escape(programs.shown(str(text)))


def cells(row):
    return (
        "<tr>"
        + "".join(f'<td class="n">{it:,}</td>' if isinstance(it, int) else f"<td>{it}</td>" for it in row)
        + "</tr>\n"
    )


def link(name):
    path = urllib.parse.quote(os.fsencode(os.path.join("communes", name, "report.txt")))
    return f'<a href="{path}">{escaped(name)}</a>'


def classes_of(counts):
    """The least number of changes of each colour, with the colour."""
    counts = sorted(it for it in counts if it)
    leasts = {counts[len(counts) * k // len(COLOURS)]: colour for k, colour in enumerate(COLOURS)} if counts else {}
    return [(0, NONE), *sorted(leasts.items())]


def key_of(classes):
    """The line below the map that says what a colour is."""
    words = [
        f"{least}" if most is None else f"{least} to {most}"
        for least, most in zip((it[0] for it in classes), [it[0] - 1 for it in classes[1:]] + [None])
    ]
    words = ["none", *words[1:-1], words[-1] + " and more"] if len(words) > 1 else ["none"]
    rows = zip(words + ["refused"], [it[1] for it in classes] + [REFUSED])
    return " &nbsp; ".join(f'<span class="k" style="background:{colour}">&nbsp;</span>{word}' for word, colour in rows)


def picture(records, across):
    """Each commune as the hull of its features, coloured by its changes."""
    drawn = [it for it in records if it["outline"]]
    classes = classes_of(it["within"] + across[it["name"]] for it in records if not it["cause"])
    if not drawn:
        return "<p>No commune could be read, so there is no map.</p>\n"
    xs = [x for it in drawn for x, _ in it["outline"]]
    ys = [y for it in drawn for _, y in it["outline"]]
    west, north, scale = min(xs), max(ys), WIDTH / max(max(xs) - min(xs), max(ys) - min(ys), 1)
    height = round((north - min(ys)) * scale) + 4
    text = f'<svg xmlns="http://www.w3.org/2000/svg" viewBox="-2 -2 {WIDTH + 4} {height}" width="{WIDTH}">\n'
    for it in drawn:
        points = [f"{(x - west) * scale:.1f},{(north - y) * scale:.1f}" for x, y in it["outline"]]
        count = "refused" if it["cause"] else f"{it['within']} within, {across[it['name']]} across"
        number = it["within"] + across[it["name"]]
        colour = REFUSED if it["cause"] else [colour for least, colour in classes if number >= least][-1]
        text += f'<polygon points="{" ".join(dict.fromkeys(points))}" fill="{colour}" stroke="#888" stroke-width=".5" '
        text += f'fill-opacity=".85"><title>{escaped(it["name"])}: {count}</title></polygon>\n'
    return text + f"</svg>\n<p>Changes of a commune, within it and across its borders: {key_of(classes)}</p>\n"


def refusals(records, borders):
    rows = [(it["cause"], link(it["name"]), it["status"], it["line"]) for it in records if it["cause"]]
    missed = [it for it in borders if it["cause"] and it["cause"] != "commune refused"]
    rows += [
        (it["cause"], f"border of {link(it['first'])} and {link(it['second'])}", it["status"], it["line"])
        for it in missed
    ]
    if not rows:
        return "<p>None.</p>\n"
    counts = collections.Counter(it[0] for it in rows)
    text = "<p>" + ", ".join(f"{escaped(cause)}: {count}" for cause, count in sorted(counts.items())) + "</p>\n"
    text += "<table><tr><th>cause</th><th>commune</th><th>status</th><th>standard error</th></tr>\n"
    for cause, name, status, line in sorted(rows):
        text += cells([escaped(cause), name, status, f"<code>{escaped(line)}</code>"])
    return text + "</table>\n"


def figures(records, borders):
    carried = [it for it in records if not it["cause"]]
    compared = [it for it in borders if not it["cause"]]
    # These are listed where the options have --sides.
    counts = [it["sides"] for it in carried if it["sides"] is not None]
    sides = [("rings that turn and points that change sides", sum(counts))] if counts else []
    return [
        ("communes", len(records)),
        ("communes carried and certified", len(carried)),
        ("communes refused", len(records) - len(carried)),
        ("features carried", sum(it["features"] for it in carried)),
        ("pieces", sum(it["pieces"] for it in carried)),
        ("changes within communes", sum(it["within"] for it in carried)),
        ("borders", len(borders)),
        ("borders compared", len(compared)),
        ("borders with changes", sum(it["changes"] > 0 for it in compared)),
        ("changes across borders", sum(it["changes"] for it in compared)),
    ] + sides


def page(records, borders, across, plan):
    text = f"{HEAD}{STYLE}\n</style></head><body>\n"
    text += f"<h1>Communes carried into EPSG:{escaped(plan['epsg'])}</h1>\n<table>\n"
    text += "".join(cells(it) for it in figures(records, borders)) + "</table>\n"
    text += LINKS + "<h2>Map</h2>\n" + picture(records, across) + "<h2>Refusals</h2>\n" + refusals(records, borders)
    text += "<h2>Borders with changes</h2>\n<table><tr><th>communes</th><th></th><th>changes</th></tr>\n"
    for it in [it for it in borders if it["changes"]]:
        text += cells([link(it["first"]), link(it["second"]), it["changes"]])
    text += f"</table>\n<h2>Communes</h2>\n{COLUMNS}<th>across</th><th>files that are no layers</th></tr>\n"
    for it in records:
        state = escaped(it["cause"] or "carried")
        row = [len(it["layers"]), it["features"], it["pieces"], it["within"], across[it["name"]]]
        text += cells([link(it["name"]), state, *row, escaped(" ".join(it["passed"]))])
    return text + "</table>\n</body></html>\n"


def main():
    plan = files.read_json("work/plan.json")
    records = sorted(batches_of("carried", plan["batches"]), key=lambda it: it["name"])
    borders = sorted(batches_of("borders", plan["batches"]), key=lambda it: (it["first"], it["second"]))
    kept = {}
    for number in plan["batches"]:
        kept |= {
            (it["row"]["first"], it["row"]["second"]): it for it in files.read_json(f"work/kept/{number}.json").values()
        }
    across = collections.Counter()
    for it in borders:
        across.update({it["first"]: it["changes"], it["second"]: it["changes"]})
    for it in glob.glob("communes/.new-*"):
        shutil.rmtree(it)
    write_changes(records, kept, plan["epsg"])
    columns = ["commune", "state", "cause", "layers", "features", "pieces", "within", "across", "sides", "line"]
    columns += ["no layers"]
    files.write_whole("summary.csv", table_of(columns, rows_of_communes(records, across)))
    columns = ["first", "second", "state", "cause", "first features", "second features", "changes", "line"]
    files.write_whole("borders.csv", table_of(columns, rows_of_borders(borders)))
    files.write_whole("summary.html", page(records, borders, across, plan))


if __name__ == "__main__":
    main()
