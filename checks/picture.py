#!/usr/bin/env python3
"""The pictures of listed changes: docs/change.svg from the files of README's example, docs/places.svg from examples/.

    checks/picture.py           draws them
    checks/picture.py --check   says whether they are current, with status 1 where one is not

Images are computed by fractions, from the definition: one affine map for each triangle, and rounding half up to the
millimetre. change.svg has the first line and the first point of lines.wkt of crates/tinmove/data, by s.json there: on the
left the source, in the middle the whole as written, on the right ten millimetres round the point. places.svg has the
parcels of examples/ as written, each pair of segments whose relation is another one than in the source, at the written
end nearest to the other segment, and on the right two millimetres round the place of the second pair.
"""

import json
import re
import sys
from fractions import Fraction
from math import floor
from pathlib import Path

from sources import Words, enter_top, fail

DATA, EXAMPLES = Path("crates/tinmove/data"), Path("examples")
SIDE, GAP, HEAD, FOOT = 240, 30, 26, 22  # of a square of the picture, in pixels
Place = tuple[Fraction, Fraction]
Segment = tuple[Place, Place]
Triangle = tuple[list[Place], list[Place]]


def turn(a: Place, b: Place, c: Place) -> Fraction:
    return (b[0] - a[0]) * (c[1] - a[1]) - (b[1] - a[1]) * (c[0] - a[0])


def image(triangles: list[Triangle], p: Place) -> Place:
    """Gives the exact image of a point: the mix of the target corners with the weights of the source corners."""
    for (a, b, c), target in triangles:
        weights = [turn(b, c, p), turn(c, a, p), turn(a, b, p)]
        if all(it >= 0 for it in weights) or all(it <= 0 for it in weights):
            return tuple(sum(w * t[k] for w, t in zip(weights, target)) / sum(weights) for k in (0, 1))
    fail("a point of the example is in no triangle")


def rounded(p: Place) -> Place:
    return tuple(Fraction(floor(it * 1000 + Fraction(1, 2)), 1000) for it in p)


def crossings(triangles: list[Triangle], a: Place, b: Place) -> list[Place]:
    """Gives the points inside a segment at which it goes into another triangle."""
    found = set()
    for corners, _ in triangles:
        for p, q in zip(corners, corners[1:] + corners[:1]):
            low, high = turn(p, q, a), turn(p, q, b)
            if low * high < 0:
                s = low / (low - high)
                x = (a[0] + s * (b[0] - a[0]), a[1] + s * (b[1] - a[1]))
                if min(p[0], q[0]) <= x[0] <= max(p[0], q[0]) and min(p[1], q[1]) <= x[1] <= max(p[1], q[1]):
                    found.add(x)
    return sorted(found, key=lambda x: (x[0] - a[0]) ** 2 + (x[1] - a[1]) ** 2)


def squared(a: Place, b: Place) -> Fraction:
    """Gives the square of the distance of two points."""
    return (b[0] - a[0]) ** 2 + (b[1] - a[1]) ** 2


def gap(p: Place, segment: Segment) -> Fraction:
    """Gives the square of the distance of a point from a segment."""
    a, b = segment
    along = (b[0] - a[0]) * (p[0] - a[0]) + (b[1] - a[1]) * (p[1] - a[1])
    if 0 <= along <= squared(a, b) and a != b:
        return turn(a, b, p) ** 2 / squared(a, b)
    return min(squared(a, p), squared(b, p))


def relation(s: Segment, t: Segment) -> str:
    """Gives the relation of two segments, by their common points."""
    ends = {p for p in s if gap(p, t) == 0} | {p for p in t if gap(p, s) == 0}
    if ends:
        return "overlapping" if len(ends) > 1 else "touching"
    sides = [turn(*s, t[0]) * turn(*s, t[1]), turn(*t, s[0]) * turn(*t, s[1])]
    return "crossing" if max(sides) < 0 else "apart"


def triangles_of(file: Path) -> list[Triangle]:
    """Gives the triangles of a file whose columns are source_x, source_y, target_x and target_y, in this order."""
    table = json.loads(file.read_text(encoding="utf-8"), parse_float=Fraction, parse_int=Fraction)
    rows = table["vertices"]
    return [([(rows[int(k)][0], rows[int(k)][1]) for k in row], [(rows[int(k)][2], rows[int(k)][3]) for k in row]) for row in table["triangles"]]


class Square:
    """One square of the picture: a part of the plane, drawn with north at the top."""

    def __init__(self, number: int, title: str, low: Place, size: Fraction):
        self.left, self.low, self.size = GAP + number * (SIDE + GAP), low, size
        self.rows = [f'<text x="{self.left}" y="18">{title}</text>']

    def at(self, p: Place) -> str:
        scale = SIDE / self.size
        x, y = (p[0] - self.low[0]) * scale, SIDE - (p[1] - self.low[1]) * scale
        return f"{self.left + float(x):.1f},{HEAD + float(y):.1f}"

    def clipped(self, a: Place, b: Place) -> list[Place]:
        """Gives the ends of the part of a segment that is in the square, or nothing."""
        first, last = Fraction(0), Fraction(1)
        for k in (0, 1):
            low, high = self.low[k], self.low[k] + self.size
            if a[k] != b[k]:
                s, t = sorted(((low - a[k]) / (b[k] - a[k]), (high - a[k]) / (b[k] - a[k])))
                first, last = max(first, s), min(last, t)
            elif not low <= a[k] <= high:
                return []
        return [(a[0] + s * (b[0] - a[0]), a[1] + s * (b[1] - a[1])) for s in (first, last)] if first < last else []

    def path(self, points: list[Place], kind: str) -> None:
        for a, b in zip(points, points[1:]):
            if ends := self.clipped(a, b):
                self.rows.append(f'<polyline class="{kind}" points="{" ".join(map(self.at, ends))}"/>')

    def dot(self, p: Place, kind: str, size: int = 4) -> None:
        x, y = self.at(p).split(",")
        self.rows.append(f'<circle class="{kind}" cx="{x}" cy="{y}" r="{size}"/>')

    def label(self, p: Place, text: str) -> None:
        x, y = self.at(p).split(",")
        self.rows.append(f'<text class="small" x="{float(x) + 7:.1f}" y="{float(y) - 5:.1f}">{text}</text>')

    def text(self, foot: str) -> list[str]:
        return [*self.rows, f'<rect class="frame" x="{self.left}" y="{HEAD}" width="{SIDE}" height="{SIDE}"/>',
                f'<text class="small" x="{self.left}" y="{HEAD + SIDE + 16}">{foot}</text>']


def metres(p: Place) -> str:
    return "(" + ", ".join(f"{float(it):.3f}" for it in p) + ")"


def drawn(count: int, rows: list[str]) -> str:
    """Gives a picture of some squares."""
    wide, high = GAP + count * (SIDE + GAP), HEAD + SIDE + FOOT
    return "\n".join([
        f'<svg xmlns="http://www.w3.org/2000/svg" width="{wide}" height="{high}" viewBox="0 0 {wide} {high}">',
        "<!-- written by checks/picture.py -->",
        "<style>text { font: 13px sans-serif } .small { font-size: 11px } polyline { fill: none } .side { stroke: #bbb }",
        ".line { stroke: #06c; stroke-width: 2 } .exact { stroke: #888; stroke-dasharray: 5 4 } .point { fill: #c30 }",
        ".vertex { fill: #06c } .hollow { fill: none; stroke: #888 } .frame { fill: none; stroke: #888 }</style>",
        f'<rect width="{wide}" height="{high}" fill="#fff"/>', *rows, "</svg>", ""])


def one_change() -> str:
    """Gives the picture of README's example."""
    triangles = triangles_of(DATA / "s.json")
    line_text, point_text = (DATA / "lines.wkt").read_text(encoding="utf-8").splitlines()[:2]
    values = [Fraction(it) for it in re.findall(r"-?[\d.]+", line_text)]
    line, point = list(zip(values[::2], values[1::2])), tuple(Fraction(it) for it in re.findall(r"-?[\d.]+", point_text))
    whole = [line[0], *crossings(triangles, *line), line[1]]
    exact = [image(triangles, it) for it in whole]
    written, dot = [rounded(it) for it in exact], rounded(image(triangles, point))
    target = [it for _, corners in triangles for it in corners]
    one, ten = Fraction(1), Fraction(12)
    source = Square(0, "in the source", (-one, -one), ten)
    moved = Square(1, "as written", (min(x for x, _ in target) - one, min(y for _, y in target) - one), ten)
    near = Square(2, "10 mm round the point", tuple(it - Fraction(5, 1000) for it in image(triangles, point)), Fraction(1, 100))
    for corners, goal in triangles:
        source.path([*corners, corners[0]], "side")
        moved.path([*goal, goal[0]], "side")
    source.path(line, "line")
    source.dot(point, "point")
    moved.path(written, "line")
    moved.dot(dot, "point")
    for it in written[1:-1]:
        moved.dot(it, "vertex")
    near.path(exact, "exact")
    near.path(written, "line")
    near.dot(image(triangles, point), "hollow")
    near.dot(dot, "point")
    apart = min(gap(dot, it) for it in zip(written, written[1:]))
    return drawn(3, [
        *source.text(f"the point {metres(point)} is on the line"),
        *moved.text(f"a vertex is inserted at {metres(written[1])}" if len(written) > 2 else "no vertex is inserted"),
        *near.text(f"dashed: exact; solid: written, {float(apart) ** 0.5 * 1000:.1f} mm beside the point")])


def many_changes() -> str:
    """Gives the map of the changes of examples/parcels.geojson."""
    triangles = triangles_of(EXAMPLES / "tin.json")
    layer = json.loads((EXAMPLES / "parcels.geojson").read_text(encoding="utf-8"), parse_float=Fraction, parse_int=Fraction)
    rings = [[tuple(p) for p in ring] for it in layer["features"] for ring in it["geometry"]["coordinates"]]
    sources = [it for ring in rings for it in zip(ring, ring[1:])]
    if any(crossings(triangles, *it) for it in sources):
        fail("a segment of the parcels is not in one triangle")
    segments = [(rounded(image(triangles, a)), rounded(image(triangles, b))) for a, b in sources]
    places: dict[Place, list[int]] = {}
    apart = Fraction(0)
    pairs = [(s, t) for s in range(len(segments)) for t in range(s + 1, len(segments))]
    changed = [(s, t) for s, t in pairs if relation(sources[s], sources[t]) != relation(segments[s], segments[t])]
    for number, (s, t) in enumerate(changed):
        ends = [*((gap(p, segments[t]), p) for p in segments[s]), *((gap(p, segments[s]), p) for p in segments[t])]
        least = min(it for it, _ in ends)
        apart = max(apart, least)
        places.setdefault(next(p for it, p in ends if it == least), []).append(number)
    points = [it for segment in segments for it in segment]
    low = tuple(min(p[k] for p in points) - 20 for k in (0, 1))
    whole = Square(0, f"{len(changed)} changes, by their numbers", low, max(p[0] for p in points) + 20 - low[0])
    close = next(p for p, numbers in places.items() if 1 in numbers)
    near = Square(1, "2 mm round changes " + " and ".join(map(str, places[close])), tuple(it - Fraction(1, 1000) for it in close), Fraction(2, 1000))
    for it in segments:
        whole.path(list(it), "line")
        near.path(list(it), "line")
    for p, numbers in places.items():
        whole.dot(p, "point")
        whole.label(p, ", ".join(map(str, numbers)))
    near.dot(close, "point")
    far = float(apart) ** 0.5 * 1000
    return drawn(2, [*whole.text("the parcels, as written"), *near.text(f"the corner is {far:.1f} mm off the side: gap_mm {floor(far + 0.5)}")])


PICTURES = {Path("docs/change.svg"): one_change, Path("docs/places.svg"): many_changes}


def main() -> int:
    words = Words(__doc__)
    words.add_argument("--check", action="store_true", help="compare them with docs/, and write nothing")
    asked = words.parse_args()
    enter_top()
    status = 0
    for file, picture in PICTURES.items():
        text = picture()
        if not asked.check:
            file.write_text(text, encoding="utf-8")
        elif not file.exists() or file.read_text(encoding="utf-8") != text:
            print(f"{file} is not current: run python3 checks/picture.py")
            status = 1
    return status


if __name__ == "__main__":
    sys.exit(main())
