"""The changes that tinplaces prints, each as a point, whichever of its forms they have."""
import bisect
import json
from fractions import Fraction


def whole(position):
    return round(position[0] * 1000), round(position[1] * 1000)


def squared_distance(p, segment):
    """From a point to a segment, both in millimetres: exact."""
    (ax, ay), (bx, by) = segment
    dx, dy = bx - ax, by - ay
    length = dx * dx + dy * dy
    along = (p[0] - ax) * dx + (p[1] - ay) * dy
    if length == 0 or along <= 0:
        return Fraction((p[0] - ax) ** 2 + (p[1] - ay) ** 2)
    if along >= length:
        return Fraction((p[0] - bx) ** 2 + (p[1] - by) ** 2)
    return Fraction(((p[0] - ax) * dy - (p[1] - ay) * dx) ** 2, length)


def place_of(geometry):
    """A point stays. Of two segments it is the end that is nearest to the other one, the first of equals."""
    if geometry["type"] == "Point":
        return geometry["coordinates"][:2]
    if geometry["type"] == "GeometryCollection":
        lists = [it["coordinates"] if it["type"] != "Point" else [it["coordinates"]] for it in geometry["geometries"]]
    else:
        lists = geometry["coordinates"]
    first, second = [[whole(it[0]), whole(it[-1])] for it in lists]
    ends = [(squared_distance(it, second), it) for it in first] + [(squared_distance(it, first), it) for it in second]
    nearest = min(ends, key=lambda it: it[0])[1]
    return [it / 1000 for it in nearest]


def changes_of(output):
    """Of each change its place, its properties, and of both sides layer, place of the path in it, and name."""
    for feature in json.loads(output)["features"]:
        own = feature["properties"]
        sides = [(int(own[it].split("/")[0]), own[it + "_at"], own.get(it + "_name")) for it in ("first", "second")]
        yield place_of(feature["geometry"]), own, sides


def number_of(starts, at):
    """The number of the feature that a place is in, by the places at which the features start."""
    return bisect.bisect_right(starts, at) - 1


def as_text(value):
    """A text stays, with bytes that are no UTF-8 written out; None too; another value is its JSON."""
    value = value if value is None or isinstance(value, str) else json.dumps(value, ensure_ascii=False)
    return value and value.encode("utf-8", "backslashreplace").decode()


def point(place, own, sides):
    """A change as a line of GeoJSON. Each side is commune, layer, feature and name."""
    properties = {it: own.get(it) for it in ("was", "now", "gap_mm")}
    for side, values in zip(("first", "second"), sides):
        for word, value in zip(("commune", "layer", "feature", "name"), values):
            properties[f"{side}_{word}"] = as_text(value)
    feature = {"type": "Feature", "properties": properties, "geometry": {"type": "Point", "coordinates": place}}
    return json.dumps(feature, ensure_ascii=False) + "\n"
