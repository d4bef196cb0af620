#!/usr/bin/python3
"""Writes a drawing that tinmove reads: what it refuses is replaced by what it takes.

usage: readable_drawing.py [--explode SIZE] DRAWING.dxf READABLE.dxf [TOLERANCE]

Arcs, circles, ellipses, splines and the bulges of polylines become straight pieces that are at most
TOLERANCE, 0.001 m if left out, from them. Of bulges, and of arcs of hatches, they may be up to
0.0003 of the radius farther, since ezdxf makes Bezier curves of these first. Hatches, solids and
faces become their outlines, MTEXT becomes one TEXT a line, attributes of inserts become texts, and
dimensions, leaders and the like their parts. Lines without an end (XLINE, RAY) become LINEs as far
as the drawing reaches. What is in another plane (extrusion) is put where it is. Paths in space
become a LINE for each segment, with its heights, and a mark by which joined_drawing.py makes
polylines of them again after they were carried; it puts constant widths back too, which are 0 here.

With --explode the inserts whose block reaches more than SIZE metres from their place, or has several
columns or rows, are resolved into what is in the block, since tinmove moves the place of an insert
and not what is in its block: a block in world coordinates, or one with a line of kilometres. 10 is a
size that leaves symbols as they are.

What is left at the end is listed with the numbers: tinmove takes such a drawing with --drop-other
alone. Status 2: the words or the drawing are refused, and nothing is written.
Needs ezdxf (Debian: python3-ezdxf).
"""
import collections
import math
import os
import sys
import tempfile

import ezdxf
from ezdxf import bbox, protocols
from ezdxf.enums import TextEntityAlignment
from ezdxf.math import Vec3
from ezdxf.path import from_hatch, make_path

TAKEN = {"POINT", "LINE", "LWPOLYLINE", "POLYLINE", "TEXT", "INSERT"}
CURVES = {"ARC", "CIRCLE", "ELLIPSE", "SPLINE"}
TEXTS = {"TEXT", "MTEXT", "ATTRIB", "ATTDEF"}
MARK = "TINMOVE"
UP = Vec3(0, 0, 1)
# Parts of parts: a table in a block in a block.
ROUNDS = 12


class Refused(Exception):
    """What ends the script, with its line."""


def is_level(points):
    return all(math.isclose(p.z, points[0].z, abs_tol=1e-9) for p in points)


def is_tilted(entity):
    return entity.dxf.hasattr("extrusion") and not Vec3(entity.dxf.extrusion).isclose(UP)


class Drawing:
    def __init__(self, name, tolerance, size):
        self.doc = read_drawing(name)
        self.space = self.doc.modelspace()
        self.tolerance, self.size = tolerance, size
        self.said = collections.Counter()
        self.paths = 0
        if MARK not in self.doc.appids:
            self.doc.appids.new(MARK)

    def add_path(self, like, points, closed=False):
        """A polyline in the plane, or LINEs in space, with the layer and colour of an entity."""
        points = [Vec3(it) for it in points]
        if closed and len(points) > 1 and points[0].isclose(points[-1]):
            points = points[:-1]
        if len(points) < 2:
            return
        look = like.graphic_properties()
        if not is_level(points):
            self.add_lines(look, points, closed)
            return
        places = [(p.x, p.y) for p in points]
        if self.doc.dxfversion == "AC1009":
            line = self.space.add_polyline2d(places, dxfattribs={**look, "elevation": (0, 0, points[0].z)})
            if closed:
                line.close()
        else:
            self.space.add_lwpolyline(places, close=closed, dxfattribs={**look, "elevation": points[0].z})

    def add_lines(self, look, points, closed):
        """A LINE for each segment, with the number of the path and whether it is closed."""
        ends = points[1:] + points[:1] if closed else points[1:]
        for start, end in zip(points, ends):
            line = self.space.add_line(start, end, dxfattribs=look)
            line.set_xdata(MARK, [(1000, "path"), (1071, self.paths), (1070, int(closed))])
        self.paths += 1

    def add_text(self, like, text, height, place, rotation=0, align=TextEntityAlignment.LEFT):
        look = {**like.graphic_properties(), "height": height, "rotation": rotation}
        if like.dxf.hasattr("style"):
            look["style"] = like.dxf.style
        self.space.add_text(text, dxfattribs=look).set_placement(place, align=align)

    def replaced_or_refused(self, entity):
        name = f"{entity.dxftype()} of the handle {entity.dxf.handle}"
        try:
            return self.replaced(entity)
        except Exception as error:  # of a broken entity ezdxf says by many kinds of errors that it is one
            raise Refused(f"{name} cannot be replaced: {type(error).__name__}: {error}") from error

    def replaced(self, entity):
        """How an entity was replaced, or None where it is taken, or not known."""
        kind = entity.dxftype()
        if kind in CURVES:
            self.add_path(entity, entity.flattening(self.tolerance), kind == "CIRCLE")
        elif kind in ("LWPOLYLINE", "POLYLINE"):
            kind = self.replaced_polyline(entity, kind)
        elif kind in ("SOLID", "TRACE"):
            self.add_path(entity, entity.wcs_vertices(), True)
        elif kind == "3DFACE":
            self.add_path(entity, entity.wcs_vertices(), True)
        elif kind == "MESH":
            vertices = [Vec3(it) for it in entity.vertices]
            for face in entity.faces:
                self.add_path(entity, [vertices[at] for at in face], True)
        elif kind in ("HATCH", "MPOLYGON"):
            for path in from_hatch(entity):
                self.add_path(entity, path.flattening(self.tolerance), True)
        elif kind in ("XLINE", "RAY"):
            self.add_as_far_as_drawn(entity, kind)
        elif kind == "MTEXT":
            self.add_lines_of_text(entity)
        elif kind == "ATTDEF":
            self.add_text(entity, entity.dxf.tag, entity.dxf.height, entity.dxf.insert, entity.dxf.rotation)
        elif kind == "INSERT":
            kind = self.replaced_insert(entity)
        elif kind not in TAKEN and isinstance(entity, protocols.SupportsVirtualEntities):
            for part in list(protocols.virtual_entities(entity)):
                self.space.add_entity(part)
        elif is_tilted(entity) and kind in ("POINT", "LINE", "TEXT"):
            self.lay_flat(entity)
            self.said[f"{kind} in another plane"] += 1
            return None
        else:
            return None
        if kind:
            self.space.delete_entity(entity)
        return kind

    def lay_flat(self, entity):
        """A point and a line have their places in space; a text has them in its plane."""
        if entity.dxftype() == "TEXT":
            plane = entity.ocs()
            for name in ("insert", "align_point"):
                if entity.dxf.hasattr(name):
                    entity.dxf.set(name, plane.to_wcs(entity.dxf.get(name)))
        entity.dxf.discard("extrusion")

    def replaced_polyline(self, entity, kind):
        is_light = kind == "LWPOLYLINE"
        if not is_light and (entity.is_polygon_mesh or entity.is_poly_face_mesh):
            for face in list(entity.virtual_entities()):
                self.space.add_entity(face)
            return "POLYLINE, a mesh"
        if not is_light and entity.dxf.flags & 6:
            # Of a fitted curve the points of its frame are no part of it.
            entity.vertices = [it for it in entity.vertices if not it.dxf.flags & 16]
            entity.dxf.flags &= ~6
            self.said["POLYLINE fitted to a curve"] += 1
        if not is_light and entity.is_3d_polyline:
            closed = entity.is_closed
            points = [Vec3(it.dxf.location) for it in entity.vertices]
            self.add_lines(entity.graphic_properties(), points, closed)
            return "POLYLINE in space"
        if entity.has_arc or is_tilted(entity):
            closed = entity.closed if is_light else entity.is_closed
            self.add_path(entity, make_path(entity).flattening(self.tolerance), closed)
            return f"{kind} with bulges" if entity.has_arc else f"{kind} in another plane"
        if entity.has_width:
            self.clear_width(entity, is_light)
        return None

    def clear_width(self, entity, is_light):
        """Sets the widths to 0. A constant one is kept in a mark."""
        if is_light:
            widths = {(a, b) for a, b in entity.get_points("se")}
            if entity.dxf.hasattr("const_width") and entity.dxf.const_width:
                widths = {(entity.dxf.const_width,) * 2}
            entity.dxf.discard("const_width")
            entity.set_points([(x, y, 0, 0, bulge) for x, y, bulge in entity.get_points("xyb")], format="xyseb")
        else:
            own = entity.dxf.get("default_start_width", 0), entity.dxf.get("default_end_width", 0)
            widths = {(v.dxf.get("start_width", own[0]), v.dxf.get("end_width", own[1])) for v in entity.vertices}
            for holder, names in ((entity, ("default_start_width", "default_end_width")),) + tuple(
                (v, ("start_width", "end_width")) for v in entity.vertices
            ):
                for name in names:
                    holder.dxf.discard(name)
        first = min(widths)
        if len(widths) == 1 and first[0] == first[1]:
            entity.set_xdata(MARK, [(1000, "width"), (1000, repr(float(first[0])))])
            self.said["widths, kept in a mark"] += 1
        else:
            self.said["widths that vary, set to 0"] += 1

    def add_as_far_as_drawn(self, entity, kind):
        """A LINE for what is inside the box round all that ends, where there is any."""
        ending = [it for it in self.space if it.dxftype() not in ("XLINE", "RAY")]
        box = box_of(ending)
        start, way = Vec3(entity.dxf.start), Vec3(entity.dxf.unit_vector)
        low, high = (0.0 if kind == "RAY" else -math.inf), math.inf
        for axis in "xy" if box else ():
            place, step = getattr(start, axis), getattr(way, axis)
            least, most = getattr(box.extmin, axis), getattr(box.extmax, axis)
            if abs(step) > 1e-12:
                ends = sorted(((least - place) / step, (most - place) / step))
                low, high = max(low, ends[0]), min(high, ends[1])
            elif not least <= place <= most:
                low, high = 1.0, 0.0
        if box and low < high < math.inf and low > -math.inf:
            self.space.add_line(start + way * low, start + way * high, dxfattribs=entity.graphic_properties())
        else:
            self.said[f"{kind} beside the drawing, left out"] += 1

    def add_lines_of_text(self, entity):
        """A TEXT for each line, 1.6 heights apart, where the MTEXT has it."""
        height, lines = entity.dxf.char_height, entity.plain_text(split=True)
        column, row = (entity.dxf.attachment_point - 1) % 3, (entity.dxf.attachment_point - 1) // 3
        align = (TextEntityAlignment.LEFT, TextEntityAlignment.CENTER, TextEntityAlignment.RIGHT)[column]
        whole = height * (1 + 1.6 * (len(lines) - 1))
        top = (0.0, whole / 2, whole)[row]
        rotation = entity.get_rotation()
        for number, line in enumerate(lines):
            down = Vec3(0, top - height * (1 + 1.6 * number), 0).rotate_deg(rotation)
            self.add_text(entity, line, height, entity.dxf.insert + down, rotation, align)

    def replaced_insert(self, insert):
        if insert.attribs:
            for it in insert.attribs:
                self.add_text(it, it.dxf.text, it.dxf.height, it.dxf.insert, it.dxf.get("rotation", 0))
            insert.delete_all_attribs()
            self.said["attributes of INSERT"] += 1
        if self.size is None and not is_tilted(insert):
            return None
        if insert.mcount > 1:
            for one in list(insert.multi_insert()):
                self.space.add_entity(one)
            return "INSERT of several columns or rows"
        if insert.block() is None or (not is_tilted(insert) and self.reach(insert) <= self.size):
            return None
        insert.explode(target_layout=self.space)
        self.said["INSERT resolved"] += 1
        return None

    def reach(self, insert):
        """How far what is in the block is from the place of the insert."""
        place, far = Vec3(insert.dxf.insert), 0.0
        parts = [it for it in insert.virtual_entities()]
        box = box_of(parts)
        if box:
            corners = [Vec3(x, y) for x in (box.extmin.x, box.extmax.x) for y in (box.extmin.y, box.extmax.y)]
            far = max(it.distance(Vec3(place.x, place.y)) for it in corners)
        return far

    def make_readable(self):
        """What is left that tinmove refuses, by its kind."""
        for _ in range(ROUNDS):
            before = sum(self.said.values())
            for entity in list(self.space):
                if not entity.is_alive:
                    continue
                kind = self.replaced_or_refused(entity)
                if kind:
                    self.said[kind] += 1
            if sum(self.said.values()) == before:
                break
        left = collections.Counter(it.dxftype() for it in self.space if it.dxftype() not in TAKEN)
        left.update(f"{it.dxftype()} in another plane" for it in self.space if it.dxftype() in TAKEN and is_tilted(it))
        return left


def box_of(entities):
    """The box round entities; of a text its place, since its size is that of a font."""
    texts = [it for it in entities if it.dxftype() in TEXTS]
    box = bbox.extents((it for it in entities if it.dxftype() not in TEXTS), fast=True)
    box.extend(Vec3(it.dxf.insert) for it in texts)
    return box if box.has_data else None


def read_drawing(name):
    try:
        with open(name, "rb") as file:
            head = file.read(6)
        if head[:4] == b"AC10":
            raise Refused(f"{name}: a DWG, under whatever name: save it as DXF")
        return ezdxf.readfile(name)
    except OSError as error:
        raise Refused(f"{name}: {error.strerror or 'no drawing in DXF'}") from error
    except Refused:
        raise
    except Exception as error:  # of a broken drawing ezdxf says by many kinds of errors that it is one
        raise Refused(f"{name}: no drawing in DXF that can be read ({type(error).__name__}): is it whole?") from error


def save_whole(doc, name):
    """Writes a drawing that has the name only when it is whole."""
    part = None
    try:
        number, part = tempfile.mkstemp(dir=os.path.dirname(name) or ".", prefix=".drawing-", suffix=".dxf")
        os.close(number)
        doc.saveas(part)
        mask = os.umask(0)
        os.umask(mask)
        os.chmod(part, 0o666 & ~mask)
        os.replace(part, name)
    except OSError as error:
        if part:
            os.unlink(part)
        raise Refused(f"{name}: {error.strerror}") from error


def positive(word):
    try:
        number = float(word)
    except ValueError:
        number = math.nan
    if not 0 < number < math.inf:
        raise Refused(f"{word!r} is no number above 0")
    return number


def words_of(words):
    size = None
    if words[:1] == ["--explode"]:
        size, words = positive(words[1] if len(words) > 1 else ""), words[2:]
    if len(words) not in (2, 3) or words[0].startswith("--"):
        raise Refused("usage: readable_drawing.py [--explode SIZE] DRAWING.dxf READABLE.dxf [TOLERANCE]")
    return size, words[0], words[1], positive(words[2]) if len(words) == 3 else 0.001


def listed(counts):
    return ", ".join(f"{kind} {n}" for kind, n in sorted(counts.items())) or "nothing"


def main():
    size, name, result, tolerance = words_of(sys.argv[1:])
    drawing = Drawing(name, tolerance, size)
    left = drawing.make_readable()
    save_whole(drawing.doc, result)
    print("replaced:", listed(drawing.said))
    print("left, for --drop-other:", listed(left))


if __name__ == "__main__":
    try:
        main()
    except Refused as refusal:
        print(f"readable_drawing.py: {refusal}", file=sys.stderr)
        sys.exit(2)
