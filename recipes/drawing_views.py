#!/usr/bin/python3
"""Moves the views of a carried drawing along: its extents, its window and the windows of its layouts.

usage: drawing_views.py BEFORE.dxf CARRIED.dxf RESULT.dxf

tinmove leaves the header's extents, the VPORT of the screen and the VIEWPORTs of layouts of paper as
they were, so a carried drawing opens on an empty place. Here the extents are those of the carried
entities, and each view is moved by as much as the middle of all entities moved. A layout's own view
of its paper, the VIEWPORT with the id 1, stays. Of a text its place counts. A view needs no
millimetres. An object GEODATA names the old frame and a place in it, by which some programs put the
drawing on a map: it is taken off, and that is said. Status 2: the words or a drawing are refused,
and nothing is written. Needs ezdxf (Debian: python3-ezdxf).
"""
import sys

sys.dont_write_bytecode = True
from ezdxf.math import Vec2, Vec3

from readable_drawing import Refused, box_of, read_drawing, save_whole


def main():
    if len(sys.argv) != 4:
        raise Refused("usage: drawing_views.py BEFORE.dxf CARRIED.dxf RESULT.dxf")
    before, carried = read_drawing(sys.argv[1]), read_drawing(sys.argv[2])
    old, new = box_of(before.modelspace()), box_of(carried.modelspace())
    if old is None or new is None:
        raise Refused(f"{sys.argv[1 if old is None else 2]}: a drawing without entities has no extents")
    shift = Vec3(new.center) - Vec3(old.center)
    carried.header["$EXTMIN"], carried.header["$EXTMAX"] = new.extmin, new.extmax
    carried.modelspace().reset_extents(new.extmin, new.extmax)
    views = 0
    for port in carried.viewports:
        port.dxf.center = Vec2(port.dxf.center) + Vec2(shift)
        views += 1
    for layout in carried.layouts:
        if layout.name == "Model":
            continue
        for port in layout.query("VIEWPORT"):
            if port.dxf.get("id", 2) == 1:
                continue
            port.dxf.view_center_point = Vec2(port.dxf.view_center_point) + Vec2(shift)
            views += 1
    geodata = carried.modelspace().get_geodata()
    if geodata is not None:
        carried.modelspace().get_extension_dict().discard("ACAD_GEOGRAPHICDATA")
        carried.objects.delete_entity(geodata)
    save_whole(carried, sys.argv[3])
    print("extents set, views moved: %d, by %.3f %.3f" % (views, shift.x, shift.y))
    if geodata is not None:
        print("GEODATA, which names the old frame, taken off")


try:
    main()
except Refused as refusal:
    print(f"drawing_views.py: {refusal}", file=sys.stderr)
    sys.exit(2)
