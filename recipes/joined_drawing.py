#!/usr/bin/python3
"""Makes polylines in space again of the LINEs that readable_drawing.py made of them.

usage: joined_drawing.py CARRIED.dxf RESULT.dxf

Each path in space becomes one POLYLINE (its flag 8) with the heights, layer and colour of its LINEs;
where tinmove split a LINE, the crossing is a vertex of it. Constant widths of polylines are put back.
The marks by which all this is known are taken off. Status 2: the words or the drawing are refused,
and nothing is written. Needs ezdxf (Debian: python3-ezdxf).
"""
import sys

sys.dont_write_bytecode = True
from ezdxf.math import Vec3

from readable_drawing import MARK, Refused, read_drawing, save_whole


def marks_of(entity):
    """The values of the mark of an entity, or none."""
    return [it.value for it in entity.get_xdata(MARK)] if entity.has_xdata(MARK) else []


def join(space, number, lines, closed):
    points = [Vec3(lines[0].dxf.start)]
    for line in lines:
        if not Vec3(line.dxf.start).isclose(points[-1], abs_tol=1e-6):
            raise Refused(f"the lines of path {number} do not follow each other: was the drawing changed in between?")
        points.append(Vec3(line.dxf.end))
    if closed:
        if not points[0].isclose(points[-1], abs_tol=1e-6):
            raise Refused(f"path {number} is not closed: was the drawing changed in between?")
        points.pop()
    space.add_polyline3d(points, close=bool(closed), dxfattribs=lines[0].graphic_properties())
    for line in lines:
        space.delete_entity(line)


def main():
    if len(sys.argv) != 3:
        raise Refused("usage: joined_drawing.py CARRIED.dxf RESULT.dxf")
    doc = read_drawing(sys.argv[1])
    space, paths, widths, count = doc.modelspace(), {}, 0, 0
    for entity in space:
        mark = marks_of(entity)
        if mark[:1] == ["path"] and entity.dxftype() == "LINE":
            paths.setdefault(mark[1], (mark[2], []))[1].append(entity)
        elif mark[:1] == ["width"] and entity.dxftype() in ("LWPOLYLINE", "POLYLINE"):
            width = float(mark[1])
            if entity.dxftype() == "LWPOLYLINE":
                entity.dxf.const_width = width
            else:
                entity.dxf.default_start_width = entity.dxf.default_end_width = width
            entity.discard_xdata(MARK)
            widths += 1
    for number, (closed, lines) in paths.items():
        join(space, number, lines, closed)
        count += len(lines)
    save_whole(doc, sys.argv[2])
    print(f"polylines {len(paths)} of lines {count}, widths {widths}")


if __name__ == "__main__":
    try:
        main()
    except Refused as refusal:
        print(f"joined_drawing.py: {refusal}", file=sys.stderr)
        sys.exit(2)
