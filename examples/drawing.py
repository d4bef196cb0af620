#!/usr/bin/python3
"""Writes a drawing as people make them: what tinmove refuses, and blocks that reach far.

usage: drawing.py RESULT.dxf      Needs ezdxf (Debian: python3-ezdxf).
"""
import sys

import ezdxf


def main():
    if len(sys.argv) != 2:
        sys.exit("drawing.py: usage: drawing.py RESULT.dxf")
    doc = ezdxf.new("R2010")
    space = doc.modelspace()
    # Two paths in space, a face of a terrain, and areas that are filled.
    axis = [(599400, 199800, 430), (600400, 200300, 445.5), (600450, 200400, 447.25)]
    space.add_polyline3d(axis, dxfattribs={"layer": "AXIS", "color": 3})
    space.add_polyline3d([(600010, 200010, 1), (600020, 200010, 2), (600020, 200020, 3)], close=True, dxfattribs={"layer": "AXIS"})
    face = [(600100, 200100, 1), (600110, 200100, 2), (600110, 200110, 3), (600100, 200110, 4)]
    space.add_3dface(face, dxfattribs={"layer": "TERRAIN"})
    space.add_solid([(600100, 200100), (600110, 200100), (600100, 200110), (600110, 200110)])
    space.add_hatch().paths.add_polyline_path([(600200, 200050), (600250, 200050), (600250, 200100)], is_closed=True)
    # Curves, widths, lines without an end, a text of two lines.
    space.add_lwpolyline([(600100, 200050, 0.3), (600150, 200050, 0), (600150, 200100, 0)], format="xyb", close=True)
    space.add_arc((600180, 200080), 20, 0, 90)
    space.add_lwpolyline([(600030, 200130), (600040, 200130)], dxfattribs={"const_width": 0.25})
    space.add_xline((600100, 200100), (1, 1))
    space.add_circle((-600200, 200100), 5, dxfattribs={"extrusion": (0, 0, -1)})
    space.add_mtext("Nr. 12\nWald", dxfattribs={"insert": (600120, 200120), "char_height": 2.5})
    # A line of kilometres in a block, a block in world coordinates, and a symbol.
    far = doc.blocks.new("MAIN", base_point=(600000, 200000))
    far.add_line((600000, 200000), (609400, 200100))
    space.add_blockref("MAIN", (600000, 200000))
    world = doc.blocks.new("WORLD")
    world.add_lwpolyline([(600200, 200200), (600210, 200210)])
    space.add_blockref("WORLD", (0, 0))
    tree = doc.blocks.new("TREE")
    tree.add_line((-1, 0), (1, 0))
    space.add_blockref("TREE", (600100, 200150))
    # What names the frame and a place in it.
    space.new_geodata({"design_point": (600000, 200000, 0)}).coordinate_system_definition = "CH1903/LV03"
    doc.set_modelspace_vport(200, center=(600150, 200100))
    doc.saveas(sys.argv[1])


main()
