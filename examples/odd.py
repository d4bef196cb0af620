#!/usr/bin/python3
"""Writes a GeoPackage with what goes wrong most easily: odd names, all types of columns, NULL, empty
geometries, large fids.

usage: odd.py RESULT.gpkg      Needs GDAL's Python module (Debian: python3-gdal).
"""
import sys

from osgeo import ogr, osr

ogr.UseExceptions()
NAME = 'we "ird $(touch HARM)/ü\n x'
KINDS = {
    "int16": (ogr.OFTInteger, ogr.OFSTInt16),
    "int": (ogr.OFTInteger, ogr.OFSTNone),
    "int64": (ogr.OFTInteger64, ogr.OFSTNone),
    "bool": (ogr.OFTInteger, ogr.OFSTBoolean),
    "real": (ogr.OFTReal, ogr.OFSTNone),
    "float": (ogr.OFTReal, ogr.OFSTFloat32),
    "text": (ogr.OFTString, ogr.OFSTNone),
    "json": (ogr.OFTString, ogr.OFSTJSON),
    "date": (ogr.OFTDate, ogr.OFSTNone),
    "time": (ogr.OFTDateTime, ogr.OFSTNone),
    "binary": (ogr.OFTBinary, ogr.OFSTNone),
}
ROWS = [
    (7, "POINT (600001.5 200002.25)", {"int16": -3, "int": 5, "int64": 2**60, "bool": 1, "real": 0.1, "float": 0.5,
        "text": "03001", "json": '{"a": 1}', "date": "2020/02/29", "time": "2020/02/29 12:13:14.5+02", "binary": "00FF"}),
    (19, None, {}),
    (23, "POLYGON EMPTY", {"text": ""}),
    (2**40, "LINESTRING Z (599900 200100 430, 600100 200100 431.5)", {"text": "line\nfeed 'q' \"d\""}),
    (2**40 + 1, "MULTIPOLYGON (((600100 200100,600110 200100,600110 200110,600100 200100)),"
        "((600200 200100,600210 200100,600210 200110,600200 200100)))", {}),
    (2**40 + 2, "MULTIPOINT Z ((600100 200100 4),(600200 200100 5))", {}),
    (2**40 + 3, "GEOMETRYCOLLECTION (POINT (600100 200100),LINESTRING (600100 200100,600200 200100))", {}),
]


def main():
    if len(sys.argv) != 2:
        sys.exit("odd.py: usage: odd.py RESULT.gpkg")
    frame = osr.SpatialReference()
    frame.ImportFromEPSG(21781)
    data = ogr.GetDriverByName("GPKG").CreateDataSource(sys.argv[1])
    layer = data.CreateLayer(NAME, frame, ogr.wkbUnknown, ['GEOMETRY_NAME=the "geom'])
    for name, (kind, inner) in KINDS.items():
        field = ogr.FieldDefn(name, kind)
        field.SetSubType(inner)
        layer.CreateField(field)
    for fid, text, values in ROWS:
        row = ogr.Feature(layer.GetLayerDefn())
        row.SetFID(fid)
        for name, value in values.items():
            if name == "binary":
                row.SetFieldBinaryFromHexString(name, value)
            else:
                row.SetField(name, value)
        if text:
            row.SetGeometry(ogr.CreateGeometryFromWkt(text))
        layer.CreateFeature(row)
    plain = data.CreateLayer("plain", None, ogr.wkbNone)
    plain.CreateField(ogr.FieldDefn("key", ogr.OFTString))
    row = ogr.Feature(plain.GetLayerDefn())
    row["key"] = "value"
    plain.CreateFeature(row)


main()
