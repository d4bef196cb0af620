#!/bin/sh
# Reads a layer of GeoJSON (60 MB, a FeatureCollection of lines of 20 points in the layout of ogr2ogr) to its sheet, carries it
# through one triangle, and writes it: how fast, and in how much memory, as layer_frame.sh says. No part of the gate.
set -eu
size=${1:-60}
rounds=${2:-5}
. "$(dirname -- "$0")/layer_frame.sh"
build GeoJson made.geojson gj_layer
python3 - "$size" "$folder/$layer" <<'END'
import sys
most = int(sys.argv[1]) * 1000000
with open(sys.argv[2], 'w') as f:
    f.write('{\n"type": "FeatureCollection",\n"name": "roads",\n"crs": { "type": "name", "properties": { "name": "urn:ogc:def:crs:EPSG::21781" } },\n"features": [\n')
    written, k = 0, 0
    while written < most:
        x, y = 600000 + k * 7919 % 80000, 200000 + k * 104729 % 80000
        line = ', '.join('[ %d.%03d, %d.%03d ]' % (x + 3 * i, (k + 7 * i) % 1000, y + 2 * i, (3 * k + i) % 1000) for i in range(20))
        row = '{ "type": "Feature", "properties": { "id": %d, "name": "road %d" }, "geometry": { "type": "LineString", "coordinates": [ %s ] } }' % (k, k, line)
        f.write((',\n' if k else '') + row)
        written += len(row) + 2
        k += 1
    f.write('\n]\n}\n')
END
measure_reading
measure_all 'reading, carrying and writing' \
    '[500000,100000,500100,100100],[900000,100000,900108,100100],[500000,500000,500100,500100]' '[0,1,2]'
