#!/bin/sh
# Reads a drawing of LINE and LWPOLYLINE entities (30 MB, lines that end in a carriage return and a line feed, handles, a header
# with the next one) to its sheet, carries it, and writes it: through one triangle, which leaves it whole, and through two, whose
# common side each LINE crosses. How fast, and in how much memory, as layer_frame.sh says. No part of the gate.
set -eu
size=${1:-30}
rounds=${2:-5}
. "$(dirname -- "$0")/layer_frame.sh"
build Dxf made.dxf dxf_pairs dxf_entities dxf_copies dxf_layer
# Pairs as usual writers lay them out. Each LINE crosses the line where x is 640000, and each LWPOLYLINE, of ten vertices, ends
# west of it.
python3 - "$size" "$folder/$layer" <<'END'
import sys

most = int(sys.argv[1]) * 1000000

def pair(code, value):
    return '%3d\r\n%s\r\n' % (code, value)

def metres(mm):
    return ('%d.%03d' % divmod(mm, 1000)).rstrip('0').ljust(8, '0')

def entity(kind, number, layer, marker, fields):
    return (pair(0, kind) + pair(5, '%X' % number) + pair(330, '1F') + pair(100, 'AcDbEntity') + pair(8, layer)
        + pair(100, marker) + ''.join(pair(code, value) for code, value in fields))

def line(k, y):
    fields = [(10, metres(640000000 - 1 - k * 7919 % 30000)), (20, metres(y)), (30, '0.0'),
        (11, metres(640000000 + 1 + k * 104729 % 30000)), (21, metres(y + k * 31 % 20000)), (31, '0.0')]
    return entity('LINE', 256 + 2 * k, 'PARCEL', 'AcDbLine', fields)

def polyline(k, y):
    fields = [(90, '%9d' % 10), (70, '%6d' % 0), (43, '0.0')]
    for i in range(10):
        fields += [(10, metres(639000000 + k * 7919 % 900000 + 3001 * i)), (20, metres(y + 2003 * i))]
    return entity('LWPOLYLINE', 257 + 2 * k, 'ROAD', 'AcDbPolyline', fields)

body, written, k = [], 0, 0
while written < most:
    y = 200000000 + k * 1237 % 80000000
    body.append(line(k, y) + polyline(k, y))
    written += len(body[-1])
    k += 1
with open(sys.argv[2], 'w', newline='') as f:
    f.write(pair(0, 'SECTION') + pair(2, 'HEADER') + pair(9, '$ACADVER') + pair(1, 'AC1015')
        + pair(9, '$HANDSEED') + pair(5, '%X' % (256 + 2 * k)) + pair(0, 'ENDSEC')
        + pair(0, 'SECTION') + pair(2, 'ENTITIES') + ''.join(body) + pair(0, 'ENDSEC') + pair(0, 'EOF'))
END
measure_reading
measure_all 'reading, carrying through one triangle and writing' \
    '[500000,100000,500100,100100],[900000,100000,900108,100100],[500000,500000,500100,500100]' '[0,1,2]'
measure_all 'reading, carrying through two triangles and writing' \
    '[640000,100000,640100,100100],[640000,500000,640108,500100],[500000,300000,500100,300100],[800000,300000,800100,300100]' \
    '[0,1,2],[0,3,1]'
