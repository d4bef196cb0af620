#!/bin/sh
# Reads layers of well-known text to their sheets, carries them through one triangle, and writes them: how fast, and in how much
# memory, as layer_frame.sh says. The first has 524,288 lines of two points (17.8 MB), the second a million points (30 MB).
# No part of the gate.
set -eu
lines=${1:-524288}
rounds=${2:-5}
points=${3:-1000000}
. "$(dirname -- "$0")/layer_frame.sh"
build Wkt made.wkt wkt_layer
# Lines of up to 0.5 m in the square of 5 m that lies in the triangle.
awk -v lines="$lines" 'BEGIN {
    for (i = 0; i < lines; i++) {
        x = i * 7919 % 4500
        y = int(i / 4500) * 13 % 4500
        printf "LINESTRING (%d.%03d %d.%03d, %d.%d %d.%d)\n", x / 1000, x % 1000, y / 1000, y % 1000,
            x / 1000, x % 1000 / 100, y / 1000, y % 1000 / 100
    }
}' > "$folder/$layer"
measure_reading
measure_all 'reading, carrying and writing lines' '[0,0,100,100],[10,0,110.002,100],[0,10,100,110]' '[0,1,2]'
# Points in the square of 80 km that lies in the triangle.
awk -v points="$points" 'BEGIN {
    for (i = 0; i < points; i++) {
        x = 600000000 + i * 7919 % 80000000
        y = 200000000 + i * 104729 % 80000000
        printf "POINT (%d.%03d %d.%03d)\n", x / 1000, x % 1000, y / 1000, y % 1000
    }
}' > "$folder/$layer"
measure_reading
measure_all 'reading, carrying and writing points' \
    '[600000,200000,600100,200100],[800000,200000,800108,200100],[600000,400000,600100,400100]' '[0,1,2]'
