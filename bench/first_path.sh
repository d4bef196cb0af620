#!/bin/sh
# How fast a layer of points (1,000,000 of them, 20 MB) goes through one triangle, and in how much memory: the whole program, from
# its words to the written files. Prints, for each of three runs, points a second by the clock, and the peak of memory, also as a
# multiple of the layer. Points near each other are found on grids, so the time grows with their number, and not with its square.
# No part of the gate.
set -eu
points=${1:-1000000}
top=$(CDPATH='' cd -- "$(dirname -- "$0")/.." && pwd)
folder=$(mktemp -d)
trap 'rm -rf "$folder"' EXIT
cd "$folder"

# One triangle of 10 m, moved by 100 m and stretched by 2 mm.
printf '%s' '{"file_type":"triangulation_file","format_version":"1.1",' \
    '"transformed_components":["horizontal"],' \
    '"vertices_columns":["source_x","source_y","target_x","target_y"],' \
    '"triangles_columns":["idx_vertex1","idx_vertex2","idx_vertex3"],' \
    '"vertices":[[0,0,100,100],[10,0,110.002,100],[0,10,100,110]],"triangles":[[0,1,2]]}' > u.json

# Points on a grid of millimetres, in the square of 5 m that lies in the triangle.
awk -v points="$points" 'BEGIN {
    for (i = 0; i < points; i++) {
        x = i * 7919 % 5000
        y = int(i / 5000) * 13 % 5000
        printf "POINT (%d.%03d %d.%03d)\n", x / 1000, x % 1000, y / 1000, y % 1000
    }
}' > p.wkt

# The first run proves and builds the program where that is due, and is not counted.
"$top/tinmove" migrate --tin u.json --out out p.wkt > report
python3 - "$top/crates/tinmove/out/tinmove" "$points" <<'END'
import os, resource, subprocess, sys, time

program, points = sys.argv[1], int(sys.argv[2])
size = os.path.getsize("p.wkt")
print("points %d, bytes of the layer %d" % (points, size))
for run in 1, 2, 3:
    start = time.monotonic()
    with open("report", "w") as report:
        subprocess.run([program, "migrate", "--tin", "u.json", "--out", "out", "p.wkt"], check=True, stdout=report)
    seconds = time.monotonic() - start
    peak = resource.getrusage(resource.RUSAGE_CHILDREN).ru_maxrss
    print("run %d: %.2f s, %d points a second, %d KiB at most, %.1f times the layer"
        % (run, seconds, points / seconds, peak, peak * 1024 / size))
END
