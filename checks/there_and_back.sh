#!/bin/sh
# What a map of parcels meets there and back: inserted vertices, changes, and whether the same bytes come
# back once recipes/geopackage.py has taken the inserted vertices out.
# usage: checks/there_and_back.sh [TINMOVE TINPLACES [COLUMNS ROWS]]     the launchers, and 2,276 parcels
# Needs GDAL with Python (Debian: gdal-bin, python3-gdal). No part of the gate. The last line is 'what
# went came back'; the status is 1 where it did not.
set -eu
top=$(CDPATH='' cd -- "$(dirname -- "$0")/.." && pwd)
whole() { case $1 in /*) printf '%s' "$1" ;; *) printf '%s' "$PWD/$1" ;; esac; }
TINMOVE=$(whole "${1:-$top/tinmove}") TINPLACES=$(whole "${2:-$top/tinplaces}")
export TINMOVE TINPLACES
folder=$(mktemp -d)
trap 'rm -rf -- "$folder"' EXIT
cd -- "$folder"
python3 "$top/checks/parcels.py" . "${3:-45}" "${4:-44}"
"$top/recipes/triangulate.py" points.csv tin.json
ogr2ogr -f GPKG map.gpkg parcels.geojson
geopackage() { "$top/recipes/geopackage.py" "$@" >/dev/null || [ $? -eq 1 ]; }
geopackage --cert certificates tin.json map.gpkg 2056 there.gpkg
"$top/recipes/geopackage.py" --verify certificates tin.json map.gpkg 2056 there.gpkg
geopackage --inverse --without certificates tin.json there.gpkg 21781 back.gpkg
for way in there back; do
    awk -v way=$way '
        /^layer / { segments = $6; pieces = $8 }
        /^change / { kinds[$4 " " $5]++; count++ }
        END {
            printf "%s: segments %d, inserted vertices %d, changes %d\n", way, segments, pieces - segments, count
            for (kind in kinds) printf "  %5d %s\n", kinds[kind], kind
        }' $way.gpkg.report
done
python3 - <<'END_OF_PYTHON'
import sqlite3, sys
old, new = (sqlite3.connect(it).execute("SELECT * FROM parcels ORDER BY fid").fetchall() for it in ("map.gpkg", "back.gpkg"))
same = sum(a == b for a, b in zip(old, new))
print(f"rows {len(old)}, the same bytes {same}")
sys.exit(same != len(old) or len(old) != len(new))
END_OF_PYTHON
echo 'what went came back'
