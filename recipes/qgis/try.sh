#!/bin/sh
# Tries both Processing scripts in QGIS without a window, over the map of examples/. No part of the gate.
# usage: recipes/qgis/try.sh [FOLDER]     FOLDER has tinmove and tinplaces; else the launchers are taken
# Needs Debian's qgis and python3-qgis (tried with 3.22) and gdal-bin. The last line is 'QGIS: all ran';
# the status is 1 where something failed.
set -eu
here=$(CDPATH='' cd -- "$(dirname -- "$0")" && pwd)
programs=$(CDPATH='' cd -- "${1:-$here/../..}" && pwd)
for tool in qgis_process.bin ogr2ogr; do
    command -v $tool >/dev/null || { echo "recipes/qgis/try.sh: $tool is missing" >&2; exit 1; }
done
folder=$(mktemp -d "${TMPDIR:-/tmp}/try qgis.XXXXXX")
trap 'rm -rf -- "$folder"' EXIT
export QT_QPA_PLATFORM=offscreen HOME="$folder/home" XDG_RUNTIME_DIR="$folder"
chmod 700 "$folder"
cp -R -- "$here/../../examples" "$folder/examples"
cd -- "$folder"
ogr2ogr -f GPKG map.gpkg examples/parcels.geojson -preserve_fid
printf 'WKT,name\n"%s",main\n' "$(cat examples/roads.wkt)" >roads.csv
ogr2ogr -f GPKG -update map.gpkg roads.csv -nln roads -nlt LINESTRINGZ -a_srs EPSG:21781 -oo GEOM_POSSIBLE_NAMES=WKT -oo KEEP_GEOM_COLUMNS=NO

echo '== As a user runs it: by qgis_process'
scripts=$HOME/.local/share/QGIS/QGIS3/profiles/default/processing/scripts
mkdir -p -- "$scripts"
cp -- "$here/carry_layers.py" "$here/check_triangulation.py" "$scripts"
# The wrapper qgis_process of Debian 12 adds an option that its program does not know.
qgis_process.bin run script:tinmove_carry_layers --LAYERS="$folder/map.gpkg|layername=parcels" --LAYERS="$folder/map.gpkg|layername=roads" \
    --TIN="$folder/examples/tin.json" --CRS=EPSG:2056 --FOLDER="$programs" --OUTPUT="$folder/by_process.gpkg" >log 2>&1 || { cat log; exit 1; }
grep -A1 -e '^CHANGES' -e '^OUTPUT' log
[ "$(ogrinfo -ro -so by_process.gpkg tinmove_changes | sed -n 's/^Feature Count: //p')" = 4 ] || { cat log; echo 'FAILED: the changes'; exit 1; }
qgis_process.bin run script:tinmove_check_triangulation --TIN="$folder/examples/tin.json" --SOURCE_CRS=EPSG:21781 --TARGET_CRS=EPSG:2056 --FOLDER="$programs" \
    --SOURCE_FAULTS="$folder/s.gpkg" --TARGET_FAULTS="$folder/t.gpkg" >log 2>&1 || { cat log; exit 1; }
grep '^sound: corners 9 triangles 8 inexact 0' log || { cat log; echo 'FAILED: the check'; exit 1; }

echo '== Values, selected features, refusals, Cancel, faults'
/usr/bin/python3 "$here/try.py" "$programs" "$folder/map.gpkg" "$folder/examples/tin.json" "$folder"
echo 'QGIS: all ran'
