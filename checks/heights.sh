#!/usr/bin/env bash
# Real files with heights, written by ogr2ogr and by ezdxf, are carried, and open again with the
# heights that a person works out: at the crossing, half way, the mean of both ends.
# usage: checks/heights.sh [PROGRAM]     PROGRAM is tinmove, else the launcher at the top
# Needs ogr2ogr and ezdxf (Debian: gdal-bin, python3-ezdxf).
# The last line is 'files with heights open again'; the status is 1 where one differs.
set -eu
top=$(cd -- "$(dirname -- "$0")/.." && pwd)
program=${1:-$top/tinmove}
case $program in /*) ;; *) program=$PWD/$program ;; esac
folder=$(mktemp -d)
trap 'rm -rf "$folder"' EXIT
cd "$folder"
cp "$top/crates/tinmove/data/s.json" .
bad=0

# Says what was wanted where the text is another.
wanted() {
    if [ "$2" != "$3" ]; then
        printf '%s: %s, and not %s\n' "$1" "$2" "$3"
        bad=1
    fi
}

printf 'id,WKT\n1,"LINESTRING Z (10 0 1, 0 10 2)"\n2,"POINT Z (5 0 484.91)"\n' >lines.csv
ogr2ogr -f GeoJSON -lco COORDINATE_PRECISION=3 lines.geojson lines.csv -oo GEOM_POSSIBLE_NAMES=WKT \
    -oo KEEP_GEOM_COLUMNS=NO
"$program" migrate --tin s.json --out carried lines.geojson >report 2>/dev/null
ogr2ogr -f CSV -lco GEOMETRY=AS_WKT again.csv carried/lines.geojson
wanted 'a line of ogr2ogr' "$(grep -o 'LINESTRING Z ([^)]*)' again.csv)" \
    'LINESTRING Z (110 100 1,105.002 105.002 1.5,100 110 2)'
wanted 'a point of ogr2ogr' "$(grep -o 'POINT Z ([^)]*)' again.csv)" 'POINT Z (105 100 484.91)'

/usr/bin/python3 - <<'END'
import ezdxf
drawing = ezdxf.new("R2010")
space = drawing.modelspace()
space.add_line((10, 0, 1), (0, 10, 2))
space.add_line((10, 0, 7), (0, 10, 7))
drawing.saveas("lines.dxf")
END
"$program" migrate --tin s.json --out carried lines.dxf >report 2>/dev/null || [ $? -eq 1 ]
wanted 'lines of ezdxf' "$(/usr/bin/python3 - <<'END'
import ezdxf
for line in ezdxf.readfile("carried/lines.dxf").modelspace().query("LINE"):
    print(*(f"{number:.3f}" for end in (line.dxf.start, line.dxf.end) for number in end))
END
)" '110.000 100.000 1.000 105.002 105.002 1.500
105.002 105.002 1.500 100.000 110.000 2.000
110.000 100.000 7.000 105.002 105.002 7.000
105.002 105.002 7.000 100.000 110.000 7.000'
[ "$bad" -eq 0 ] && echo 'files with heights open again'
exit "$bad"
