#!/bin/sh
# Carries a layer of any file that GDAL reads as a drawing in DXF.
# usage: drawing.sh TIN.json SOURCE LAYER RESULT.dxf
# GDAL writes areas as HATCH, which tinmove does not read; -nlt MULTILINESTRING writes all their rings
# as polylines. Paths with heights are LINEs while they are carried, and polylines in space again. A
# drawing has no columns: those of the layer are left out. Where the drawing is refused, it is kept.
# A layer whose kind is one with arcs is refused: GDAL would make steps of 4 degrees of them.
# Needs ogr2ogr (Debian: gdal-bin), for heights ezdxf (python3-ezdxf), and tinmove, or the program that
# TINMOVE names. Status 0 and 1 are those of tinmove; after any other one there is no RESULT.
set -eu
refuse() { printf 'drawing.sh: %s\n' "$1" >&2; exit "${2:-2}"; }
whole() { case $1 in /*) printf '%s' "$1" ;; *) printf '%s' "$PWD/$1" ;; esac; }
[ $# -eq 4 ] || refuse 'usage: drawing.sh TIN.json SOURCE LAYER RESULT.dxf'
here=$(CDPATH='' cd -- "$(dirname -- "$0")" && pwd)
tin=$(whole "$1") source=$2 layer=$3 result=$(whole "$4")
program=${TINMOVE:-tinmove}
case $program in /*) ;; */*) program=$PWD/$program ;; esac
[ -f "$tin" ] || refuse "$1: no file" 6
folder=$(mktemp -d -- "$result-XXXXXX") || refuse "$4: its folder cannot be written" 7
kept=
trap '[ -n "$kept" ] || rm -rf -- "$folder"' EXIT
trap 'exit 130' INT
trap 'exit 143' TERM
# The report names the drawing by the layer's name, and the triangulation by its own.
ln -s -- "$tin" "$folder/tin.json"
name=$(printf '%s' "$layer" | tr '/[:cntrl:]' '_' | sed 's/^-/_/').dxf
case $layer in -*) refuse "a layer whose name begins with - cannot be named to ogr2ogr: $layer" ;; esac

words='-nlt MULTILINESTRING'
kind=$(ogrinfo -ro -so "$source" "$layer" 2>/dev/null | sed -n 's/^Geometry: //p')
case $kind in
    *Point*) words= ;;
    *Curve* | *'Circular String'* | Surface | *' Surface')
        refuse "$source, layer $layer: $kind: make straight pieces first, by ogr2ogr -nlt CONVERT_TO_LINEAR" 4 ;;
esac
# A row without a geometry is not drawn, and has no other failure; a column is not created.
# shellcheck disable=SC2086
ogr2ogr -q -f DXF $words -explodecollections -skipfailures "$folder/$name" "$source" "$layer" 2>"$folder/said" || true
wrong=$(sed -n -e '/^ERROR/p' -e '/^FAILURE/{n;p;}' "$folder/said" | grep -v -e 'not created' -e "geometry 'None'" | head -n 1 || true)
[ -n "$wrong" ] || [ -s "$folder/$name" ] || wrong='it has no geometry'
[ -z "$wrong" ] || refuse "$source, layer $layer: no drawing could be made: $wrong" 6
# Only what is in space is a POLYLINE in a drawing of GDAL.
is_tall=$(grep -c '^POLYLINE' "$folder/$name" || true)
if [ "$is_tall" -gt 0 ]; then
    "$here/readable_drawing.py" "$folder/$name" "$folder/readable.dxf" >"$folder/said"
    mv -- "$folder/readable.dxf" "$folder/$name"
fi
status=0
(cd -- "$folder" && exec "$program" migrate --tin tin.json --out carried -- "$name") || status=$?
if [ "$status" -gt 1 ]; then
    kept=yes
    refuse "the drawing that was handed to tinmove is kept: $folder/$name" "$status"
fi
if [ "$is_tall" -gt 0 ]; then
    "$here/joined_drawing.py" "$folder/carried/$name" "$folder/joined.dxf" >"$folder/said"
    mv -- "$folder/joined.dxf" "$folder/carried/$name"
fi
mv -- "$folder/carried/$name" "$result"
exit "$status"
