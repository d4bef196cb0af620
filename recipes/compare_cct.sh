#!/bin/sh
# Compares the points that tinmove writes with those of PROJ's cct, and says how far they are apart.
# usage: compare_cct.sh TIN.json POINTS.wkt     one POINT (x y) a line
#        compare_cct.sh TIN.json POINTS.txt     one point with its height, x y z, a line
# tinmove rounds to whole millimetres, so up to half a millimetre on an axis is rounding's.
# Needs cct (Debian: proj-bin), awk and tinmove, or the program that TINMOVE names.
# Status 0: at most 0.501 mm apart; 1: more; 2: a word or a file is refused.
set -eu
refuse() { printf 'compare_cct.sh: %s\n' "$1" >&2; exit 2; }
[ $# -eq 2 ] || refuse 'usage: compare_cct.sh TIN.json POINTS'
tin=$1 points=$2
folder=$(mktemp -d)
trap 'rm -rf -- "$folder"' EXIT
trap 'exit 130' INT
trap 'exit 143' TERM
case $points in
    *.[wW][kK][tT])
        mode=migrate count=2 fill='-z 0 -t 0' form='POINT (x y)'
        numbers() { sed -n 's/^ *POINT *(\(.*\)).*/\1/p' <"$1"; }
        ;;
    *)
        mode=heights count=3 fill='-t 0' form='x y z'
        numbers() { awk 'NF { print $1, $2, $3 }' <"$1"; }
        ;;
esac
# PROJ reads blanks in a name as the end of a word, and so gets a name without any.
case $tin in /*) ;; *) tin=$PWD/$tin ;; esac
ln -s -- "$tin" "$folder/tin.json"

"${TINMOVE:-tinmove}" "$mode" --tin "$tin" --out "$folder/carried" -- "$points" >"$folder/report" ||
    [ $? -eq 1 ] || refuse "$points: $(head -n 1 "$folder/report")"
numbers "$points" >"$folder/before"
[ -s "$folder/before" ] || refuse "$points: no line is $form"
# shellcheck disable=SC2086
cct -d 6 $fill +proj=tinshift "+file=$folder/tin.json" <"$folder/before" >"$folder/by_cct"
numbers "$folder/carried/$(basename -- "$points")" | paste -d ' ' - "$folder/by_cct" | awk -v "count=$count" '
    function size(v) { return v < 0 ? -v : v }
    { for (axis = 1; axis <= count; axis++) { far = size($axis - $(axis + count)) * 1000; most = far > most ? far : most } }
    END { printf "%d points, at most %.3f mm apart on an axis\n", NR, most; exit most > 0.501 }'
