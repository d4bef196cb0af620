#!/bin/sh
# Lists each feature of a layer that is not wholly inside the source triangles, with the parts that
# are outside. tinmove names the first segment alone. With --inverse it is the target triangles, for
# a layer that is carried back.
# usage: outside.sh [--inverse] TIN.json SOURCE LAYER RESULT.geojson
# SOURCE is a file that ogr2ogr reads: no .wkt, and no list of points.
# RESULT is a collection without features where nothing is outside; one that is there is replaced.
# GDAL computes in floating point, so what is outside by less than a thousandth of a millimetre may
# be missing. Needs ogr2ogr with SpatiaLite (Debian: gdal-bin) and jq.
# Status 2: a word or a file is refused, and RESULT is as it was.
set -eu
refuse() { printf 'outside.sh: %s\n' "$1" >&2; exit 2; }
frame=source
if [ "${1-}" = --inverse ]; then frame=target; shift; fi
[ $# -eq 4 ] || refuse 'usage: outside.sh [--inverse] TIN.json SOURCE LAYER RESULT.geojson'
tin=$1 source=$2 layer=$3 result=$4
[ -f "$tin" ] || refuse "$tin: no file"
case $layer in -*) refuse "a layer whose name begins with - cannot be named to ogr2ogr: $layer" ;; esac
case $source in -*) source=./$source ;; esac
folder=$(mktemp -d)
trap 'rm -rf -- "$folder"' EXIT
trap 'exit 130' INT
trap 'exit 143' TERM
# Both get the same frame without a name, since SpatiaLite compares no geometries of different ones.
plane='LOCAL_CS["plane",UNIT["metre",1]]'
jq -c --arg frame "$frame" '
    (.vertices_columns | index($frame + "_x")) as $x | (.vertices_columns | index($frame + "_y")) as $y
    | (.triangles_columns | [index("idx_vertex1", "idx_vertex2", "idx_vertex3")]) as $columns
    | .vertices as $vertices
    | { type: "FeatureCollection", features: [ .triangles[] as $row
        | [ $columns[] | $vertices[$row[.]] | [ .[$x], .[$y] ] ] as $ring
        | { type: "Feature", properties: {}, geometry: { type: "Polygon", coordinates: [ $ring + [ $ring[0] ] ] } } ] }' \
    <"$tin" >"$folder/triangles.geojson" 2>"$folder/said" || refuse "$tin: no triangulation: tinmove check says what is wrong"
{
    ogr2ogr -q -f GPKG -a_srs "$plane" -lco GEOMETRY_NAME=geom "$folder/both.gpkg" "$folder/triangles.geojson" -nln triangles &&
        ogr2ogr -q -f GPKG -a_srs "$plane" -dim XY -lco GEOMETRY_NAME=geom -append "$folder/both.gpkg" "$source" "$layer" -nln layer
} 2>"$folder/said" || refuse "$source, layer $layer: $(sed -n '/[^ ]/{p;q;}' "$folder/said")"
ogr2ogr -q -f GeoJSON -lco COORDINATE_PRECISION=3 "$folder/outside.geojson" "$folder/both.gpkg" -dialect SQLite -nln outside -sql '
    WITH region AS (SELECT ST_Union(geom) AS geom FROM triangles)
    SELECT ST_Difference(layer.geom, region.geom) AS geom, layer.* FROM layer, region
    WHERE NOT ST_CoveredBy(layer.geom, region.geom)' 2>"$folder/said" || refuse "$source: $(sed -n '/[^ ]/{p;q;}' "$folder/said")"
# Of no features GDAL writes no file, or an empty one.
[ -s "$folder/outside.geojson" ] || echo '{ "type": "FeatureCollection", "features": [] }' >"$folder/outside.geojson"
count=$(jq '.features | length' "$folder/outside.geojson")
{ cp -- "$folder/outside.geojson" "$result.part" && mv -- "$result.part" "$result"; } ||
    { rm -f -- "$result.part"; refuse "$result: it cannot be written"; }
echo "features not wholly inside: $count"
