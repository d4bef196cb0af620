#!/bin/sh
# Runs each recipe over the map of examples/, compares what it wrote by values, and shows what it
# prints. No part of the gate.
# usage: recipes/try.sh [TINMOVE [TINPLACES [TINLEDGER]]]     the programs, else the launchers above
# this folder
# Needs Debian's gdal-bin, proj-bin, python3-gdal, python3-ezdxf, jq and sqlite3; dpkg-dev and lintian
# for the package, which is left out without them. What is wanted is known by hand, or comes from PROJ's cct.
# The last line is 'all recipes ran'; the status is 1 where one failed.
set -eu
here=$(CDPATH='' cd -- "$(dirname -- "$0")" && pwd)
whole() { case $1 in /*) printf '%s' "$1" ;; *) printf '%s' "$PWD/$1" ;; esac; }
TINMOVE=$(whole "${1:-$here/../tinmove}") TINPLACES=$(whole "${2:-$here/../tinplaces}")
TINLEDGER=$(whole "${3:-$here/../tinledger}")
export TINMOVE TINPLACES TINLEDGER
# The package takes programs, and finds those that the launchers built by itself.
package() { if [ "$built" = yes ]; then shown 0 deb.sh "$@"; else (unset TINMOVE TINPLACES && shown 0 deb.sh "$@"); fi; }
built=no
[ $# -lt 2 ] || built=yes
for tool in ogr2ogr cct jq sqlite3 /usr/bin/python3; do
    command -v $tool >/dev/null || { echo "recipes/try.sh: $tool is missing" >&2; exit 1; }
done
# A name with what a shell, an option or a message could trip over.
folder=$(mktemp -d "${TMPDIR:-/tmp}/try \"recipes\" \$(touch HARM) d'é.XXXXXX")
trap 'rm -rf -- "$folder"' EXIT
mkdir -- "$folder/map"
cd -- "$folder/map"
cp -R -- "$here/../examples" examples
tin=examples/tin.json

failed() { echo "FAILED: $*"; exit 1; }
say() { printf '\n$ %s\n' "$*"; }
# Runs a recipe, shows it, and takes the first word for the status that is wanted.
shown() {
    wanted=$1
    shift
    say "$@"
    recipe=$here/$1
    shift
    status=0
    "$recipe" "$@" || status=$?
    echo "status $status"
    [ "$status" = "$wanted" ] || failed "the status is not $wanted"
}
# The same of a recipe that refuses: one line on standard error begins with its name, and no file is new.
refused() {
    ls -A >../before
    shown "$@" 2>../said
    cat ../said
    shift
    [ "$(grep -c "^$1: " ../said)" = 1 ] || failed "not one line of $1"
    ! grep -q Traceback ../said || failed "a traceback"
    ls -A >../after
    cmp -s ../before ../after || failed "there are new files: $(diff ../before ../after)"
}
run() { say tinmove "$@"; status=0; "$TINMOVE" "$@" || status=$?; [ "$status" -le 1 ] || failed "status $status"; }
is() { [ "$2" = "$3" ] || failed "$1 is $2, and should be $3"; }
same() { cmp -- "$1" "$2" || failed "$1 and $2 are not the same bytes"; }
values() { say values.py "$@"; "$here/values.py" "$@" || failed "the values"; }
sql() { /usr/bin/python3 -c 'import sqlite3, sys; print("\n".join("|".join(map(str, it)) for it in sqlite3.connect(sys.argv[1]).execute(sys.argv[2])))' "$@"; }

echo '== README: its second block of commands'
awk '/^A small map in all three formats/ { found = 1 } found && /^    / { inside = 1; print substr($0, 5); next } inside { exit }' "$here/../README.md" >block.sh
[ -s block.sh ] || failed 'README has no such block'
mkdir readme && (
    cd readme && ln -s ../examples examples && ln -s "$here" recipes
    # shellcheck disable=SC2016
    printf '#!/bin/sh\nexec "$TINMOVE" "$@"\n' >tinmove && chmod +x tinmove
    # A layer that is in the GeoPackage before has to stay.
    mkdir carried && ogr2ogr -f GPKG carried/map.gpkg examples/parcels.geojson -nln before
    while read -r line; do
        say "$line"
        status=0
        sh -c "$line" || status=$?
        [ "$status" -le 1 ] || failed "status $status"
    done <../block.sh
)
is 'the number of carried parcels' "$(ogrinfo -ro -so readme/carried/map.gpkg parcels | sed -n 's/^Feature Count: //p')" 4
is 'the layer that was there' "$(ogrinfo -ro -so readme/carried/map.gpkg before | sed -n 's/^Feature Count: //p')" 4
rm -rf readme block.sh

echo
echo '== A triangulation from control points'
shown 0 triangulate.py examples/points.csv made.json
same made.json $tin
run check --tin made.json
awk -F, '{ print $5 ";" $1 ";" $3 ";" $4 ";" $2 }' examples/points.csv >other_order.csv
shown 0 triangulate.py other_order.csv made.json
same made.json $tin
printf 'x,y,X,Y\n1,2,2 599 999.8,4\n' >wrong.csv && refused 2 triangulate.py wrong.csv new.json
printf 'x,y,X,Y\n1,2,,4\n' >wrong.csv && refused 2 triangulate.py wrong.csv new.json
printf 'x,y,X\n1,2,3\n' >wrong.csv && refused 2 triangulate.py wrong.csv new.json
printf 'x,y,X,Y\n1,2,3,4\n2,3,4,5\n' >wrong.csv && refused 2 triangulate.py wrong.csv new.json
printf 'name,x,y,X,Y\nB\344r,1,2,3,4\n' >wrong.csv && refused 2 triangulate.py wrong.csv new.json
rm -f wrong.csv other_order.csv

echo
echo '== All layers of a GeoPackage'
ogr2ogr -f GPKG map.gpkg examples/parcels.geojson -preserve_fid
printf 'WKT,name\n"%s",main\n' "$(cat examples/roads.wkt)" >roads.csv
ogr2ogr -f GPKG -update map.gpkg roads.csv -nln roads -nlt LINESTRINGZ -a_srs EPSG:21781 -oo GEOM_POSSIBLE_NAMES=WKT -oo KEEP_GEOM_COLUMNS=NO
shown 1 geopackage.py --cert certificates $tin map.gpkg 2056 map_lv95.gpkg
values rows map.gpkg map_lv95.gpkg
values vertices $tin map.gpkg map_lv95.gpkg parcels
values vertices $tin map.gpkg map_lv95.gpkg roads
is 'the frames' "$(sql map_lv95.gpkg 'SELECT table_name, srs_id FROM gpkg_geometry_columns ORDER BY 1')" "$(printf 'parcels|2056\nroads|2056\ntinmove_changes|2056')"
is 'the kinds' "$(sql map_lv95.gpkg 'SELECT table_name, geometry_type_name, z FROM gpkg_geometry_columns ORDER BY 1')" "$(printf 'parcels|POLYGON|0\nroads|LINESTRING|1\ntinmove_changes|POINT|0')"
is 'the fids' "$(sql map_lv95.gpkg 'SELECT fid, owner FROM parcels ORDER BY 1')" "$(printf '7|Bär\n19|Kuhn & "Söhne"\n23|None\n1000001|')"
# By hand: the parcels 7 and 19 meet the long side of 23 inside of it, each along a side and at an end.
is 'the changes' "$(sql map_lv95.gpkg 'SELECT DISTINCT first_layer, first_fid, second_layer, second_fid FROM tinmove_changes ORDER BY first_fid')" "$(printf 'parcels|7|parcels|23\nparcels|19|parcels|23')"
is 'the changes of the report' "$(grep -c '^change ' map_lv95.gpkg.report)" "$(sql map_lv95.gpkg 'SELECT count(*) FROM tinmove_changes')"
is 'the layers of the report' "$(sed -n 's/^layer.* name //p' map_lv95.gpkg.report)" "$(printf 'parcels.wkt\nroads.wkt')"
is 'what ogrinfo finds by the spatial index' "$(ogrinfo -ro -so -spat 2600210 1200060 2600230 1200070 map_lv95.gpkg parcels | sed -n 's/^Feature Count: //p')" 1
shown 0 geopackage.py --verify certificates $tin map.gpkg 2056 map_lv95.gpkg
cp map_lv95.gpkg moved.gpkg
ogrinfo -q moved.gpkg -sql "UPDATE parcels SET owner = 'x' WHERE fid = 7" >/dev/null
shown 10 geopackage.py --verify certificates $tin map.gpkg 2056 moved.gpkg
cp map_lv95.gpkg moved.gpkg
ogr2ogr -f GPKG -update -append moved.gpkg map_lv95.gpkg parcels -sql 'SELECT fid + 1 AS fid, geom, number, owner FROM parcels WHERE fid = 7' -nln parcels
shown 10 geopackage.py --verify certificates $tin map.gpkg 2056 moved.gpkg
shown 1 geopackage.py --inverse --without certificates $tin map_lv95.gpkg 21781 back.gpkg
is 'what came back of the parcels' "$(sql back.gpkg 'SELECT fid, hex(geom) FROM parcels ORDER BY 1')" "$(sql map.gpkg 'SELECT fid, hex(geom) FROM parcels ORDER BY 1')"
is 'what came back of the roads' "$(sql back.gpkg 'SELECT fid, hex(geom) FROM roads')" "$(sql map.gpkg 'SELECT fid, hex(geom) FROM roads')"
# In strips the same comes out.
say TINMOVE_RUN_BYTES=300 geopackage.py
TINMOVE_RUN_BYTES=300 "$here/geopackage.py" $tin map.gpkg 2056 strips.gpkg >report || [ $? -eq 1 ]
[ "$(grep -c '^tinmove report 1' strips.gpkg.report)" -gt 1 ] || failed 'one strip'
for layer in parcels roads tinmove_changes; do
    is "the layer $layer in strips" "$(sql strips.gpkg "SELECT * FROM $layer ORDER BY 1")" "$(sql map_lv95.gpkg "SELECT * FROM $layer ORDER BY 1")"
done
# With lines in place of points the same is said of each change.
cat >lines.sh <<'END'
#!/bin/sh
exec "$PLACES" --lines "$@"
END
chmod +x lines.sh
say 'geopackage.py with tinplaces --lines'
PLACES=$TINPLACES TINPLACES=$PWD/lines.sh "$here/geopackage.py" $tin map.gpkg 2056 form.gpkg >report || [ $? -eq 1 ]
for column in 'was, now, gap_mm' 'first_layer, first_fid, second_layer, second_fid'; do
    is "$column" "$(sql form.gpkg "SELECT $column FROM tinmove_changes ORDER BY fid")" "$(sql map_lv95.gpkg "SELECT $column FROM tinmove_changes ORDER BY fid")"
done
rm -f form.gpkg form.gpkg.report
for change in "UPDATE roads SET name = NULL" "CREATE TABLE other (one)" "UPDATE gpkg_contents SET identifier = 'x' WHERE table_name = 'roads'" "UPDATE roads SET geom = SetSRID(geom, 4326)"; do
    cp map_lv95.gpkg moved.gpkg
    ogrinfo -q moved.gpkg -sql "$change" >/dev/null
    shown 10 geopackage.py --verify certificates $tin map.gpkg 2056 moved.gpkg
done
cp map.gpkg view.gpkg
for change in 'CREATE VIEW seen AS SELECT * FROM parcels' \
    "INSERT INTO gpkg_contents (table_name, data_type, identifier, srs_id) VALUES ('seen', 'features', 'seen', 21781)" \
    "INSERT INTO gpkg_geometry_columns VALUES ('seen', 'geom', 'POLYGON', 21781, 0, 0)"; do
    ogrinfo -q view.gpkg -sql "$change" >/dev/null
done
refused 4 geopackage.py $tin view.gpkg 2056 new.gpkg
refused 2 geopackage.py $tin map.gpkg 2056 map_lv95.gpkg
refused 2 geopackage.py $tin map.gpkg 999999 new.gpkg
refused 2 geopackage.py $tin map.gpkg 2056 new.gpkg nowhere
refused 2 geopackage.py $tin map.gpkg LV95 new.gpkg
refused 6 geopackage.py $tin nowhere.gpkg 2056 new.gpkg
refused 6 geopackage.py $tin examples/roads.wkt 2056 new.gpkg
refused 7 geopackage.py $tin map.gpkg 2056 nowhere/new.gpkg
shown 5 geopackage.py --inverse $tin map.gpkg 2056 new.gpkg 2>said
cat said
kept=$(sed -n 's/^geopackage.py: layer parcels, fid 7, is line 1 of //p' said)
is 'the line that is refused' "$(sed -n 1p "$kept" | cut -c 1-28)" 'POLYGON ((600100 200050,6002'
rm -rf -- new.gpkg-* geopackage-*-refused

echo
echo '== Odd names, all types of columns, NULL, empty geometries'
examples/odd.py odd.gpkg 2>/dev/null
shown 1 geopackage.py --cert odd_certificates $tin odd.gpkg 2056 odd_lv95.gpkg
values rows odd.gpkg odd_lv95.gpkg 2>/dev/null
values vertices $tin odd.gpkg odd_lv95.gpkg 2>/dev/null
shown 0 geopackage.py --verify odd_certificates $tin odd.gpkg 2056 odd_lv95.gpkg
for kind in 'CIRCULARSTRING (600001 200001, 600002 200002, 600003 200001)' 'POINT M (600001 200001 5)'; do
    rm -f curve.gpkg
    printf 'WKT,name\n"%s",one\n' "$kind" >curve.csv
    ogr2ogr -f GPKG curve.gpkg curve.csv -oo GEOM_POSSIBLE_NAMES=WKT -oo KEEP_GEOM_COLUMNS=NO
    refused 4 geopackage.py $tin curve.gpkg 2056 new.gpkg
done

echo
echo '== There and back by files'
# What the program does to a text besides the numbers: three digits, and no blanks round positions.
plain() {
    sed -E -e 's/"crs": *(null|\{.*\}\}?)/"crs"/' -e ':a; s/([0-9]\.[0-9]{1,2})([],) ])/\10\2/; ta' "$1" | tr -d ' '
}
for name in roads.wkt parcels.geojson; do
    run migrate --tin $tin --out there --cert "examples/$name" >report
    run migrate --tin $tin --out back --cert --inverse "there/$name" >report
    shown 0 inserted_vertices.py "back/$name" "back/$name.cert" "again_$name"
    shown 0 inserted_vertices.py "again_$name" "there/$name.cert" "once_more_$name"
    plain "examples/$name" >wanted
    plain "once_more_$name" >found
    same found wanted
done
refused 2 inserted_vertices.py there/roads.wkt there/parcels.geojson.cert new.wkt
refused 2 inserted_vertices.py there/roads.wkt examples/roads.wkt new.wkt
refused 2 inserted_vertices.py examples/plan.dxf there/roads.wkt.cert new.dxf

echo
echo '== Drawings'
shown 1 drawing.sh $tin map.gpkg parcels parcels.dxf
values vertices $tin map.gpkg parcels.dxf parcels entities
shown 0 drawing.sh $tin map.gpkg roads roads.dxf
values vertices $tin map.gpkg roads.dxf roads entities
# shellcheck disable=SC2016
ogr2ogr -f GPKG one_name.gpkg odd.gpkg -nln odd -sql 'SELECT * FROM "we ""ird $(touch HARM)/ü
 x"' 2>/dev/null
shown 1 drawing.sh $tin one_name.gpkg odd odd.dxf
# Two points of their own and two of a MULTIPOINT, two areas, a line, and a line with heights. Where
# there are paths in space, each POINT has a height, 0 if it had none.
is 'the entities' "$(ogrinfo -ro -al odd.dxf | sed -n 's/^  \(POINT\( Z\)*\|LINESTRING\( Z\)*\) (.*/\1/p' | sort | uniq -c | tr -s ' \n' ' ')" ' 3 LINESTRING 1 LINESTRING Z 4 POINT Z '
shown 5 drawing.sh $tin map_lv95.gpkg parcels new.dxf
ls new.dxf-*/parcels.dxf
rm -rf -- new.dxf-*
refused 6 drawing.sh $tin map.gpkg nowhere new.dxf
run migrate --tin $tin --out carried examples/plan.dxf >report
is 'what was dropped' "$(sed -n 's/.* dropped \([0-9]*\) .*/\1/p' report)" 0
shown 0 drawing_views.py examples/plan.dxf carried/plan.dxf plan_lv95.dxf

# A drawing as people make them, with paths in space and blocks that reach far.
examples/drawing.py drawing.dxf
shown 0 readable_drawing.py --explode 10 drawing.dxf readable.dxf
run migrate --tin $tin --out carried readable.dxf >report
is 'what was dropped' "$(sed -n 's/.* dropped \([0-9]*\) .*/\1/p' report)" 0
shown 0 joined_drawing.py carried/readable.dxf joined.dxf
values drawing $tin joined.dxf
shown 0 drawing_views.py drawing.dxf joined.dxf drawing_lv95.dxf
[ "$(grep -c GEODATA drawing.dxf)" -gt 0 ] || failed 'the drawing has no GEODATA'
is 'the GEODATA that is left' "$(grep -B1 '^GEODATA' drawing_lv95.dxf | grep -c '^ *0$')" 0
values drawing $tin drawing_lv95.dxf
printf 'AC1027 and more' >dwg.dxf && refused 2 readable_drawing.py dwg.dxf new.dxf
head -n 300 examples/plan.dxf >cut.dxf && refused 2 readable_drawing.py cut.dxf new.dxf
refused 2 readable_drawing.py nowhere.dxf new.dxf
refused 2 readable_drawing.py --explode wide examples/plan.dxf new.dxf
refused 2 drawing_views.py examples/plan.dxf cut.dxf new.dxf

echo
echo '== Points that touch a line, made vertices of it'
shown 0 shared_vertices.py shared examples/parcels.geojson
run migrate --tin $tin --out snapped shared/parcels.geojson >report
is 'the number of changes' "$(sed -n 's/^changes //p' report)" 0

echo
echo '== A certificate, read by who trusts no prover'
run migrate --tin $tin --out lv95 --cert examples/parcels.geojson >report || [ $? -eq 1 ]
shown 0 check_certificate.py --tin $tin --source examples/parcels.geojson --written lv95/parcels.geojson \
    --cert lv95/parcels.geojson.cert >said
is 'what the check of the certificate says' "$(grep -c '^certified$' said)" 1

echo
echo '== What is outside, and PROJ'
sed 's/600300.0, 200184.0/610300.0, 200184.0/' examples/parcels.geojson >far.geojson
for number in 1 2; do
    shown 0 outside.sh $tin far.geojson parcels outside.geojson
    is "the feature outside, time $number" "$(jq -c '[.features[].properties.number]' outside.geojson)" '[3]'
done
shown 0 outside.sh $tin examples/parcels.geojson parcels outside.geojson
is 'the features outside' "$(jq '.features | length' outside.geojson)" 0
refused 2 outside.sh $tin map.gpkg nowhere new.geojson
refused 2 outside.sh examples/roads.wkt map.gpkg parcels new.geojson
awk 'BEGIN { srand(7); for (i = 0; i < 500; i++) printf "POINT (%.3f %.3f)\n", 590000 + 20000 * rand(), 190000 + 20000 * rand() }' >some.wkt
shown 0 compare_cct.sh $tin some.wkt
refused 2 compare_cct.sh $tin examples/roads.wkt
awk 'BEGIN { srand(8); for (i = 0; i < 500; i++) printf "%.3f %.3f %.3f\n", 590000 + 20000 * rand(), 190000 + 20000 * rand(), 4000 * rand() }' >some.txt
shown 0 compare_cct.sh examples/heights.json some.txt
refused 2 compare_cct.sh $tin some.txt

echo
echo '== A table of points with heights'
shown 0 heights_table.py examples/heights.json examples/benchmarks.csv x y height moved.csv
# By hand: a corner, and the middles of two sides.
is 'the moved table' "$(cat moved.csv)" 'name,x,y,height,order
"North, tower",2600000.000,1200000.000,412.645,1
West,2594999.850,1200000.100,500.250,2
Bär,2605000.125,1194999.925,601.625,'
printf 'h;y;x\r\n500;200000;595000\r\n' >other.csv
shown 0 heights_table.py examples/heights.json other.csv x y h moved.csv
is 'the table with other columns' "$(cat moved.csv)" "$(printf 'h;y;x\r\n500.250;1200000.100;2594999.850\r\n')"
refused 2 heights_table.py examples/heights.json examples/benchmarks.csv x y z new.csv
refused 2 heights_table.py examples/heights.json nowhere.csv x y height new.csv
printf 'x,y,height\n1,2 3,4\n' >wrong.csv && refused 2 heights_table.py examples/heights.json wrong.csv x y height new.csv
shown 3 heights_table.py $tin examples/benchmarks.csv x y height new.csv
printf 'x,y,height\n600000,200000,1\n700000,200000,1\n' >wrong.csv
shown 5 heights_table.py examples/heights.json wrong.csv x y height new.csv 2>said
cat said
is 'the row that is refused' "$(sed -n 's/^tinmove: it is on line \([0-9]*\),.*/\1/p' said)" 2
[ ! -e new.csv ] || failed 'a refused table was written'
rm -f wrong.csv other.csv

echo
echo '== One commune a run'
# Names that a shell would read otherwise, a commune that is refused, one that goes, one that changes.
harm="d'Or \$(touch HARM)"
mkdir -p "communes/$harm" communes/south
cp examples/parcels.geojson "communes/$harm"
cp some.wkt communes/south
shown 1 communes.sh $tin communes carried_communes
is 'the folders with a report' "$(find carried_communes -name report.txt | wc -l | tr -d ' ')" 2
values vertices $tin examples/parcels.geojson "carried_communes/$harm/parcels.geojson"
mkdir communes/far
cp far.geojson communes/far
shown 5 communes.sh --again $tin communes carried_communes
rm -r communes/far
cp far.geojson communes/south/some.geojson
shown 5 communes.sh --again $tin communes carried_communes
is 'the carried layers of what is refused or gone' "$(find carried_communes -name '*.wkt' -o -name 'far*' | wc -l | tr -d ' ')" 0

echo
echo '== Decisions on two communes'
# README's example: a line that crosses a side of triangles, and a point that is on it in the source alone.
cat >square.json <<'SQUARE'
{"file_type":"triangulation_file","format_version":"1.1","transformed_components":["horizontal"],
"vertices_columns":["source_x","source_y","target_x","target_y"],"triangles_columns":["idx_vertex1","idx_vertex2","idx_vertex3"],
"vertices":[[0,0,100,100],[10,0,110,100],[10,10,110.003,110.003],[0,10,100,110]],"triangles":[[0,1,2],[0,2,3]]}
SQUARE
printf 'LINESTRING (10 0, 0 10)\nPOINT (6 4)\n' >"north of it.wkt"
printf 'POINT (6 4)\nLINESTRING (10 0, 0 10)\nPOINT (1 1)\n' >south.wkt
# What a recipe prints: its words, the status that is wanted, and the text.
prints() {
    text=$1
    shift
    shown "$@" >../said
    sed '1,2d; $d' ../said >../printed
    cat ../said
    is "what $2 $3 prints" "$(cat ../printed)" "$text"
}
prints 'entered 1 pairs 1' 0 decide.sh carry "a campaign.db" square.json "north \$(touch HARM)" "north of it.wkt"
prints 'entered 2 pairs 1' 0 decide.sh carry "a campaign.db" square.json south south.wkt
prints 'known 1' 0 decide.sh carry "a campaign.db" square.json "north \$(touch HARM)" "north of it.wkt"
is 'the carried layer of the south' "$(head -n 1 south/south.wkt)" 'POINT (106.001 104.001)'
is 'the table of the south' "$(sed -n 2p south/changes.csv | cut -d, -f1-4)" '0,"touching","apart",1'
# By hand: the point of line 1, and the line of line 2.
is 'the features of the south' "$(sed -n 2p south/changes.csv | cut -d, -f9,12)" 1,2
prints '' 0 decide.sh take "a campaign.db" south kept "first_feature = 2"
prints '' 0 decide.sh take "a campaign.db" south kept 'gap_mm < 1'
prints 'decided: 1' 0 decide.sh take "a campaign.db" south kept "gap_mm <= 1 AND now = 'apart'"
prints 'settled kept: 1' 0 decide.sh take "a campaign.db" south mended '1 = 1'
prints "$(printf 'folder,run,place,was,now,first,second\n"north $(touch HARM)",1,0,touching,apart,0/0/0/0,0/1/0/0\n')" \
    0 decide.sh open "a campaign.db" "north \$(touch HARM)" south
prints "$(printf 'north $(touch HARM): waiting 0\nsouth: clear\n')" 1 decide.sh clear "a campaign.db" "north \$(touch HARM)" south
printf 'change,who,decision\n0,"A, B",mended\n' >hand.csv
prints 'decided: 1' 0 decide.sh hand "a campaign.db" "north \$(touch HARM)" hand.csv
prints 'folder,run,place,was,now,first,second' 0 decide.sh open "a campaign.db" "north \$(touch HARM)" south
is 'what is kept' "$(sql "a campaign.db" 'SELECT run, place, verdict FROM pairs ORDER BY run' | tr '\n' ' ')" '1|0|mended 2|0|kept '
printf 'change,decision\n0,keep\n' >hand.csv
refused 4 decide.sh hand "a campaign.db" south hand.csv
refused 6 decide.sh take "a campaign.db" nowhere kept '1 = 1'
refused 5 decide.sh carry "a campaign.db" square.json far some.wkt

echo
echo '== Completion'
# What is offered for the words of a line, sorted; bash parts them at the sign =.
offered() {
    bash -c '. "$1/tinmove.bash"; shift; COMP_WORDS=("$@"); COMP_CWORD=$(($# - 1))
        set -- $(complete -p "$1"); "$3" "${COMP_WORDS[0]}"; printf "%s\n" "${COMPREPLY[@]}" | LC_ALL=C sort | tr "\n" " "' bash "$here" "$@" 2>/dev/null
}
mkdir words && (
    cd words && touch t.json l.wkt l.dxf other.txt && mkdir lv95
    ln -s "$TINMOVE" tinmove && ln -s "$TINPLACES" tinplaces
    is 'what is offered behind ./tinmove' "$(offered ./tinmove m)" 'make migrate '
    is 'behind --tin' "$(offered tinmove check --tin t)" 't.json '
    is 'behind --tin=' "$(offered ./tinmove migrate --tin = t)" 't.json '
    is 'behind --tin= alone' "$(offered ./tinmove migrate --tin =)" 'lv95 t.json '
    is 'the layers' "$(offered tinmove migrate --tin t.json l)" 'l.dxf l.wkt lv95 '
    is 'the options of verify' "$(offered tinmove verify --w)" '--written '
    is 'the lists of heights' "$(offered tinmove heights --tin t.json ot)" 'other.txt '
    is 'the options of heights' "$(offered tinmove heights --i)" '--inside-only '
    is 'the layers of tinplaces' "$(offered ./tinplaces --tin t.json l)" 'l.dxf l.wkt lv95 '
    is 'the triangulation of tinplaces' "$(offered ./tinplaces --tin = t)" 't.json '
    is 'an option of tinplaces' "$(offered ./tinplaces --inv)" '--inverse '
)
echo 'as wanted'

[ ! -e HARM ] || failed 'a name was run as a command'
if command -v lintian >/dev/null && command -v objdump >/dev/null; then
    echo
    echo '== The package'
    package tinmove.deb
    is 'what the package says of itself' "$(dpkg-deb -f tinmove.deb Package Architecture | tr '\n' ' ')" 'Package: tinmove Architecture: amd64 '
fi
echo
echo 'all recipes ran'
