#!/usr/bin/env bash
# What standard error says beside a run, over real files: for each line of docs/messages.md under
# 'Standard error' that no test over fakes shows, a run that prints it. Each run is done again with
# standard error closed, and must then end and print as before.
# usage: checks/standard_error.sh [TINMOVE [TINPLACES [TINLEDGER]]]     the programs, else the launchers
# Needs script (Debian: bsdutils) for what is said on a terminal. Run it as a user other than root
# to see the line of a folder that may not be written, and as root, with setpriv (util-linux), to
# see that of an owner that is not kept.
# The last line is 'standard error says all lines'; the status is 1 where one is missing.
set -u
top=$(cd -- "$(dirname -- "$0")/.." && pwd)
program=${1:-$top/tinmove} places=${2:-$top/tinplaces} ledger=${3:-$top/tinledger}
case $program in /*) ;; *) program=$PWD/$program ;; esac
case $places in /*) ;; *) places=$PWD/$places ;; esac
case $ledger in /*) ;; *) ledger=$PWD/$ledger ;; esac
folder=$(mktemp -d)
trap 'chmod -R u+w "$folder"; rm -rf "$folder"' EXIT
cd "$folder" || exit 1
bad=0 count=0

# Whether $program with the words ends with this status, and prints these parts on standard error.
says() {
    local status=$1 words=() part
    shift
    while [ "$1" != -- ]; do words+=("$1"); shift; done
    shift
    rm -rf o
    "$program" "${words[@]}" >out 2>err
    local ended=$?
    rm -rf o
    "$program" "${words[@]}" >out_closed 2>&-
    local closed=$?
    count=$((count + 1))
    [ "$ended" -eq "$status" ] || { echo "status $ended, not $status: ${words[*]}"; bad=1; }
    [ "$closed" -eq "$status" ] || { echo "status $closed with standard error closed: ${words[*]}"; bad=1; }
    cmp -s out out_closed || { echo "another output with standard error closed: ${words[*]}"; bad=1; }
    for part in "$@"; do
        grep -qF -- "$part" err || { echo "not said: $part"; echo "   after: ${words[*]}"; sed 's/^/   /' err; bad=1; }
    done
}

tin() {
    printf '{"file_type":"triangulation_file","format_version":"1.1","transformed_components":["horizontal"],"vertices_columns":["source_x","source_y","target_x","target_y"],"triangles_columns":["idx_vertex1","idx_vertex2","idx_vertex3"],"vertices":[%s],"triangles":[%s]}\n' "$1" "$2"
}
tin '[600000,200000,2600000,1200000],[601000,200000,2601000.002,1200000],[600000,201000,2600000,1201000]' '[0,1,2]' >t.json
tin '[7.4,46.9,2600000,1200000],[7.5,46.9,2610000,1200000],[7.4,47,2600000,1210000]' '[0,1,2]' >degrees.json
echo 'POINT (600001 200001)' >a.wkt
mkdir -p x && echo 'POINT (600002 200002)' >x/a.wkt

# words
says 2 -- 'a mode is missing: the first word is to be migrate, check, make, verify or heights' 'usage: tinmove migrate|check|make'
says 2 chek -- "'chek' is no mode: the first word is to be migrate, check, make, verify or heights" 'usage: tinmove migrate|check|make'
says 2 migrate --tni t.json --out o a.wkt -- "'--tni' is no option of this mode" 'usage: tinmove migrate --tin FILE'
says 2 migrate --tin t.json a.wkt -- "'--out FOLDER' is missing" 'nothing was written' '[--drop-other] [--cert] [--sides] LAYER...'
says 2 migrate --tin t.json --out o -- "'LAYER' is missing"
says 2 check --tin -- "the value is missing behind '--tin'" 'usage: tinmove check --tin FILE'
says 2 check --tin t.json --tin t.json -- "'--tin' is there twice"
says 2 check --tin t.json a.wkt -- "'a.wkt' is one word too many"
says 2 make 0 -- "'0': the size is no number from 1 to 512 in digits" 'usage: tinmove make N'
says 2 migrate --tin t.json --out o a.wkt roads.shp -- "'roads.shp': its name ends in none of" 'convert it by ogr2ogr, or rename it'
says 2 verify --tin t.json --source roads.shp --written o/a.wkt --cert o/a.wkt.cert -- "'roads.shp': its name ends in none of"
says 2 migrate --tin t.json --out o a.wkt x/a.wkt -- "'x/a.wkt': the last part of its name is that of an earlier layer's"
says 2 check --tin $'t\001' -- "'t\\x01': the name behind --tin is empty or has a control character"
says 2 migrate $'\xff' -- 'word 2 is not UTF-8: \xff' 'usage: tinmove migrate'

# files
says 6 check --tin none.json -- 'none.json: the file is missing or could not be read' 'none.json: the system says: No such file or directory'
says 6 migrate --tin t.json --out o none.wkt -- 'none.wkt: the system says: No such file or directory'
mkdir -p folder.json
says 6 check --tin folder.json -- 'folder.json: the system says: Is a directory'
says 3 check --tin a.wkt -- 'a.wkt:1:1: text that may not stand here: POINT'
printf 'POINT (600001 200001)\nPOINT (600001 200001 484.91)\n' >height.wkt
says 4 migrate --tin t.json --out o height.wkt -- 'height.wkt:2:22: a number too many: 484.91' 'ogr2ogr -dim XYZ'
printf '\xef\xbb\xbfPOINT (1 2)\n' >mark.wkt
says 4 migrate --tin t.json --out o mark.wkt -- 'mark.wkt:1:1: a byte order mark' 'save the file without it'
printf 'POINT (600001 200001) POINT (600001 200001)\n' >second.wkt
says 4 migrate --tin t.json --out o second.wkt -- 'second.wkt:1:23: a second geometry on one line: POINT'

printf 'POINT (600001 200001' >short.wkt
says 4 migrate --tin t.json --out o short.wkt -- 'short.wkt:1:21: the file ends here' 'it is empty or cut off: write it again'
head -c 200 t.json >short.json
says 3 check --tin short.json -- 'short.json:1:201: the file ends here' 'it is empty or cut off: write it again'
printf '\037\213\010\000' >packed.geojson
says 4 migrate --tin t.json --out o packed.geojson -- 'packed.geojson:1:1: a packed file' 'unpack it by: gunzip'
printf '\377\376P\000' >wide.wkt
says 4 migrate --tin t.json --out o wide.wkt -- 'wide.wkt:1:1: a text in UTF-16' 'save it as UTF-8'
printf 'AC1027\000\000' >saved.dxf
says 4 migrate --tin t.json --out o saved.dxf -- 'saved.dxf:1: a drawing in DWG form' 'save it as ASCII DXF'

printf 'PointZ (600001 200001 1)\n' >glued.wkt
says 4 migrate --tin t.json --out o glued.wkt -- 'glued.wkt:1:1: a kind and its mark in one word: PointZ' 'write a blank between them'
printf 'SRID=21781;POINT (600001 200001)\n' >srid.wkt
says 4 migrate --tin t.json --out o srid.wkt -- 'srid.wkt:1:1: the number of a frame before a geometry' "it is left out by: sed 's/SRID=[0-9]*;//'"
echo '{"type":"Topology","objects":{}}' >topology.geojson
says 4 migrate --tin t.json --out o topology.geojson -- 'topology.geojson:1:9: a TopoJSON object' 'ogr2ogr -f GeoJSON'
printf '{"type":"Feature","geometry":null,"properties":null}\n{"type":"Feature","geometry":null,"properties":null}\n' >lines.geojson
says 4 migrate --tin t.json --out o lines.geojson -- 'lines.geojson:2:1: a second object' 'one feature a line becomes one object by: ogr2ogr -f GeoJSON'

# triangles that are not sound: their rows, and how many are turned over
tin '[600000,200000,2600000,1200000,"LFP 1"],[601000,200000,2601000,1200000],[600000,201000,2600000,1199000]' '[0,1,2]' |
    sed 's/"target_y"\]/"target_y","name"]/; s/1200000\]/1200000,"LFP 2"]/; s/1199000\]/1199000,"LFP 3"]/' >turned.json
says 3 check --tin turned.json -- 'turned.json: triangle 0: it is turned over in the target frame' \
    'triangle 0 has row 0 of vertices: [600000,200000,2600000,1200000,"LFP 1"]' \
    'triangle 0 has row 2 of vertices: [600000,201000,2600000,1199000,"LFP 3"]' \
    'turned over: 1 of 1: are x and y exchanged in one of the frames?' \
    'all its faults, as a map: tinplaces --tin FILE --faults'
grep -q 'nothing was written' err && { echo 'check says that nothing was written'; bad=1; }
square='[600000,200000,2600000,1200000],[601000,200000,2601000,1200000],[601000,201000,2601000,1201000],[600000,201000,2600000,1201000]'
tin "$square,[600500,200500,2600500,1199000]" '[0,1,4],[1,2,4],[2,3,4],[3,0,4]' >fan.json
says 3 migrate --tin fan.json --out o a.wkt -- 'fan.json: triangle 0: it is turned over' 'nothing was written' \
    'triangle 0 has row 4 of vertices: [600500,200500,2600500,1199000]' \
    'turned over: 1 of 4 triangles: the corner that they have in common is most often wrong' \
    'all its faults, as a map: tinplaces --tin FILE --faults'
tin "$square" '[0,1,2],[0,1,3]' >overlap.json
says 3 check --tin overlap.json -- 'triangles 0 and 1: they overlap' 'triangle 0 has row 2 of vertices' 'triangle 1 has row 3 of vertices'

# certificates: the layer is one point in triangle 0
"$program" migrate --tin t.json --out certified --cert a.wkt >out 2>err
verify=(verify --tin t.json --source a.wkt --written certified/a.wkt --cert)
says 0 "${verify[@]}" certified/a.wkt.cert --
says 2 verify --tin t.json --source a.wkt --written b.wkt -- "'--cert FILE' is missing" 'usage: tinmove verify --tin FILE'
says 6 "${verify[@]}" none.cert -- 'none.cert: the file is missing or could not be read'
printf 'tinmove certificate 2\n0\n' >form.cert
says 10 "${verify[@]}" form.cert -- 'form.cert:1' "a line that is none of a certificate's" 'take the file .cert as migrate --cert wrote it'
printf 'tinmove certificate 1\n' >count.cert
says 10 "${verify[@]}" count.cert -- 'the certificate has lines for another number of segments' 'take the certificate of this very source'
printf 'tinmove certificate 1\n1\n' >segment.cert
says 10 "${verify[@]}" segment.cert -- 'the line of this segment does not name the triangles that it goes through'
sed 's/POINT/POINT /' certified/a.wkt >b.wkt
says 10 verify --tin t.json --source a.wkt --written b.wkt --cert certified/a.wkt.cert -- 'b.wkt:1:7: the written layer is another than that of the source from here on' 'tinmove: take the layer as it was written'
grep -q 'nothing was written' err && { echo 'verify says that nothing was written'; bad=1; }

# outside
printf '\nPOINT (600001 200001)\nLINESTRING (600001 200001, 602000 200001)\n' >out.wkt
says 5 migrate --tin t.json --out o out.wkt -- 'out.wkt: path 1 segment 0: not wholly inside the triangles' \
    'it is on line 3, from 600001.000 200001.000 to 602000.000 200001.000' \
    'triangles 1, from 600000.000 200000.000 to 601000.000 201000.000'
grep -q 'carried already' err && { echo 'asked whether a layer was carried that was not'; bad=1; }
echo 'POINT (2600001 1200001)' >carried.wkt
says 5 migrate --tin t.json --out o carried.wkt -- 'it is on line 1, from 2600001.000 1200001.000 to 2600001.000 1200001.000' 'carried already, or --inverse?'
says 5 migrate --tin t.json --inverse --out o a.wkt -- 'triangles 1, from 2600000.000 1200000.000' 'carried already, or --inverse?'
echo 'POINT (7.4386 46.9511)' >degrees.wkt
says 5 migrate --tin t.json --out o degrees.wkt -- "the layer's coordinates look like degrees"
echo 'POINT (200001 600001)' >exchanged.wkt
says 5 migrate --tin t.json --out o exchanged.wkt -- 'with x and y exchanged the whole layer is where the triangles are: are they exchanged?'
tin '[0,0,0,0],[1000,0,1000,0],[0,1000,0,1000]' '[0,1,2]' >diagonal.json
echo 'POINT (900 800)' >beyond.wkt
says 5 migrate --tin diagonal.json --out o beyond.wkt -- 'not wholly inside the triangles'
grep -q 'exchanged' err && { echo 'asked for an exchange of a layer that is in the box as it stands'; bad=1; }

# points with heights
heights() {
    printf '{"file_type":"triangulation_file","format_version":"1.1","transformed_components":["vertical"],"vertices_columns":["source_x","source_y","offset_z"],"triangles_columns":["idx_vertex1","idx_vertex2","idx_vertex3"],"vertices":[%s],"triangles":[[0,1,2]]}\n' "$1"
}
heights '[600000,200000,1],[601000,200000,2],[600000,201000,-1]' >heights.json
heights '[7.4,46.9,1],[7.5,46.9,2],[7.4,47,-1]' >heights_degrees.json
printf '600001 200001 412.345\n' >points.txt
printf '600001 200001 412.345\n\n602000 200001 400\n' >points_out.txt
printf '600001 200001 412.345\n600001 200001\n' >points_short.txt
says 0 heights --tin heights.json --out o points.txt --
[ -s err ] && { echo 'something is said of moved points'; bad=1; }
says 2 heights --tin heights.json --out o -- "'POINTS' is missing" 'usage: tinmove heights --tin FILE'
says 2 heights --tin heights.json --out o points.txt a.wkt -- "'a.wkt' is one word too many"
says 3 migrate --tin heights.json --out o a.wkt -- "heights.json: the file moves heights alone" "'tinmove heights' moves points with heights by it"
says 3 heights --tin t.json --out o points.txt -- "t.json: " "'tinmove migrate' carries layers by it"
says 4 heights --tin heights.json --out o points_short.txt -- 'points_short.txt:2:14: text that may not stand here' 'a list of points three numbers a line'
says 5 heights --tin heights.json --out o points_out.txt -- 'points_out.txt: path 1 segment 0: not wholly inside the triangles' \
    'it is on line 3, from 602000.000 200001.000 to 602000.000 200001.000' \
    'triangles 1, from 600000.000 200000.000 to 601000.000 201000.000'
says 6 heights --tin heights.json --out o none.txt -- 'none.txt: the system says: No such file or directory'
printf '7.41 46.91 400\n' >points_degrees.txt
says 0 heights --tin heights_degrees.json --out o points_degrees.txt -- 'heights_degrees.json: all source corners are within 360: these look like degrees'
says 5 heights --tin heights.json --out o points_degrees.txt -- "the layer's coordinates look like degrees"

# numbers
says 0 check --tin degrees.json -- 'degrees.json: all source corners are within 360: these look like degrees'
echo '{"type":"Point","coordinates":[7.4386,46.9511]}' >degrees.geojson
says 0 migrate --tin degrees.json --out o degrees.geojson -- 'these look like degrees' 'degrees.geojson: 2 numbers were rounded to the millimetre'
says 0 check --tin t.json -- 't.json: outer rings of the border: 1, holes: 0'
[ "$(wc -l <err)" -eq 1 ] || { echo 'more is said of a sound triangulation in metres'; bad=1; }
# a square ring of eight triangles round a square hole, and two triangles apart
ring='[600000,200000,2600000,1200000],[600003,200000,2600003,1200000],[600003,200003,2600003,1200003],[600000,200003,2600000,1200003],[600001,200001,2600001,1200001],[600002,200001,2600002,1200001],[600002,200002,2600002,1200002],[600001,200002,2600001,1200002]'
tin "$ring" '[0,1,5],[0,5,4],[1,2,6],[1,6,5],[2,3,7],[2,7,6],[3,0,4],[3,4,7]' >ring.json
says 0 check --tin ring.json -- 'ring.json: outer rings of the border: 1, holes: 1: is a row missing?'
tin "$ring" '[0,1,5],[2,3,7]' >parts.json
says 0 check --tin parts.json -- 'parts.json: outer rings of the border: 2, holes: 0: is a row missing?'
# two triangles that touch in a corner are two parts
tin "$ring" '[0,1,4],[4,5,6]' >touching.json
says 0 check --tin touching.json -- 'touching.json: outer rings of the border: 2, holes: 0'
tin "$ring" '' >empty.json
says 0 check --tin empty.json -- 'empty.json: it has no triangles: no layer can be carried by it'
says 0 migrate --tin t.json --out o a.wkt --
[ -s err ] && { echo 'something is said of a whole run'; bad=1; }

# a drawing of which entities are left out
{
    printf '0\nSECTION\n2\nENTITIES\n'
    for _ in 1 2 3; do printf '0\nHATCH\n8\n0\n'; done
    printf '0\nARC\n8\n0\n0\nPOINT\n8\n0\n10\n600001\n20\n200001\n0\nENDSEC\n0\nEOF\n'
} >plan.dxf
says 0 migrate --tin t.json --drop-other --out o plan.dxf -- 'plan.dxf: 4 entities left out (HATCH 3, ARC 1): the written drawing is not whole'
says 4 migrate --tin t.json --out o plan.dxf -- 'plan.dxf:5: an entity of a kind that is not carried: HATCH' 'plan.dxf: all kinds that are not carried (HATCH 3, ARC 1)'
{
    printf '0\nSECTION\n2\nENTITIES\n'
    for number in $(seq 12) 12 7 12; do printf '0\nKIND%s\n8\n0\n' "$number"; done
    printf '0\nENDSEC\n0\nEOF\n'
} >many.dxf
says 0 migrate --tin t.json --drop-other --out o many.dxf -- \
    'many.dxf: 15 entities left out (KIND12 3, KIND7 2, KIND1 1, KIND2 1, KIND3 1, KIND4 1, KIND5 1, KIND6 1, KIND8 1, KIND9 1, and 2 more): the'
# 300,000 kinds: seconds, not minutes, and none where the run is refused before
awk 'BEGIN { printf "0\nSECTION\n2\nENTITIES\n"; for (i = 0; i < 300000; i++) printf "0\nK%d\n", i; printf "0\nENDSEC\n0\nEOF\n" }' >kinds.dxf
timeout 20 "$program" migrate --tin t.json --drop-other --out o kinds.dxf >out 2>err
grep -qF '300000 entities left out (K0 1, K1 1, K2 1' err && grep -qF ', and 299990 more)' err || { echo 'many kinds are not counted in 20 s'; bad=1; }
cp plan.dxf own.dxf
"$program" migrate --tin t.json --drop-other --out . own.dxf >out 2>err
grep -qF 'own.dxf: 4 entities left out (HATCH 3, ARC 1)' err || { echo 'nothing of a drawing that is written over itself'; bad=1; }

# what stays as it was in a layer
printf '0\nSECTION\n2\nENTITIES\n0\nINSERT\n8\n0\n2\nTREE\n10\n600001\n20\n200001\n0\nENDSEC\n0\nSECTION\n2\nOBJECTS\n0\nGEODATA\n0\nENDSEC\n0\nEOF\n' >blocks.dxf
says 0 migrate --tin t.json --out o blocks.dxf -- 'blocks.dxf: 1 inserts: a block is moved to its new place, and what is in it keeps its shape' \
    'blocks.dxf: GEODATA stays as it was, and may name the frame that the layer is carried from'
# a block with its base point at (10, 20), and a line in it from there to (13, 24), inserted three times as large
printf '0\nSECTION\n2\nBLOCKS\n0\nBLOCK\n8\n0\n2\nPIPE\n10\n10\n20\n20\n0\nLINE\n8\n0\n10\n10\n20\n20\n11\n13\n21\n24\n0\nENDBLK\n0\nENDSEC\n0\nSECTION\n2\nENTITIES\n0\nINSERT\n8\n0\n2\nPIPE\n10\n600001\n20\n200001\n41\n3\n42\n3\n0\nENDSEC\n0\nEOF\n' >pipe.dxf
says 0 migrate --tin t.json --out o pipe.dxf -- 'pipe.dxf: 1 inserts' 'what is in it keeps its shape, up to 15 metres from there: explode blocks that are wide'
sed 's/^600001$/0/; s/^200001$/0/' pipe.dxf >world.dxf
says 5 migrate --tin t.json --out o world.dxf -- 'a block is inserted there: if its content is far from there, recipes/readable_drawing.py --explode 10 makes entities of it'
grep -q 'look like degrees' err && { echo 'the place of a block is taken for degrees'; bad=1; }
echo '{"type":"Feature","coordRefSys":"http://www.opengis.net/def/crs/EPSG/0/21781","geometry":{"type":"Point","coordinates":[600001,200001]},"properties":null}' >frame.geojson
says 0 migrate --tin t.json --out o frame.geojson -- 'frame.geojson: coordRefSys stays as it was, and may name the frame that the layer is carried from'

# outputs that meet another file
mkdir -p in && cp t.json in/t.json && echo '{"type":"Point","coordinates":[600001,200001]}' >g.geojson
ln -s ../g.geojson in/a.geojson && ln -s ../g.geojson in/b.geojson && cp g.geojson a.geojson && cp g.geojson b.geojson
"$program" migrate --tin t.json --out in a.geojson b.geojson >out 2>err
grep -qF 'the output in/b.geojson is also that of an earlier output' err || { echo 'two outputs are one file, and it is not said'; bad=1; }

mkdir -p met && ln -s a.wkt met/a.wkt.cert && cp t.json met/t.json && ln -s t.json met/g.geojson.cert && echo 'POINT (600001 200001)' >met/a.wkt
"$program" migrate --tin met/t.json --out met --cert a.wkt g.geojson >out 2>err
grep -qF 'the output met/a.wkt.cert is also that of an earlier output' err || { echo 'a certificate is an output, and it is not said'; bad=1; }
grep -qF 'the output met/g.geojson.cert is the file of the triangulation' err || { echo 'a certificate is the triangulation, and it is not said'; bad=1; }
mkdir -p led && ln -s nowhere.wkt led/a.wkt
"$program" migrate --tin t.json --out led a.wkt >out 2>err
grep -qF 'the output led/a.wkt is a link that leads nowhere: the link itself is replaced' err || { echo 'nothing of a link that leads nowhere'; bad=1; }
long=$(printf 'n%.0s' $(seq 248)).wkt
cp a.wkt "$long"
"$program" migrate --tin t.json --out o --cert "$long" >out 2>err
grep -qF 'has a name of more than 255 bytes' err || { echo 'nothing of a certificate whose name is too long'; bad=1; }

# layers that are too large together, and one that is too large alone
head -c 60000000 /dev/zero | tr '\0' ' ' >large.wkt && cp large.wkt larger.wkt
says 9 migrate --tin t.json --out o a.wkt large.wkt larger.wkt -- 'the layers have more than 64 MiB' 'larger.wkt: 60000000 bytes, behind 60000022 of the layers before it'
grep -q 'too large alone' err && { echo 'a layer that fits is called too large alone'; bad=1; }
head -c 67108865 /dev/zero | tr '\0' ' ' >largest.wkt
says 9 migrate --tin t.json --out o largest.wkt -- 'largest.wkt: 67108865 bytes, behind 0 of the layers before it' 'it is too large alone: recipes/geopackage.py carries a layer in strips'
rm -f large.wkt larger.wkt largest.wkt

# owners: root keeps another's, and another user cannot keep root's
if [ "$(id -u)" -eq 0 ] && command -v setpriv >/dev/null; then
    nobody=(setpriv --reuid=65534 --regid=65534 --clear-groups)
    mkdir -p theirs && cp a.wkt theirs/a.wkt && chown 65534:65534 theirs/a.wkt
    says 0 migrate --tin t.json --out theirs a.wkt --
    [ -s err ] && { echo 'an owner that was kept is spoken of'; bad=1; }
    chmod 755 "$folder" && chown 65534 theirs && chown 0:0 theirs/a.wkt
    if "${nobody[@]}" test -x "$program"; then
        "${nobody[@]}" "$program" migrate --tin t.json --out theirs a.wkt >out 2>err
        grep -qF 'the output theirs/a.wkt has another owner or group than before: the system did not let them be kept' err ||
            { echo 'another owner is not said'; bad=1; }
    fi
fi

# writing
: >file
says 7 migrate --tin t.json --out file/o a.wkt -- 'file/o/a.wkt: could not be written: ' "look at the disk's room"
"$program" make 1 >/dev/full 2>err
[ $? -eq 7 ] || { echo 'a full standard output is no status 7'; bad=1; }
grep -qF 'standard output: could not be written' err || { echo 'a full standard output is not named'; bad=1; }
"$program" --help >/dev/full 2>err
[ $? -eq 7 ] || { echo 'a help that is not written is no status 7'; bad=1; }
grep -qF 'standard output: could not be written' err || { echo 'a help that is not written is not said'; bad=1; }
if [ "$(id -u)" -ne 0 ]; then
    mkdir -p shut && chmod a-w shut
    "$program" migrate --tin t.json --out shut a.wkt >out 2>err
    grep -qF 'shut/a.wkt: could not be written: Permission denied' err || { echo 'a shut folder is not named'; cat err; bad=1; }
    "$program" migrate --tin t.json --out shut/deep/er a.wkt >out 2>err
    grep -qF 'shut/deep/er/a.wkt: could not be written: Permission denied' err || { echo 'why a folder cannot be made is not named'; cat err; bad=1; }
fi

# a terminal: one line that is written again, and cleared before the report
on_terminal() { script -qec "$(printf '%q ' "$program" "$@")" /dev/null </dev/null >terminal; }
if command -v script >/dev/null; then
    on_terminal migrate --tin t.json --out o a.wkt
    for part in 'step 1 of 5: reading t.json' 'step 2 of 5: checking the triangulation' 'step 3 of 5: reading a.wkt' \
        'step 4 of 5: carrying layer 0 (1 of 1), then comparing' 'step 5 of 5: writing o/a.wkt' $'\r\033[Ktinmove report 1'; do
        grep -qF -- "$part" terminal || { echo "not on a terminal: $part"; cat -v terminal; bad=1; }
    done
    on_terminal make 2
    grep -qF 'making and carrying a map of 2 by 2 cells' terminal || { echo 'nothing on a terminal of make'; bad=1; }
fi

# the other program, which has no modes and writes no layer
program=$places
usage='usage: tinplaces --tin FILE [OPTION]... LAYER...'
says 2 -- "'--tin FILE' is missing" "$usage"
grep -q 'nothing was written' err && { echo 'tinplaces says that nothing was written'; bad=1; }
says 2 --tin t.json -- "'LAYER' is missing" "$usage"
says 2 --tni t.json a.wkt -- "'--tni' is no option of this mode" "$usage"
says 2 --tin t.json --out o a.wkt -- "'--out' is no option of this mode"
says 2 --tin t.json --tin t.json a.wkt -- "'--tin' is there twice"
says 2 a.wkt --tin -- "the value is missing behind '--tin'"
says 2 --tin t.json roads.shp -- "'roads.shp': its name ends in none of" 'convert it by ogr2ogr, or rename it'
says 2 --tin $'t\001' a.wkt -- "'t\\x01': the name behind --tin is empty or has a control character"
says 2 --tin $'\xff' -- 'word 2 is not UTF-8: \xff' "$usage"
says 6 --tin none.json a.wkt -- 'none.json: the file is missing or could not be read' 'none.json: the system says: No such file or directory'
says 6 --tin folder.json a.wkt -- 'folder.json: the system says: Is a directory'
says 6 --tin t.json none.wkt -- 'none.wkt: the system says: No such file or directory'
says 3 --tin a.wkt a.wkt -- 'a.wkt:1:1: text that may not stand here: POINT'
says 4 --tin t.json mark.wkt -- 'mark.wkt:1:1: a byte order mark' 'save the file without it'
says 5 --tin t.json out.wkt -- 'out.wkt: path 1 segment 0: not wholly inside the triangles' \
    'it is on line 3, from 600001.000 200001.000 to 602000.000 200001.000' \
    'triangles 1, from 600000.000 200000.000 to 601000.000 201000.000'
says 5 --tin t.json carried.wkt -- 'carried already, or --inverse?'
says 5 --tin t.json --inverse a.wkt -- 'triangles 1, from 2600000.000 1200000.000' 'carried already, or --inverse?'
says 5 --tin t.json degrees.wkt -- "the layer's coordinates look like degrees"
says 0 --tin degrees.json degrees.geojson -- 'degrees.geojson: 2 numbers were rounded to the millimetre' \
    'degrees.json: all source corners are within 360: these look like degrees'
says 0 --tin t.json --drop-other plan.dxf -- 'plan.dxf: 4 entities left out (HATCH 3, ARC 1): the written drawing is not whole'
says 0 --tin t.json a.wkt --
[ -s err ] && { echo 'something is said of a whole run of tinplaces'; bad=1; }
"$program" --tin t.json a.wkt >/dev/full 2>err
[ $? -eq 7 ] || { echo 'a full standard output of tinplaces is no status 7'; bad=1; }
grep -qF 'standard output: could not be written' err || { echo 'a full standard output of tinplaces is not named'; bad=1; }
"$program" --help >/dev/full 2>err
[ $? -eq 7 ] || { echo 'a help of tinplaces that is not written is no status 7'; bad=1; }
grep -qF 'standard output: could not be written' err || { echo 'a help of tinplaces that is not written is not said'; bad=1; }
if command -v script >/dev/null; then
    on_terminal --tin t.json a.wkt
    for part in 'step 1 of 4: reading t.json' 'step 2 of 4: checking the triangulation' 'step 3 of 4: reading a.wkt' \
        'step 4 of 4: carrying layer 0 (1 of 1), then comparing' $'\r\033[K{"type":"FeatureCollection"'; do
        grep -qF -- "$part" terminal || { echo "not on a terminal of tinplaces: $part"; cat -v terminal; bad=1; }
    done
fi

# all faults of a triangulation: words are those of check, and a file is refused as check refuses it
usage='usage: tinplaces --tin FILE --faults [OPTION]...'
says 1 --tin fan.json --faults --
[ -s err ] && { echo 'something is said of faults that are listed'; bad=1; }
says 0 --faults --lines --tin t.json -- 't.json: outer rings of the border: 1, holes: 0'
says 2 --faults -- "'--tin FILE' is missing" "$usage"
says 2 --faults --tin t.json a.wkt -- "'a.wkt' is one word too many" "$usage"
says 2 --faults --tin t.json --across -- "'--across' is no option of this mode" "$usage"
says 2 --faults --tin t.json --tin t.json -- "'--tin' is there twice"
says 3 --tin a.wkt --faults -- 'a.wkt:1:1: text that may not stand here: POINT'
says 6 --tin none.json --faults -- 'none.json: the file is missing or could not be read' 'none.json: the system says: No such file or directory'
grep -q 'nothing was written' err && { echo 'tinplaces --faults says that nothing was written'; bad=1; }
"$program" --tin fan.json --faults >/dev/full 2>err
[ $? -eq 7 ] || { echo 'a full standard output of faults is no status 7'; bad=1; }
grep -qF 'standard output: could not be written' err || { echo 'a full standard output of faults is not named'; bad=1; }
if command -v script >/dev/null; then
    on_terminal --tin fan.json --faults
    grep -qF 'step 1 of 2: reading fan.json' terminal || { echo 'nothing on a terminal of faults'; cat -v terminal; bad=1; }
fi

# the ledger: a database that is new, one that is there, and files that are none
program=$ledger
usage="usage: tinledger DB SCRIPT ('tinledger --help' explains them)"
says 2 -- "$usage"
says 2 a.db -- "$usage"
says 2 a.db '' -- "$usage"
[ -e a.db ] && { echo 'a refused command line makes a database'; bad=1; }
echo 'list 1' >script
says 0 a.db script -- 'tinledger: a.db is new'
says 0 a.db script --
[ -s err ] && { echo 'something is said of a whole run of tinledger'; bad=1; }
says 0 $'b\xc2\x9b.db' script -- 'tinledger: b\x9b.db is new'
says 10 none/a.db script -- 'tinledger: none/a.db was not opened: '
says 10 a.wkt script -- 'tinledger: a.wkt was not opened: file is not a database that obeys its schema'
says 6 a.db none -- 'tinledger: none: the system says: No such file or directory'
says 6 a.db x -- 'tinledger: x: the system says: Is a directory'

# a script that is refused: its line, the column, what is there and what helps
refused() { # the status, the script, and what is said of it
    local status=$1
    printf '%b' "$2" >bad
    shift 2
    says "$status" a.db bad -- "$@"
}
refused 3 'list 1\ndecide 1 x kept\n' 'tinledger: bad:2:10: no number in digits below 4294967296: x' \
    'tinledger: no line was obeyed; a run is a number from 1, a place one from 0'
refused 3 '\n\nlist  1\n' 'tinledger: bad:3:5: two spaces in a row, or one at an end of the line' 'one space is between each two words'
refused 3 'clear 1 \n' 'tinledger: bad:1:8: two spaces in a row'
refused 3 'list 1\r\n' 'tinledger: bad:1:7: a carriage return at the end of the line' "sed -i 's/\\r\$//'"
refused 3 '\0357\0273\0277list 1\n' 'tinledger: bad:1:1: a byte order mark' "sed -i 's/^\xef\xbb\xbf//'"
refused 3 'list\t1\n' 'tinledger: bad:1:5: a tab or another control character'
refused 3 'enter r\0377.txt\n' 'tinledger: bad:1:8: bytes that are no UTF-8'
refused 3 'lists 1\n' 'tinledger: bad:1:1: no word of a line: lists' 'see tinledger --help'
refused 3 'decide 1 0 keep\n' 'tinledger: bad:1:12: neither kept nor mended: keep' 'decide RUN PLACE mended'
refused 3 'decide 1 0\n' 'tinledger: bad:1:11: a word or a number is missing'
refused 3 'clear 1 2\n' 'tinledger: bad:1:9: a word too many: 2'
printf 'tinmove report 1\ntriangulation corners 3 triangles 1 inexact 0 name t.json\nlayer 0 paths 1 segments 1 pieces 1 inexact 0 dropped 0 name a.wkt\nchanges 0\nend\n' >r.txt
refused 4 'list 1\nenter r.txt\n' 'tinledger: bad:2: r.txt: the report has another number of layers than this line'
refused 4 'enter a.wkt a.wkt\n' 'tinledger: bad:1: a.wkt:1: no such line is in a report' 'a report is what tinmove migrate prints'
refused 6 'enter none.txt a.wkt\n' 'tinledger: bad:1: none.txt: the system says: No such file or directory' 'no line was obeyed'
refused 6 'enter r.txt x\n' 'tinledger: bad:1: x: the system says: Is a directory'
head -c 1048577 /dev/zero >bad
says 9 a.db bad -- 'a script has at most 1048576 bytes and 1048575 lines'
says 10 a.wkt script -- 'tinledger: no line was obeyed'
"$program" a.db script >/dev/full 2>err
[ $? -eq 7 ] || { echo 'a full standard output of tinledger is no status 7'; bad=1; }
grep -qF 'tinledger: standard output: could not be written' err || { echo 'a full standard output of tinledger is not named'; bad=1; }
grep -qF 'tinledger: every line was obeyed' err || { echo 'tinledger does not say that all was obeyed'; bad=1; }
"$program" --help >/dev/full 2>err
[ $? -eq 7 ] || { echo 'a help of tinledger that is not written is no status 7'; bad=1; }
grep -qF 'tinledger: standard output: could not be written' err || { echo 'a help of tinledger that is not written is not said'; bad=1; }

echo "$count runs, each twice"
[ "$bad" -eq 0 ] && echo 'standard error says all lines'
exit $bad
