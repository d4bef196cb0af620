#!/bin/sh
# Makes a country of 60 communes and tries the workflow on it. No part of the gate.
# usage: recipes/country/try.sh [TINMOVE [TINPLACES]]     the built programs, else the launchers
# A run with nothing wrong; a second one, which does nothing; the changes beside those of one run of all
# layers; runs that are killed with all their processes, until one ends: the same bytes; communes that are
# refused, gone and mended. Needs Debian's snakemake, gdal-bin, python3-gdal and jq.
# The last line is 'the workflow does what it should'; the status is 1 where it does not.
set -eu
here=$(CDPATH='' cd -- "$(dirname -- "$0")" && pwd)
absolute() { case $1 in /*) echo "$1" ;; *) echo "$PWD/$1" ;; esac; }
tinmove=$(absolute "${1:-$here/../../tinmove}")
tinplaces=$(absolute "${2:-$here/../../tinplaces}")
for tool in snakemake ogr2ogr jq setsid; do
    command -v $tool >/dev/null || { echo "try.sh: $tool is missing" >&2; exit 1; }
done
folder=$(mktemp -d)
trap 'rm -rf "$folder"' EXIT
cd "$folder"
wanted() { [ "$2" = "$3" ] || { echo "FAILED: $1 is $2, and should be $3"; exit 1; }; }
configure() { printf '%s\n' "tin: tin.json" "communes: communes" "out: $1" "epsg: 2056" "name: egrid" \
    "tinmove: '$tinmove'" "tinplaces: '$tinplaces'" "batch: 8" "options: --sides" >"$1.yaml"; }
# The status of a run; what it says is in $1.log.
ran() { status=0; "$here/run.sh" "$1.yaml" --cores 4 >"$1.log" 2>&1 || status=$?; echo "$status"; }
same() { for file in summary.html summary.csv borders.csv; do cmp "$1/$file" "$2/$file"; done; }
row() { /usr/bin/python3 -c 'import csv, sys
print("|".join(row[sys.argv[3]] for row in csv.DictReader(open(sys.argv[1], newline="")) if row["commune"] == sys.argv[2]))' "$@"; }
number() { sed -n "s|^<tr><td>$2</td><td class=\"n\">\(.*\)</td></tr>\$|\1|p" "$1/summary.html" | tr -d ,; }

"$here/make.py" . --communes 60 --columns 12 --rows 10 --control 400 --seed 7 --drawings 7 --texts 5 --packages 11 --odd-names
configure whole
configure killed

echo '== a run'
wanted 'the status' "$(ran whole)" 0
wanted 'the number of communes' "$(number whole communes)" 60
wanted 'the communes that are carried' "$(number whole 'communes carried and certified')" 60
wanted 'the refused ones' "$(number whole 'communes refused')" 0
"$here/one_run.py" whole
across=$(number whole 'changes across borders')
[ "$across" -gt 0 ] || { echo 'FAILED: no change is across a border'; exit 1; }
[ "$(number whole 'rings that turn and points that change sides')" -gt 0 ] || { echo 'FAILED: no side is changed'; exit 1; }
all=$((across + $(number whole 'changes within communes')))
wanted 'the points of changes.gpkg' "$(ogrinfo -so -al whole/changes.gpkg | sed -n 's/^Feature Count: //p')" "$all"
ogr2ogr -f GeoJSON across.geojson whole/changes.gpkg -where 'first_commune <> second_commune'
wanted 'its points across' "$(jq '.features | length' across.geojson)" "$across"
wanted 'what names made in a shell' "$(find . -name 'PWNED')" ''

echo '== a second run'
touch mark
wanted 'the status' "$(ran whole)" 0
wanted 'the files that it wrote' "$(find whole -newer mark -type f ! -path '*/.snakemake/*')" ''
grep -q 'Nothing to be done' whole.log || { echo 'FAILED: snakemake does not say that nothing is to be done'; exit 1; }

echo '== runs that are killed'
# What is there of a kind of file.
count() { find killed -name "$1" -printf . 2>/dev/null | wc -c; }
# Runs until so many files of a kind are there, and kills it with all its jobs, or alone.
kill_at() {
    setsid "$here/run.sh" killed.yaml --cores 4 >killed.log 2>&1 &
    process=$!
    while [ "$(count "$1")" -lt "$2" ] && kill -0 "$process" 2>/dev/null; do sleep 0.02; done
    kill -9 "${3--}$process" 2>/dev/null || true
    wait "$process" 2>/dev/null || true
    echo "killed with $(count record.json) communes and $(count '*.geojsonl' | tr -d ' ') lists of changes"
    [ ! -e killed/summary.html ] || { echo 'FAILED: it ended before it was killed'; exit 1; }
}
kill_at record.json 5
kill_at record.json 20
# Without the workflow its jobs go on beside those of the next one.
kill_at record.json 35 ''
kill_at record.json 45
# How many communes of a list, which were whole, were made again after the mark.
made_again() {
    find killed/communes -name record.json -newer mark -print0 | sort -z | comm -z -12 - before >again
    tr -cd '\0' <again | wc -c
}
note() { touch mark && find killed/communes -name record.json -print0 | sort -z >before; }
note
kill_at 000?.geojsonl 2
wanted 'the whole communes that were made again' "$(made_again)" 0
# What a power cut may leave of a batch that was not synced: empty files under whole names.
first=$(jq -j '.communes[0].name' killed/work/batches/0002.json)
second=$(jq -j '.communes[1].name' killed/work/batches/0002.json)
note
for file in work/carried/0002.json "communes/$first/record.json" "communes/$second/layers/points.geojson"; do
    : >"killed/$file"
done
sleep 0.1
touch mark
wanted 'the status' "$(ran killed)" 0
same whole killed
wanted 'the whole communes that were made again' "$(made_again)" 2
wanted 'what is half made' "$(find killed -name '.new-*')" ''

echo '== communes that are refused, and one that is gone'
cp -r communes before_faults
truncate -s 500 communes/1021/points.geojson
sed -i 's/\[6[0-9]*\.[0-9]*,/[9600000.0,/' communes/1033/points.geojson
rm -r communes/1042/*
echo text >communes/1042/notes.txt
echo text >communes/1047/map.gpkg
rm -r communes/1050
touch mark
wanted 'the status' "$(ran whole)" 1
wanted 'the refused ones' "$(number whole 'communes refused')" 4
wanted 'the communes' "$(number whole communes)" 59
wanted 'the cause of 1021' "$(row whole/summary.csv 1021 cause)" layer
wanted 'the cause of 1033' "$(row whole/summary.csv 1033 cause)" outside
wanted 'the cause of 1042' "$(row whole/summary.csv 1042 cause)" 'no layer'
wanted 'the cause of 1047' "$(row whole/summary.csv 1047 cause)" conversion
wanted 'layers of what is refused or gone' "$(find whole/communes/1021 whole/communes/1033 whole/communes/1042 whole/communes/1047 -path '*/layers/*')" ''
[ ! -e whole/communes/1050 ] || { echo 'FAILED: a commune that is gone has results'; exit 1; }
wanted 'the communes that were made again' "$(find whole/communes -name record.json -newer mark | wc -l)" 4
"$here/one_run.py" whole
wanted 'the status of a second run' "$(ran whole)" 1

echo '== all mended'
rm -r communes
mv before_faults communes
wanted 'the status' "$(ran whole)" 0
same whole killed
echo
echo 'the workflow does what it should'
