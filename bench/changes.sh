#!/bin/sh
# How long a run takes whose changes are costly to find: a table with the time, its ratio to Python's json on a triangulation of
# N = 512, and the peak of memory. The arguments are names of rows (many, fan, equal, villages, lines); none are all of them.
# No part of the gate.
set -eu
top=$(CDPATH='' cd -- "$(dirname -- "$0")/.." && pwd)
folder=$(mktemp -d)
trap 'rm -rf "$folder"' EXIT
python3 "$top/bench/json_text.py" make 512 "$folder/t.json"
python3 "$top/bench/changes.py" make "$folder"

# The first run proves and builds the program where that is due, and is not counted.
cd "$folder"
printf 'POINT (1000 1000)\n' > p.wkt
"$top/tinmove" migrate --tin country.json --out out p.wkt > report
python3 "$top/bench/changes.py" time "$top/crates/tinmove/out/tinmove" "$folder" "$@"
