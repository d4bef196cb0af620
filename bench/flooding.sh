#!/bin/sh
# Reads a triangulation file whose vertex rows were chosen so that the default hasher of the kit's maps puts all of them
# into a thirty-second of a hash table, and one of as many rows that were not chosen. It prints the processor time of one
# reading of each: the two are alike where no row can foresee its hash. With that hasher 65,536 chosen rows took 45 times
# as long as others, and 131,072 took 95 times as long.
#
#     flooding.sh [ROWS]       131072 where there is no number
set -e
count=${1:-131072}
top=$(cd "$(dirname "$0")/.." && pwd)
files=$(mktemp -d)
trap 'rm -rf "$files"' EXIT
for kind in ordinary chosen; do
    python3 "$top/bench/flooding.py" "$kind" "$count" "$files/$kind.json"
done
sh "$top/bench/tin_file.sh" "$files/ordinary.json" "$files/chosen.json"
