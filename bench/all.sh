#!/usr/bin/env bash
# Writes the tables of docs/measured.md: runs the scripts of this folder over one build of one commit, and puts what each
# prints, with its command, the commit and the load, between the two comments of the page. First come the processors.
# usage: bench/all.sh [PART..]     the parts are the first words of PARTS below; without one, all
# A part that is not asked for keeps what the page has of it; one that fails is named, and keeps it too. Needs the built
# programs (or the launcher's toolchain, which builds them), python3, and what the scripts say at their heads. With all
# parts it takes half an hour on a quiet machine. Other scripts of this folder are run by hand; gate.txt has the
# minutes of proofs that gate.sh prints. The status is 1 where a part failed.
set -u
top=$(CDPATH='' cd -- "$(dirname -- "$0")/.." && pwd)
cd -- "$top" || exit 2
PARTS='
run|Whole runs|bench/run.sh
growth|Growth of whole runs|bench/whole_growth.py crates/tinmove/out/tinmove
verify|Verifying a written layer|bench/verify.sh
sides|Sides of rings|bench/sides.sh
points|Points with heights|bench/points.sh
file|A ledger in a file|bench/ledger_speed.sh
places|Changes on the map|bench/places.sh
carry|From a sheet to images and pieces|bench/carry.sh
check|Triangulations of growing size|env PART=check bench/large.sh
layouts|Boxes in layouts|env PART=layouts bench/large.sh 100000
costly|Triangulations that cost most|env PART=worst bench/large.sh
worst|The worst megabyte|bench/worst.py
tin|The file of a triangulation|bench/tin_file.sh
wkt|Well-known text|bench/wkt.sh
geojson|GeoJSON|bench/geojson.sh
dxf|Drawings|bench/dxf.sh
relations|Relations of two segments|bench/relations.sh
'
names=$(printf '%s' "$PARTS" | cut -d'|' -f1 | tr '\n' ' ')
for part in "$@"; do
    case " $names " in *" $part "*) ;; *) echo "all.sh: no part is called $part; they are:$names" >&2; exit 2 ;; esac
done
[ $# -gt 0 ] || set -- $names
# What a script prints, without the marks of a table, what the page says already, and what only passes or fails.
shorten() {
    sed -E '/^\|---/d; s/^\| //; s/ \|( \|)*$//; s/ \| /  /g' |
        grep -Ev 'json\.load of the triangulation of N|ogrinfo reads them|^bytes [0-9]+ points|as they should$|^the places fit|of migrate.s time|^$'
}
out=$(mktemp -d)
trap 'rm -rf "$out"' EXIT
commit=$(git rev-parse --short=8 HEAD 2>/dev/null || echo unknown)
git diff --quiet HEAD 2>/dev/null || commit="$commit with changes"
model=$(sed -n 's/^model name[^:]*: //p' /proc/cpuinfo | head -n 1)
printf '%s processors (%s), %s.\n' "$(nproc --all)" "$model" "$(date -u +%Y-%m-%d)" > "$out/head"
# One call of each program builds what is not built yet, so that no part is timed with a build.
for program in tinmove tinplaces tinledger; do
    ./$program > "$out/build" 2>&1
    [ $? -eq 125 ] && { cat "$out/build" >&2; exit 1; }
done
bad=0
for part in "$@"; do
    row=$(printf '%s' "$PARTS" | grep "^$part|")
    command=${row##*|}
    load=$(cut -d' ' -f1 /proc/loadavg)
    echo "== $command" >&2
    if $command > "$out/text" 2> "$out/errors"; then
        { printf '%s\n\n' "\`$command\`, commit $commit, load $load."; printf '```text\n'; shorten < "$out/text"; printf '```\n'; } > "$out/part.$part"
    else
        echo "all.sh: $command ended with status $?; $(tail -n 1 "$out/errors")" >&2
        bad=1
    fi
done
printf '%s' "$PARTS" > "$out/parts"
python3 - "$out" <<'END' || bad=1
import os, re, sys
out, page = sys.argv[1], "docs/measured.md"
first, last = "<!-- begin all.sh -->", "<!-- end all.sh -->"
text = open(page, encoding="utf-8").read()
if text.count(first) != 1 or text.count(last) != 1:
    sys.exit(f"all.sh: {page} lacks a line {first} or {last}")
head, rest = text.split(first)
block, tail = rest.split(last)
old = dict(re.findall(r"(?ms)^### (.*?)\n\n(.*?)(?=^### |\Z)", block.strip("\n") + "\n"))
with open(os.path.join(out, "head"), encoding="utf-8") as file:
    rows = [file.read()]
for line in open(os.path.join(out, "parts"), encoding="utf-8"):
    if line.count("|") != 2:
        continue
    name, title, _ = line.strip().split("|")
    made = os.path.join(out, f"part.{name}")
    body = open(made, encoding="utf-8").read() if os.path.exists(made) else old.get(title)
    if body:
        rows.append(f"### {title}\n\n{body.strip()}\n")
open(page, "w", encoding="utf-8").write(head + first + "\n" + "\n".join(rows) + last + tail)
END
exit $bad
