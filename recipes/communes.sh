#!/bin/sh
# Carries a handful of communes, one run each, as many at once as there are processors.
# usage: communes.sh [--again] TIN.json FROM TO
# FROM has one folder for each commune, of any name, with its layers (.geojson, .json, .wkt, .dxf).
# Each is made in a new folder, which takes the commune's name in TO when it is whole: the carried
# layers, report.txt, messages.txt and status.txt. What TO had of it, or of a commune that FROM no longer
# has, is removed before. With --again a commune stays as it is where its status was 0 or 1, its report
# names this triangulation, and its layers, the triangulation and the program are not newer: so an
# interrupted call goes on. The last lines name each refused commune and count how the runs ended. The
# status is the greatest of the runs: 0, 1 where only changes were listed; 125 where not all runs were
# made. Neither of FROM and TO may hold the other. Needs find and xargs with -0 and -P, realpath with -m
# (Debian: findutils, coreutils) and tinmove, or the program that TINMOVE names.
# For a country, with what meets across borders: recipes/country.
set -eu
again=
if [ "${1-}" = --again ]; then again=1; shift; fi
[ $# -eq 3 ] || { echo 'usage: communes.sh [--again] TIN.json FROM TO' >&2; exit 2; }
tin=$1 from=$2 to=$3
program=$(command -v -- "${TINMOVE:-tinmove}") || { echo "communes.sh: there is no program ${TINMOVE:-tinmove}" >&2; exit 2; }
[ -d "$from" ] || { echo "communes.sh: there is no folder $from" >&2; exit 2; }
[ -f "$tin" ] || { echo "communes.sh: there is no file $tin" >&2; exit 6; }
# Each run is in the folder of its commune, whose name is then in no word that the program reads.
absolute() { (CDPATH='' cd -- "$1" && pwd); }
from=$(realpath -- "$from")
to=$(realpath -m -- "$to")
tin=$(absolute "$(dirname -- "$tin")")/$(basename -- "$tin")
case $program in */*) program=$(absolute "$(dirname -- "$program")")/$(basename -- "$program") ;; esac
case $from/ in "$to"/*) echo "communes.sh: TO may not hold FROM" >&2; exit 2 ;; esac
case $to/ in "$from"/*) echo "communes.sh: FROM may not hold TO" >&2; exit 2 ;; esac
mkdir -p -- "$to"
export again tin program to

# What FROM no longer has goes. Only folders that a call of this script made have a status.txt.
from=$from find "$to" -mindepth 2 -maxdepth 2 -name status.txt -exec sh -c '
    for file; do
        name=${file%/status.txt}
        name=${name##*/}
        [ -d "$from/$name" ] || rm -rf "${to:?}/$name"
    done' sh {} +

ended=0
# shellcheck disable=SC2016
find "$from/" -mindepth 1 -maxdepth 1 -xtype d ! -name '.*' -print0 | xargs -0 -r -n 1 -P "$(nproc)" sh -c '
    folder=$1
    name=${folder##*/}
    made=$to/$name/status.txt
    # The report names its triangulation. The date of a link is that of its file.
    if [ -n "$again" ] && grep -qx "[01]" "$made" 2>/dev/null &&
        [ "$(sed -n "2s/^triangulation corners [0-9]* triangles [0-9]* inexact [0-9]* name //p" "$to/$name/report.txt")" = "$tin" ] &&
        newer=$(find -L "$folder/" "$tin" "$program" -newer "$made" -print -quit) && [ -z "$newer" ]; then exit 0; fi
    rm -rf "${to:?}/$name"
    new=$(mktemp -d "$to/.new-XXXXXX") || exit 1
    chmod 755 "$new"
    cd -- "$folder" || exit 1
    set --
    for file in *; do
        case $file in
            *.[gG][eE][oO][jJ][sS][oO][nN] | *.[jJ][sS][oO][nN] | *.[wW][kK][tT] | *.[dD][xX][fF]) set -- "$@" "$file" ;;
        esac
    done
    status=0
    touch "$new/start"
    "$program" migrate --tin "$tin" --out "$new" -- "$@" >"$new/report.txt" 2>"$new/messages.txt" || status=$?
    echo "$status" >"$new/status.txt"
    touch -r "$new/start" "$new/status.txt" && rm "$new/start" && mv "$new" "$to/$name"' sh || ended=$?
rm -rf "$to"/.new-??????

# The status of each commune of FROM, of 125 where its run left none.
greatest=0
counts=
for folder in "$from"/*/; do
    [ -d "$folder" ] || continue
    name=${folder%/}
    name=${name##*/}
    status=$(cat "$to/$name/status.txt" 2>/dev/null) || status=
    case $status in '' | *[!0-9]*) status=125 ;; esac
    counts="$counts$status
"
    [ "$status" -le 1 ] || printf 'status %s: %s\n' "$status" "$name" | LC_ALL=C tr -c '\040-\176\200-\377\n' '?'
    [ "$status" -le "$greatest" ] || greatest=$status
done
printf %s "$counts" | sort -n | uniq -c | while read -r count status; do echo "status $status: $count runs"; done
# xargs ends with 123 where a run failed; with any other status not all runs were made.
case $ended in 0 | 123) ;; *) echo "communes.sh: the runs were broken off" >&2; [ "$greatest" -ge 125 ] || greatest=125 ;; esac
exit "$greatest"
