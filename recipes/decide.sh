#!/bin/sh
# Decisions on the changes of a campaign, one commune after the other, kept in a ledger of tinledger.
# usage: decide.sh carry DB TIN.json FOLDER LAYER...       carries the layers into FOLDER, and enters the run
#        decide.sh take DB FOLDER kept|mended CONDITION    decides on the changes for which the condition holds
#        decide.sh hand DB FOLDER TABLE.csv                decides on changes as the table's column decision says
#        decide.sh clear DB FOLDER...                      says of each run whether all is decided
#        decide.sh open DB FOLDER...                       prints what is not, as CSV
# FOLDER is a commune's: carry writes the carried layers there, report.txt, run.txt (the number of the run)
# and changes.csv, a row for each change with its place on the map, its gap, the features of both sides
# (numbers, and handles of a drawing) and an empty column decision. Where all was carried so before,
# changes.csv stays as a person filled it in.
# CONDITION is one of sqlite3 on the columns of changes.csv, as "gap_mm <= 1 AND now = 'apart'". TABLE.csv
# has the columns change and decision (kept, mended, or empty), as changes.csv filled in by hand.
# What was decided stays: it is counted as settled. Needs sqlite3 and jq (Debian: sqlite3, jq), and
# tinmove, tinplaces and tinledger, or the programs that TINMOVE, TINPLACES and TINLEDGER name.
# Status 0: done; of clear 1: something is not decided. Any other one is that of the program that refused.
set -eu
refuse() { printf 'decide.sh: %s\n' "$1" >&2; exit "${2:-2}"; }
usage() { sed -n 's/^# usage: /usage: /p; s/^#        decide/       decide/p' "$0" >&2; exit 2; }
absolute() { case $1 in /*) printf '%s' "$1" ;; *) printf '%s' "$PWD/$1" ;; esac; }
program() { # the program of this name, or the one that is set for it
    found=$(command -v -- "$2") || refuse "there is no program $2"
    case $found in */*) absolute "$found" ;; *) printf '%s' "$found" ;; esac
}
[ $# -ge 2 ] || usage
command=$1 db=$(absolute "$2")
shift 2
for tool in sqlite3 jq; do command -v $tool >/dev/null || refuse "$tool is missing"; done
ledger=$(program tinledger "${TINLEDGER:-tinledger}")
room=$(mktemp -d)
trap 'rm -rf -- "$room"' EXIT
trap 'exit 130' INT
trap 'exit 143' TERM

# Has the ledger obey the script of the room; its replies. What it says on standard error is handed on.
obey() {
    ended=0
    (cd -- "$room" && exec "$ledger" "$db" script) >"$room/replies" || ended=$?
    # After replies to lines that were obeyed the last line says why it stopped.
    [ "$ended" -eq 0 ] || refuse "$(tail -n 1 "$room/replies")" "$ended"
}
run_of() { # the number of the run of a folder
    number=$(cat -- "$1/run.txt" 2>/dev/null) || refuse "$1 has no run: carry it first" 6
    case $number in '' | *[!0-9]*) refuse "$1/run.txt has no number of a run" 6 ;; esac
    printf '%s' "$number"
}
# Obeys the room's table over a database in memory, without what a person's .sqliterc sets.
query() { (cd -- "$room" && exec sqlite3 -batch -bail -init /dev/null :memory: <table); }
# Counts the replies to decisions.
count() { sort "$room/replies" | uniq -c | sed 's/^ *\([0-9]*\) \(.*\)/\2: \1/'; }

carry() {
    [ $# -ge 3 ] || usage
    tin=$1 folder=$2
    shift 2
    tinmove=$(program tinmove "${TINMOVE:-tinmove}") tinplaces=$(program tinplaces "${TINPLACES:-tinplaces}")
    # The places first: where FOLDER holds the layers, migrate replaces them.
    status=0
    "$tinplaces" --tin "$tin" -- "$@" >"$room/places.geojson" 2>"$room/said" || status=$?
    [ "$status" -le 1 ] || { cat "$room/said" >&2; refuse "$(head -n 1 "$room/places.geojson")" "$status"; }
    status=0
    "$tinmove" migrate --tin "$tin" --out "$folder" -- "$@" >"$room/report.txt" || status=$?
    [ "$status" -le 1 ] || refuse "$(head -n 1 "$room/report.txt")" "$status"
    jq -r '["change", "was", "now", "gap_mm", "x", "y", "first_layer", "first", "first_feature",
            "second_layer", "second", "second_feature", "decision"],
        (.features[] | .geometry.coordinates as [$x, $y] | .properties
            | [.change, .was, .now, .gap_mm, $x, $y, .first_layer, .first, .first_feature,
                .second_layer, .second, .second_feature, ""]) | @csv' \
        "$room/places.geojson" >"$room/changes.csv"
    # The script names links, whose names have no blank.
    printf 'enter report.txt' >"$room/script"
    number=0
    for layer in "$@"; do
        ln -s -- "$(absolute "$folder")/${layer##*/}" "$room/$number"
        printf ' %s' "$number" >>"$room/script"
        number=$((number + 1))
    done
    printf '\n' >>"$room/script"
    obey
    cat "$room/replies"
    run=$(sed -n 's/^entered \([0-9]*\) .*/\1/p; s/^known //p' "$room/replies")
    [ -n "$run" ] || refuse 'the ledger is full' 9
    # A table that a person may have filled in stays where the folder is of this run already.
    if grep -q '^known ' "$room/replies" && [ -e "$folder/changes.csv" ] &&
        [ "$(cat -- "$folder/run.txt" 2>/dev/null)" = "$run" ] && cmp -s -- "$room/report.txt" "$folder/report.txt"; then
        return 0
    fi
    cp -- "$room/report.txt" "$room/changes.csv" "$folder"
    printf '%s\n' "$run" >"$folder/run.txt"
}

# Decides on the changes of this list, a line each: its number and a mark.
decide() { # the run
    while read -r change mark; do printf 'decide %s %s %s\n' "$1" "$change" "$mark"; done <"$room/list" >"$room/script"
    obey
    count
}

take() {
    [ $# -eq 3 ] || usage
    case $2 in kept | mended) ;; *) usage ;; esac
    run=$(run_of "$1")
    cp -- "$1/changes.csv" "$room/changes.csv" || refuse "$1 has no changes.csv: carry it first" 6
    printf '%s\n' 'CREATE TABLE changes (change INTEGER, was TEXT, now TEXT, gap_mm INTEGER, x REAL, y REAL, first_layer TEXT, first TEXT, first_feature TEXT, second_layer TEXT, second TEXT, second_feature TEXT, decision TEXT);' \
        '.import --csv --skip 1 changes.csv changes' '.separator " "' >"$room/table"
    printf "SELECT change, '%s' FROM changes WHERE (%s\n) ORDER BY change;\n" "$2" "$3" >>"$room/table"
    query >"$room/list" || refuse "the condition is none of sqlite3: $3"
    decide "$run"
}

hand() {
    [ $# -eq 2 ] || usage
    run=$(run_of "$1")
    cp -- "$2" "$room/hand.csv" || refuse "$2: no file" 6
    printf '%s\n' '.import --csv hand.csv hand' '.separator " "' \
        "SELECT change, decision FROM hand WHERE trim(decision) <> '' ORDER BY CAST(change AS INTEGER);" >"$room/table"
    query >"$room/list" || refuse "$2 has no columns change and decision" 4
    wrong=$(grep -n -v -x -E '(0|[1-9][0-9]*) (kept|mended)' "$room/list" | head -n 1 || true)
    [ -z "$wrong" ] || refuse "$2: change and decision are '${wrong#*:}', and not a number and kept or mended" 4
    decide "$run"
}

clear() {
    [ $# -ge 1 ] || usage
    for folder in "$@"; do
        run=$(run_of "$folder")
        printf 'clear %s\n' "$run" >>"$room/script"
    done
    obey
    status=0
    for folder in "$@"; do
        read -r reply
        printf '%s: %s\n' "$folder" "$reply"
        [ "$reply" = clear ] || status=1
    done <"$room/replies"
    exit "$status"
}

open() {
    [ $# -ge 1 ] || usage
    [ -f "$db" ] || refuse "$db: no file" 6
    ln -s -- "$db" "$room/ledger.db"
    for folder in "$@"; do
        run=$(run_of "$folder")
        printf '%s,"%s"\n' "$run" "$(printf '%s' "$folder" | sed 's/"/""/g')" >>"$room/names.csv"
    done
    printf '%s\n' 'CREATE TABLE names (run INTEGER, folder TEXT);' '.import --csv names.csv names' \
        "ATTACH 'ledger.db' AS ledger;" '.mode csv' '.separator , "\n"' \
        "SELECT folder, run, place, was, now, first_layer || '/' || first_path || '/' || first_segment || '/' || first_piece ,
            second_layer || '/' || second_path || '/' || second_segment || '/' || second_piece
         FROM names JOIN ledger.pairs USING (run) WHERE verdict = 'undecided' ORDER BY run, place;" >"$room/table"
    echo 'folder,run,place,was,now,first,second'
    status=0
    query || status=$?
    # A reader that has seen enough ends sqlite3 by a signal.
    [ "$status" -eq 0 ] || [ "$status" -gt 128 ] || refuse "sqlite3 does not read $db" 10
}

case $command in carry | take | hand | clear | open) "$command" "$@" ;; *) usage ;; esac
