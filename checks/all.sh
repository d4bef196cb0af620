#!/usr/bin/env bash
# Runs the checks that the gate does not run, one after the other, and says how each ended. It starts no prover and builds nothing.
# usage: checks/all.sh quick [TINMOVE TINPLACES TINLEDGER]     after each change, under two minutes: documents, words, names, the
#                                                              graph of crates, messages, help, standard error
#        checks/all.sh full [TINMOVE TINPLACES TINLEDGER]      before a release, some hours: these, the launcher, hostile bytes, memory
#                                                              and disks that fail, recipes, QGIS, a country
# The programs are those that are given, else those that the last 'rt ci' here built, else those that the launchers built. What
# needs a program, a command or root that is not there is left out, and the last line says so. The whole list of Debian's packages:
#   bsdutils util-linux man-db bsdextrautils gcc sqlite3 gdal-bin python3-gdal proj-bin python3-ezdxf jq dpkg-dev lintian qgis
#   python3-qgis snakemake slurm-wlm munge
# A script that fails shows the end of what it printed. The last line has the names of those that passed, failed and were left
# out; the status is 1 where one failed.
set -u
top=$(cd -- "$(dirname -- "$0")/.." && pwd) || exit 2
usage() { echo "all.sh: usage: checks/all.sh quick|full [TINMOVE TINPLACES TINLEDGER]" >&2; exit 2; }
case ${1:-} in quick | full) ;; *) usage ;; esac
[ $# -eq 1 ] || [ $# -eq 4 ] || usage
extent=$1
shift
folder=$(mktemp -d)
trap 'rm -rf -- "$folder"' EXIT

# The folder `programs` has a link to each program that is there.
mkdir "$folder/programs"
# What was built of the sources as they are now, by the launcher.
built_by_launcher() (
    program=$1
    # shellcheck source=tools/seen
    . "$top/tools/seen"
    ! is_as_seen || printf '%s' "$built"
)
for name in tinmove tinplaces tinledger; do
    if [ $# -gt 0 ]; then
        file=$(readlink -f -- "$1")
        if [ ! -f "$file" ] || [ ! -x "$file" ]; then
            echo "all.sh: $1 is no program" >&2
            exit 2
        fi
        shift
    else
        file=$top/crates/$name/out/$name
        [ -x "$file" ] || file=$(built_by_launcher "$name")
    fi
    [ -z "$file" ] || ln -s -- "$file" "$folder/programs/$name"
done
PATH=$folder/programs:$PATH
tinmove=$folder/programs/tinmove tinplaces=$folder/programs/tinplaces tinledger=$folder/programs/tinledger

passed=() failed=() left_out=()

# The first need that is not met, or nothing: a command, 'root', or 'python:MODULE' of Debian's Python.
missing() {
    local need
    for need in $1; do
        case $need in
            root) [ "$(id -u)" = 0 ] || { echo root; return; } ;;
            python:*) /usr/bin/python3 -c "import ${need#python:}" 2>/dev/null || { echo "${need#python:}"; return; } ;;
            *) command -v -- "$need" >/dev/null || { echo "$need"; return; } ;;
        esac
    done
}

# Runs a script of the checkout in a new folder: what it needs, its name, its words.
run() {
    local lacks name=$2 began=$SECONDS
    lacks=$(missing "$1")
    if [ -n "$lacks" ]; then
        printf 'left out  %s: no %s\n' "$name" "$lacks"
        left_out+=("$name (no $lacks)")
        return
    fi
    mkdir -p "$folder/in"
    if (cd -- "$folder/in" && "$top/$name" "${@:3}") >"$folder/log" 2>&1 </dev/null; then
        printf 'passed    %s: %s, %d s\n' "$name" "$(grep -v '^ *$' "$folder/log" | tail -n 1)" $((SECONDS - began))
        passed+=("$name")
    else
        printf 'FAILED    %s, %d s; its last lines:\n' "$name" $((SECONDS - began))
        tail -n 20 "$folder/log" | sed 's/^/    /'
        failed+=("$name")
    fi
    rm -rf -- "$folder/in"
}

run python3 checks/docs.sh
run python3 checks/messages.sh
run "man col tinmove" checks/help.sh "$tinmove"
run "script tinmove tinplaces tinledger" checks/standard_error.sh "$tinmove" "$tinplaces" "$tinledger"
if [ "$extent" = full ]; then
    run "" checks/launcher_test.sh
    run "gcc tinmove tinplaces" checks/growths.sh "$tinmove" "$tinplaces"
    run "root tinmove" checks/full_disk.sh "$tinmove"
    run "sqlite3 tinledger" checks/ledger_files.sh "$tinledger"
    run tinmove checks/check_certificates.py 5000 1 "$tinmove"
    run "tinmove tinplaces tinledger" checks/hostile.sh 50000 1 "$tinmove" "$tinplaces" "$tinledger"
    run "ogr2ogr python:ezdxf tinmove" checks/heights.sh "$tinmove"
    run "ogr2ogr python:osgeo tinmove tinplaces" checks/there_and_back.sh "$tinmove" "$tinplaces"
    run "ogr2ogr cct jq sqlite3 python:osgeo python:ezdxf tinmove tinplaces tinledger" recipes/try.sh "$tinmove" "$tinplaces" "$tinledger"
    run "ogr2ogr cct jq sqlite3 python:osgeo python:ezdxf tinmove tinplaces tinledger" recipes/try_guide.py "$tinmove" "$tinplaces" "$tinledger"
    run "qgis_process.bin ogr2ogr tinmove tinplaces" recipes/qgis/try.sh "$folder/programs"
    run "snakemake ogr2ogr jq setsid tinmove tinplaces" recipes/country/try.sh "$tinmove" "$tinplaces"
    run "root snakemake ogr2ogr munged slurmctld sinfo tinmove tinplaces" recipes/country/try_slurm.sh "$tinmove" "$tinplaces"
fi

# The names in a row, with commas between them.
row() { if [ $# -eq 0 ]; then echo none; else printf '%s, ' "$@" | sed 's/, $//'; fi; }
printf '%s: passed: %s; failed: %s; left out: %s\n' "$extent" "$(row "${passed[@]}")" "$(row "${failed[@]}")" "$(row "${left_out[@]}")"
[ ${#failed[@]} -eq 0 ]
