#!/usr/bin/env bash
# Whether the documents fit the repository, and are plain: runs the scripts of this folder that read
# documents, each with its own lines. Needs Python 3.11. No part of the gate.
# usage: checks/docs.sh [--write]
# With --write all that a script writes into pages is written first: lists, totals, counts, pictures.
# The last line is 'the documents fit'; the status is 1 where they do not.
set -u
[ $# -eq 0 ] || [ "$*" = --write ] || { echo "docs.sh: it takes no words but --write" >&2; exit 2; }
cd -- "$(dirname -- "$0")/.." || exit 2
bad=0
run() { echo "== $*"; python3 -B "checks/$1" "${@:2}" || bad=1; }
if [ $# -eq 1 ]; then
    for script in reading.py graph.py picture.py; do run "$script"; done
    run documents.py --counts
fi
run documents.py
run reading.py --check
run graph.py --check
run definitions.py
run rules.py
run english.py --comments
run words.py
run picture.py --check
echo
[ "$bad" -eq 0 ] && echo 'the documents fit'
exit $bad
