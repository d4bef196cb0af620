#!/bin/sh
# What a ledger in a file takes, beside Python's sqlite3 that does the same with the same tables, the same log and a commit for each
# entered run and for each decision: scripts that enter runs of 100 pairs, decide on half of their pairs, and list a run. Prints a table of
# processor time and of time on the clock, and of each the ratio; then the sizes of both files.
# usage: bench/ledger_speed.sh [PROGRAM [RUNS]]     the built program, else the launcher builds it; 1,000 runs
# A decision waits for the disk: 50,000 of them may take some minutes. No part of the gate.
set -eu
top=$(CDPATH='' cd -- "$(dirname -- "$0")/.." && pwd)
program=${1:-}
if [ -z "$program" ]; then
    program=$top/crates/tinledger/out/tinledger
    "$top/tinledger" > /dev/null 2>&1 || [ $? -eq 2 ]
fi
program=$(readlink -f -- "$program")
folder=$(mktemp -d)
trap 'rm -rf "$folder"' EXIT
cd "$folder"
cat > python_ledger.py <<'END'
"""The same ledger by Python's sqlite3: the lines of a script over a database, and the replies."""
import hashlib
import sqlite3
import sys

CHANGE = ("layer", "path", "segment", "piece")
database = sqlite3.connect(sys.argv[1], isolation_level=None)
database.execute("PRAGMA journal_mode = wal")
database.execute("PRAGMA synchronous = full")
if not database.execute("SELECT count(*) FROM sqlite_schema WHERE name = 'runs'").fetchone()[0]:
    database.execute("CREATE TABLE runs (run INTEGER PRIMARY KEY, seal BLOB NOT NULL UNIQUE, pairs INTEGER NOT NULL) STRICT")
    numbers = ", ".join(f"{side}_{it} INTEGER NOT NULL" for side in ("first", "second") for it in CHANGE)
    database.execute(
        "CREATE TABLE pairs (run INTEGER NOT NULL, place INTEGER NOT NULL, verdict TEXT NOT NULL, was TEXT NOT NULL,"
        f" now TEXT NOT NULL, {numbers}, PRIMARY KEY (run, place)) STRICT"
    )


def digest(data):
    return hashlib.sha256(data).digest()


def bytes_of(name):
    with open(name, "rb") as file:
        return file.read()


def changes_of(report):
    for line in report.decode().splitlines():
        if line.startswith("change "):
            _, first, second, was, now = line.split(" ")
            yield (was, now, *map(int, first.split("/")), *map(int, second.split("/")))


def run_is_there(run):
    return database.execute("SELECT 1 FROM runs WHERE run = ?", (run,)).fetchone()


def enter(report, *layers):
    text = bytes_of(report)
    seal = digest(digest(text) + b"".join(digest(bytes_of(it)) for it in layers))
    found = database.execute("SELECT run FROM runs WHERE seal = ?", (seal,)).fetchone()
    if found:
        return f"known {found[0]}"
    run = database.execute("SELECT count(*) FROM runs").fetchone()[0] + 1
    rows = [(run, place, "undecided", *it) for place, it in enumerate(changes_of(text))]
    database.execute("BEGIN")
    database.execute("INSERT INTO runs VALUES (?, ?, ?)", (run, seal, len(rows)))
    database.executemany("INSERT INTO pairs VALUES (?, ?, ?, ?, ?, ?, ?, ?, ?, ?, ?, ?, ?)", rows)
    database.execute("COMMIT")
    return f"entered {run} pairs {len(rows)}"


def decide(run, place, mark):
    if not run_is_there(run):
        return "no run"
    found = database.execute("SELECT verdict FROM pairs WHERE run = ? AND place = ?", (run, place)).fetchone()
    if not found:
        return "no pair"
    if found[0] != "undecided":
        return f"settled {found[0]}"
    database.execute("UPDATE pairs SET verdict = ? WHERE run = ? AND place = ?", (mark, run, place))
    return "decided"


def list_open(run):
    if not run_is_there(run):
        return "no run"
    rows = database.execute("SELECT * FROM pairs WHERE run = ? AND verdict = 'undecided' ORDER BY place", (run,)).fetchall()
    lines = ["open %d %d/%d/%d/%d %d/%d/%d/%d %s %s" % (it[1], *it[5:], it[3], it[4]) for it in rows]
    return "\n".join([f"listed {len(lines)}", *lines])


ANSWERS = {"enter": enter, "decide": decide, "list": list_open}
replies = []
for line in bytes_of(sys.argv[2]).decode().splitlines():
    word, *rest = line.split(" ")
    replies.append(ANSWERS[word](*rest))
database.close()
print("\n".join(replies))
END
python3 - "$program" "${2:-1000}" <<'END'
import os, resource, subprocess, sys, time

program, runs = sys.argv[1], int(sys.argv[2])
PAIRS = 100
with open("nine.wkt", "w") as file:
    file.write("POINT (1.000 1.000)\n")
for run in range(runs):
    with open(f"r{run}.txt", "w") as file:
        file.write("tinmove report 1\ntriangulation corners 4 triangles 2 inexact 0 name s.json\n")
        file.write(f"layer 0 paths {run} segments 9 pieces 9 inexact 0 dropped 0 name nine.wkt\nchanges {PAIRS}\n")
        file.writelines(f"change 0/{place}/0/0 0/{place + 100}/0/0 touching apart\n" for place in range(PAIRS))
        file.write("end\n")
scripts = {
    f"enter {runs:,} runs": [f"enter r{run}.txt nine.wkt" for run in range(runs)],
    # (all pairs of a thousand runs are more lines than a script has bytes for)
    f"decide on {(runs + 1) // 2 * PAIRS:,} pairs": [f"decide {run + 1} {place} kept" for run in range((runs + 1) // 2) for place in range(PAIRS)],
    "list one run": [f"list {runs}"],
}
yardstick = [sys.executable, "-S", "python_ledger.py"]


def took(words, output):
    before, start = resource.getrusage(resource.RUSAGE_CHILDREN), time.monotonic()
    with open(output, "wb") as file:
        done = subprocess.run(words, stdout=file, stderr=subprocess.PIPE)
    if done.returncode != 0:
        sys.exit(f"status {done.returncode}: {done.stderr.decode()}")
    after = resource.getrusage(resource.RUSAGE_CHILDREN)
    return after.ru_utime + after.ru_stime - before.ru_utime - before.ru_stime, time.monotonic() - start


print("| What | `tinledger`, processor s | Python's `sqlite3` | ratio | `tinledger`, on the clock | Python's | ratio |")
print("|---|---|---|---|---|---|---|")
total = [0.0, 0.0]
for what, lines in scripts.items():
    with open("script", "w") as file:
        file.writelines(it + "\n" for it in lines)
    own = took([program, "ours.db", "script"], "ours.txt")
    other = took([*yardstick, "theirs.db", "script"], "theirs.txt")
    with open("ours.txt", "rb") as first, open("theirs.txt", "rb") as second:
        if first.read() != second.read():
            sys.exit(f"{what}: the replies are not the same")
    total = [total[0] + own[0], total[1] + other[0]]
    print(f"| {what} | {own[0]:.2f} | {other[0]:.2f} | {own[0] / other[0]:.2f} | {own[1]:.2f} | {other[1]:.2f} | {own[1] / other[1]:.2f} |", flush=True)
print(f"| all three | {total[0]:.2f} | {total[1]:.2f} | {total[0] / total[1]:.2f} | | | |")
print(f"\nThe file has {os.path.getsize('ours.db'):,} bytes, that of Python's {os.path.getsize('theirs.db'):,}.")
END
