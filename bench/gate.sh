#!/bin/sh
# Runs the gate, and says how much processor time each crate took: its proof, the seed of its
# must-fail edits (the crate proved once more where it has more than one, and asked again after them),
# the edits themselves, and its tests.
# usage: bench/gate.sh [WORD..]     what the kit's 'rt ci' takes, if it takes any; its output is handed on
#        bench/gate.sh --anew       from nothing, whatever this machine has proved: for bench/gate.txt
# The gate's own output has no times, so its processes are looked at twice a second, by /proc: each
# run of the prover names its crate, and works in a folder of its own for an edit. What a process
# takes in its last half second is missing. Needs Linux and python3. The status is the gate's.
set -eu
cd -- "$(dirname -- "$0")/.."
exec python3 - "$@" <<'END'
import os, subprocess, sys, time

TICK = os.sysconf("SC_CLK_TCK")

def processes():
    """For each process: its parent, its own time, that of its ended children, its words and its folder."""
    found = {}
    for pid in filter(str.isdigit, os.listdir("/proc")):
        try:
            with open(f"/proc/{pid}/stat", encoding="utf-8", errors="replace") as file:
                fields = file.read().rpartition(")")[2].split()
            with open(f"/proc/{pid}/cmdline", "rb") as file:
                words = file.read().decode(errors="replace").split("\0")
            folder = os.readlink(f"/proc/{pid}/cwd")
        except OSError:
            continue
        own, children = int(fields[11]) + int(fields[12]), int(fields[13]) + int(fields[14])
        found[int(pid)] = int(fields[1]), own, children, words, folder, int(fields[19])
    return found

def kind_of(words, folder):
    """The crate and what is done with it, or None for a process that is no prover."""
    if len(words) < 2 or os.path.basename(words[0]) != "rattle" or words[1] not in ("check", "build"):
        return None
    if "--crate-name" not in words:
        return None
    name = words[words.index("--crate-name") + 1]
    if "/rt-edit-" in folder:
        over = words[words.index("--incremental") + 1] if "--incremental" in words else ""
        return name, "seed" if over.endswith("/seed") else "edits"
    return name, "tests" if "--test" in words else "proof"

taken = {}  # by process: its crate and kind, and the most time seen

def look(root):
    seen = processes()
    def is_below(pid):
        while pid in seen and pid != root:
            pid = seen[pid][0]
        return pid == root
    inside = {}
    for pid, (parent, own, children, words, folder, began) in seen.items():
        kind = kind_of(words, folder)
        if kind is None or not is_below(pid):
            continue
        top = pid
        while seen[top][0] in seen and kind_of(seen[seen[top][0]][3], seen[seen[top][0]][4]):
            top = seen[top][0]
        inside.setdefault((top, seen[top][5]), [kind_of(seen[top][3], seen[top][4]), 0])
        inside[top, seen[top][5]][1] += own + children
    for key, (kind, ticks) in inside.items():
        was = taken.get(key, (kind, 0))
        taken[key] = kind, max(was[1], ticks)

began = time.monotonic()
gate = subprocess.Popen(["rt", "ci", *sys.argv[1:]])
while gate.poll() is None:
    look(gate.pid)
    time.sleep(0.5)
minutes = (time.monotonic() - began) / 60

crates = {}
for (name, kind), ticks in taken.values():
    crates.setdefault(name, {}).setdefault(kind, 0)
    crates[name][kind] += ticks / TICK / 60
KINDS = "proof", "seed", "edits", "tests"
head, rows = f"{'crate':20}" + "".join(f"{it:>7}" for it in (*KINDS, "whole")), []
sums = dict.fromkeys(KINDS, 0)
for name, by in sorted(crates.items(), key=lambda it: -sum(it[1].values())):
    row = [by.get(kind, 0) for kind in sums]
    for kind, value in zip(sums, row):
        sums[kind] += value
    rows.append(f"{name:20}" + "".join(f"{value:7.1f}" for value in [*row, sum(row)]))
rows.append(f"{'all of these':20}" + "".join(f"{value:7.1f}" for value in [*sums.values(), sum(sums.values())]))
# checks/graph.py reads the proofs' minutes in gate.txt
print("\nminutes of processor time\n" + "\n".join([head, *rows]))
print(f"{minutes:.1f} minutes by the clock on {os.cpu_count()} processors; status {gate.returncode}")
sys.exit(gate.returncode)
END
