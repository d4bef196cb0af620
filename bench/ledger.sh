#!/bin/sh
# A campaign over the keeper in memory: runs of 100 pairs each are entered, all their pairs decided in order, and each run
# listed before and behind that and cleared. Prints a table: for each number of runs the processor time, the exponent of growth
# from the one before, and the ratio to Python, which does the same over a dictionary of seals and lists of pairs. Proves and
# builds a program in a folder of its own, outside the gate.
#
#     ledger.sh [RUNS..]      RUNS = 2500 5000 10000 20000, if nothing else is said
set -eu
[ $# -gt 0 ] || set -- 2500 5000 10000 20000
top=$(CDPATH='' cd -- "$(dirname -- "$0")/.." && pwd)
. "$top/bench/below.sh"
work=$(mktemp -d)
trap 'rm -rf "$work"' EXIT
crate=$work/crates/ledger_bench
mkdir -p "$crate/src"
copy_crates "$work" ledger_core
echo "ledger_bench: $copied anyhow" >> "$work/crates.txt"
cat > "$crate/src/main.rt" <<'END'
//! Enters so many runs of 100 pairs as its argument says, decides all, lists and clears them, and prints the microseconds
//! and how many replies were as they should be.
#![tactic(auto)]

use ledger_core::{Command, Mark, MemKeeper, Reply, Seal, obey};
use report_text::read_report;
use std::alloc::Global;
use std::env;
use std::time::CpuClock;

const PAIRS: u32 = 100;

/// The text of a report of 100 changes.
fn text_of(alloc: Global) -> anyhow::Result<String> {
    let mut text = String::new(alloc);
    text.push_str("tinmove report 1\ntriangulation corners 4 triangles 2 inexact 0 name s.json\nlayer 0 paths 200 segments 200 pieces 200 inexact 0 dropped 0 name nine.wkt\nchanges 100\n")?;
    for path in 0..PAIRS {
        let line = format!(in alloc; "change 0/{path}/0/0 0/{}/0/0 touching apart\n", path + 100)?;
        text.push_str(line.as_str())?;
    }
    text.push_str("end\n")?;
    Ok(text)
}

fn seal_of(run: u32) -> Seal {
    let mut bytes = [0u8; 32];
    let number = run.to_le_bytes();
    bytes[0] = number[0];
    bytes[1] = number[1];
    bytes[2] = number[2];
    Seal { bytes }
}

fn enter(alloc: Global, keeper: &mut MemKeeper, command: &mut Command, run: u32) -> bool {
    if let Command::Enter { seal, .. } = command {
        *seal = seal_of(run);
    }
    matches!(obey(alloc, keeper, command), Ok(Reply::Entered { .. }))
}

fn count_listed(alloc: Global, keeper: &mut MemKeeper, run: u32) -> usize {
    match obey(alloc, keeper, &Command::List { run }) {
        Ok(Reply::Listed(pairs)) => pairs.items().len(),
        _ => 0,
    }
}

fn decide(alloc: Global, keeper: &mut MemKeeper, run: u32, place: u32) -> bool {
    let command = Command::Decide {
        run,
        place,
        mark: Mark::Kept,
    };
    matches!(obey(alloc, keeper, &command), Ok(Reply::Decided))
}

fn is_clear(alloc: Global, keeper: &mut MemKeeper, run: u32) -> bool {
    matches!(obey(alloc, keeper, &Command::Clear { run }), Ok(Reply::Cleared))
}

fn main(rt: HostRuntime) -> anyhow::Result<()> {
    let alloc = rt.alloc();
    let mut runs = 0u32;
    for word in env::args(&rt)?.skip(1) {
        runs = word.parse()?;
    }
    let text = text_of(alloc)?;
    let mut command = Command::Enter {
        seal: seal_of(0),
        report: read_report(alloc, text.as_bytes())?,
    };
    let mut keeper = MemKeeper::new(alloc);
    let mut good = 0u64;
    let start = rt.thread_cpu_time()?;
    for run in 0..runs {
        good = good.saturating_add(u64::from(enter(alloc, &mut keeper, &mut command, run)));
    }
    for run in 1..=runs {
        good = good.saturating_add(count_listed(alloc, &mut keeper, run) as u64);
        for place in 0..PAIRS {
            good = good.saturating_add(u64::from(decide(alloc, &mut keeper, run, place)));
        }
    }
    for run in 1..=runs {
        good = good.saturating_add(count_listed(alloc, &mut keeper, run) as u64);
        good = good.saturating_add(u64::from(is_clear(alloc, &mut keeper, run)));
    }
    let microseconds = rt.thread_cpu_time()?.saturating_sub(start).as_micros();
    println!(rt; "{runs} {good} {microseconds}")?;
    Ok(())
}
END
cat > "$work/yardstick.py" <<'END'
"""The same campaign in Python. usage: yardstick.py RUNS; prints the processor time in microseconds"""
import sys
import time

runs, PAIRS = int(sys.argv[1]), 100
changes = [((0, path, 0, 0), (0, path + PAIRS, 0, 0), "touching", "apart") for path in range(PAIRS)]
start = time.process_time()
numbers, pairs, good = {}, [], 0
for run in range(runs):
    seal = run.to_bytes(4, "little") + bytes(28)
    if seal not in numbers:
        numbers[seal] = len(pairs) + 1
        pairs.append([[it, "undecided"] for it in changes])
        good += 1


def listed(run):
    return [(place, it[0]) for place, it in enumerate(pairs[run]) if it[1] == "undecided"]


for run in range(runs):
    good += len(listed(run))
    for place in range(PAIRS):
        pair = pairs[run][place]
        if pair[1] == "undecided":
            pair[1] = "kept"
            good += 1
for run in range(runs):
    good += len(listed(run))
    good += all(it[1] != "undecided" for it in pairs[run])
if good != 202 * runs:
    sys.exit("wrong replies")
print(round((time.process_time() - start) * 1000000))
END
cd "$crate"
rt run -- "$1" >"$work/first" 2>"$work/said" || { cat "$work/said" >&2; exit 1; }
for runs in "$@"; do
    echo "$(out/ledger_bench "$runs") $(python3 -S "$work/yardstick.py" "$runs")"
done | awk '
    BEGIN { print "| Runs | Pairs | Processor seconds | Growth | Python | Ratio |"; print "|---|---|---|---|---|---|" }
    { if ($2 != 202 * $1) { print "wrong replies over " $1 " runs: " $2; exit 1 }
      growth = NR > 1 ? sprintf("%.2f", log($3 / last) / log($1 / lastruns)) : "-"
      printf "| %d | %d | %.2f | %s | %.2f | %.2f |\n", $1, 100 * $1, $3 / 1000000, growth, $4 / 1000000, $3 / $4
      last = $3; lastruns = $1 }'
