#!/bin/sh
# Reads a triangulation file of N = 512 by read_json, and prints megabytes a second of processor time and the peak of
# memory, beside Python's json on the same file. It builds a program over the crates of this repository in a folder of
# its own, outside the gate.
set -e
count=${1:-512}
top=$(cd "$(dirname "$0")/.." && pwd)
. "$top/bench/below.sh"
work=$(mktemp -d)
trap 'rm -rf "$work"' EXIT
mkdir -p "$work/crates/json_bench/src"
copy_crates "$work" jtext
cat > "$work/crates/json_bench/src/main.rt" <<'END'
//! Reads the file `made.json` ten times, and prints how fast.
#![tactic(auto)]

use jtext::read_json;
use std::fs;
use std::time::CpuClock;

/// How often the file is read.
const ROUNDS: u64 = 10;

fn main(rt: HostRuntime) -> anyhow::Result<()> {
    let bytes = fs::read(&rt, "made.json")?;
    if bytes.len() >= 1 << 32 {
        return Ok(());
    }
    let start = rt.thread_cpu_time()?;
    let mut nodes: u64 = 0;
    for _ in 0..ROUNDS {
        if let Ok(doc) = read_json(rt.alloc(), &bytes) {
            nodes = nodes.saturating_add(doc.nodes.items().len() as u64);
        }
    }
    let microseconds = rt.thread_cpu_time()?.saturating_sub(start).as_micros();
    let read = u128::from(ROUNDS) * bytes.len() as u128;
    println!(rt; "bytes {} nodes {}", bytes.len(), nodes / ROUNDS)?;
    if microseconds > 0 {
        println!(rt; "read_json: {} MB a second", read / microseconds)?;
    }
    Ok(())
}
END
echo 'json_bench: jtext anyhow' >> "$work/crates.txt"
python3 "$top/bench/json_text.py" make "$count" "$work/made.json"
# The run that builds the program has no file at hand and is not counted.
(cd "$work/crates/json_bench" && rt run > "$work/log" 2>&1) || true
program="$work/crates/json_bench/out/json_bench"
[ -x "$program" ] || { tail -n 20 "$work/log"; exit 1; }
(cd "$work" && "$program" && python3 -c 'import resource, subprocess, sys
subprocess.run([sys.argv[1]], stdout=subprocess.DEVNULL)
print("most memory: %d KiB" % resource.getrusage(resource.RUSAGE_CHILDREN).ru_maxrss)' "$program")
python3 "$top/bench/json_text.py" time "$work/made.json"
