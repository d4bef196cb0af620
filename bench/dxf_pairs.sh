#!/bin/sh
# Reads a drawing of LINE and LWPOLYLINE entities (about 30 MB, lines that end in a carriage return and a line feed) by
# read_pairs, and prints megabytes a second of processor time and the peak of memory. It builds a program over the crates
# of this repository in a folder of its own, outside the gate.
set -e
count=${1:-101000}
top=$(cd "$(dirname "$0")/.." && pwd)
. "$top/bench/below.sh"
work=$(mktemp -d)
trap 'rm -rf "$work"' EXIT
mkdir -p "$work/crates/pairs_bench/src"
copy_crates "$work" dxf_pairs
cat > "$work/crates/pairs_bench/src/main.rt" <<'END'
//! Reads the file `made.dxf` ten times, and prints how fast.
#![tactic(auto)]

use dxf_pairs::read_pairs;
use std::fs;
use std::time::CpuClock;

/// How often the file is read.
const ROUNDS: u64 = 10;

fn main(rt: HostRuntime) -> anyhow::Result<()> {
    let bytes = fs::read(&rt, "made.dxf")?;
    if bytes.len() >= 1 << 32 {
        return Ok(());
    }
    let start = rt.thread_cpu_time()?;
    let mut count: u64 = 0;
    for _ in 0..ROUNDS {
        if let Ok(pairs) = read_pairs(rt.alloc(), &bytes) {
            count = count.saturating_add(pairs.len() as u64);
        }
    }
    let microseconds = rt.thread_cpu_time()?.saturating_sub(start).as_micros();
    let read = u128::from(ROUNDS) * bytes.len() as u128;
    println!(rt; "bytes {} pairs {}", bytes.len(), count / ROUNDS)?;
    if microseconds > 0 {
        println!(rt; "read_pairs: {} MB a second", read / microseconds)?;
    }
    Ok(())
}
END
echo 'pairs_bench: dxf_pairs anyhow' >> "$work/crates.txt"
awk -v count="$count" 'function field(code, value) { printf "%3d\r\n%s\r\n", code, value }
BEGIN {
    field(0, "SECTION"); field(2, "ENTITIES")
    for (i = 0; i < count; i++) {
        x = i * 7919 % 1000000 / 10
        y = int(i / 1000) * 1.25
        field(0, "LINE"); field(5, sprintf("%X", i + 256)); field(8, "PARCEL")
        field(10, sprintf("%.4f", x)); field(20, sprintf("%.4f", y)); field(30, "0.0")
        field(11, sprintf("%.4f", x + 12.5)); field(21, sprintf("%.4f", y + 7.75)); field(31, "0.0")
        field(0, "LWPOLYLINE"); field(5, sprintf("%X", i + 1000000)); field(8, "ROAD"); field(90, 4); field(70, 1)
        for (k = 0; k < 4; k++) {
            field(10, sprintf("%.4f", x + k)); field(20, sprintf("%.4f", y + k % 2))
        }
    }
    field(0, "ENDSEC"); field(0, "EOF")
}' > "$work/made.dxf"
# The run that builds the program has no file at hand and is not counted.
(cd "$work/crates/pairs_bench" && rt run > "$work/log" 2>&1) || true
program="$work/crates/pairs_bench/out/pairs_bench"
[ -x "$program" ] || { tail -n 20 "$work/log"; exit 1; }
(cd "$work" && "$program" && python3 -c 'import resource, subprocess, sys
subprocess.run([sys.argv[1]], stdout=subprocess.DEVNULL)
print("most memory: %d KiB" % resource.getrusage(resource.RUSAGE_CHILDREN).ru_maxrss)' "$program")
