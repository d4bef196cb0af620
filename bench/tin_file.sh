#!/bin/sh
# Reads a triangulation file of N = 512 by read_tin, from bytes to corners and triangles, and prints the processor time of
# one reading and the peak of memory, beside what Python's json takes for the same bytes. It builds a program over the
# crates of this repository in a folder of its own, outside the gate.
#
#     tin_file.sh [N]          the file of N * N squares, 512 where there is no N
#     tin_file.sh FILE ..      these files, each in turn
set -e
here=$(pwd)
top=$(cd "$(dirname "$0")/.." && pwd)
. "$top/bench/below.sh"
work=$(mktemp -d)
trap 'rm -rf "$work"' EXIT
mkdir -p "$work/crates/tin_bench/src"
copy_crates "$work" tin_file
echo 'tin_bench: jtext sheet_base tin_base tin_file anyhow' >> "$work/crates.txt"
cat > "$work/crates/tin_bench/src/main.rt" <<'END'
//! Reads the file `made.json` five times, and prints how fast.
#![tactic(auto)]

use jtext::read_json;
use sheet_base::How;
use std::fs;
use std::time::CpuClock;
use tin_file::{MOST_BYTES, read_tin};

/// How often the file is read.
const ROUNDS: u64 = 5;

fn main(rt: HostRuntime) -> anyhow::Result<()> {
    let bytes = fs::read(&rt, "made.json")?;
    if bytes.len() > MOST_BYTES {
        return Ok(());
    }
    let how = How {
        exact: false,
        drop_other: false,
        inside_only: false,
    };
    let start = rt.thread_cpu_time()?;
    let mut corners: u64 = 0;
    let mut triangles: u64 = 0;
    for _ in 0..ROUNDS {
        if let Ok(tin) = read_tin(rt.alloc(), &bytes, how) {
            corners = corners.saturating_add(tin.corners().len() as u64);
            triangles = triangles.saturating_add(tin.triangles().len() as u64);
        }
    }
    let whole = rt.thread_cpu_time()?.saturating_sub(start).as_micros();
    let start = rt.thread_cpu_time()?;
    let mut nodes: u64 = 0;
    for _ in 0..ROUNDS {
        if let Ok(doc) = read_json(rt.alloc(), &bytes) {
            nodes = nodes.saturating_add(doc.nodes.items().len() as u64);
        }
    }
    let json = rt.thread_cpu_time()?.saturating_sub(start).as_micros();
    let rounds = u128::from(ROUNDS);
    println!(rt; "bytes {} corners {} triangles {}", bytes.len(), corners / ROUNDS, triangles / ROUNDS)?;
    println!(rt; "read_tin: {} ms, of which read_json some {} ms", whole / 1000 / rounds, json / 1000 / rounds)?;
    Ok(())
}
END
# The run that builds the program has no file at hand and is not counted.
(cd "$work/crates/tin_bench" && rt run > "$work/log" 2>&1) || true
program="$work/crates/tin_bench/out/tin_bench"
[ -x "$program" ] || { tail -n 20 "$work/log"; exit 1; }

# Runs the program over this file, and Python's json.
compare() {
    printf '%s\n' "$(basename "$1")"
    ln -sf "$1" "$work/made.json"
    (cd "$work" && python3 -c 'import resource, subprocess, sys
done = subprocess.run([sys.argv[1]], stdout=subprocess.PIPE, text=True)
print(done.stdout, end="")
if done.returncode or not done.stdout:
    sys.exit("tin_file.sh: the program refuses the file: status %d" % done.returncode)
print("most memory: %d KiB" % resource.getrusage(resource.RUSAGE_CHILDREN).ru_maxrss)' "$program")
    python3 "$top/bench/json_text.py" time "$1"
}

case ${1:-512} in
    *[!0-9]*)
        for name in "$@"; do
            case $name in
                /*) compare "$name" ;;
                *) compare "$here/$name" ;;
            esac
        done ;;
    *)
        python3 "$top/bench/json_text.py" make "${1:-512}" "$work/squares.json"
        compare "$work/squares.json" ;;
esac
