#!/bin/sh
# How fast a layer goes through a triangulation, apart from the comparing of its pieces: the time from a sheet to images and
# pieces, beside Python's json.load of the triangulation's text in the same run. First the layer of two lines in each cell, of
# N = 512: 524288 segments and 1048576 pieces. Then N lines from side to side, with the exponent of growth in pieces.
# Builds a program in a folder of its own, outside the gate.
#
#     carry.sh [N [N..]]      N = 64 128 256 512 for the lines, if nothing else is said
set -eu
[ $# -gt 0 ] || set -- 64 128 256 512
top=$(CDPATH='' cd -- "$(dirname -- "$0")/.." && pwd)
. "$top/bench/below.sh"
work=$(mktemp -d)
trap 'rm -rf "$work"' EXIT
crate=$work/crates/carry_bench
mkdir -p "$crate/src"
copy_crates "$work" carry_map tin_check tin_file wkt_layer
echo "carry_bench: $copied anyhow" >> "$work/crates.txt"
cat > "$crate/src/main.rt" <<'END'
//! Carries the layer `layer.wkt` through the triangulation `made.json`, and prints on a line each how many images and pieces
//! there are, and how long each step takes in microseconds.
#![tactic(auto)]

use carry_map::{MOST_PIECES, carry};
use sheet_base::{How, Images, Layer, Sheet};
use std::alloc::Global;
use std::fs;
use std::time::CpuClock;
use tin_base::{Piece, SoundTin, Tin};
use tin_check::check_tin;
use tin_file::{MOST_BYTES, read_tin};
use tin_index::TinIndex;
use wkt_layer::Wkt;

const PLAIN: How = How {
    exact: false,
    drop_other: false,
    inside_only: false,
};

const MOST_OF_LAYER: usize = 1 << 26;

fn read_triangulation(rt: &HostRuntime) -> Option<Tin> {
    let text = fs::read(rt, "made.json").ok()?;
    if text.len() > MOST_BYTES {
        return None;
    }
    read_tin(rt.alloc(), &text, PLAIN).ok()
}

fn check_triangulation(alloc: Global, tin: Tin) -> Option<SoundTin> {
    check_tin(alloc, tin).ok()
}

fn read_layer(rt: &HostRuntime) -> Option<Sheet> {
    let text = fs::read(rt, "layer.wkt").ok()?;
    if text.len() > MOST_OF_LAYER {
        return None;
    }
    <Wkt as Layer>::read(rt.alloc(), &text, PLAIN).ok()
}

fn carry_sheet(alloc: Global, index: &TinIndex, sheet: &Sheet) -> Option<(Images, usize)> {
    let mut pieces = Vec::<Piece>::new(alloc);
    let images = carry(alloc, index, sheet, 0, MOST_PIECES, &mut pieces).ok()?;
    Some((images, pieces.len()))
}

/// The processor time of this thread in microseconds.
fn now(rt: &HostRuntime) -> u64 {
    match rt.thread_cpu_time() {
        Ok(time) => u64::try_from(time.as_micros()).unwrap_or(0),
        Err(_) => 0,
    }
}

fn say(rt: &HostRuntime, number: u64) {
    let _ = println!(rt; "{number}");
}

fn carry_all(rt: &HostRuntime) -> Option<()> {
    let tin = read_triangulation(rt)?;
    let begun = now(rt);
    let sound = check_triangulation(rt.alloc(), tin)?;
    let checked = now(rt);
    let index = TinIndex::build(rt.alloc(), sound).ok()?;
    let indexed = now(rt);
    let sheet = read_layer(rt)?;
    let read = now(rt);
    let (images, pieces) = carry_sheet(rt.alloc(), &index, &sheet)?;
    let carried = now(rt);
    say(rt, images.points().len() as u64);
    say(rt, pieces as u64);
    say(rt, checked.saturating_sub(begun));
    say(rt, indexed.saturating_sub(checked));
    say(rt, read.saturating_sub(indexed));
    say(rt, carried.saturating_sub(read));
    Some(())
}

fn main(rt: HostRuntime) {
    let _ = carry_all(&rt);
}
END
(cd "$crate" && rt run > "$work/log" 2>&1) || true
program=$crate/out/carry_bench
[ -x "$program" ] || { tail -n 30 "$work/log"; exit 1; }
cd "$work"
printf '%-14s %8s %8s %9s %9s %9s %7s %7s\n' layer points pieces 'check ms' 'index ms' 'carry ms' ratio growth
row() { # the name of the row, N, the kind of layer
    python3 "$top/bench/json_text.py" make "$2" made.json
    python3 "$top/bench/carry_text.py" "$3" "$2" layer.wkt
    yardstick=$(python3 -c 'import json, time
best = 9e9
for _ in range(3):
    start = time.process_time()
    json.load(open("made.json"))
    best = min(best, time.process_time() - start)
print(best * 1e6)')
    # the file 'before' has the pieces and the microseconds of the row before
    for _ in 1 2 3; do "$program" | paste -s -d ' ' -; done | sort -n -k 6 | head -n 1 | awk -v name="$1" -v json="$yardstick" '
    NF != 6 { print "carry.sh: the program refuses " name > "/dev/stderr"; exit 1 }
    {
        growth = "-"
        if ((getline last < "before") > 0) {
            split(last, was, " ")
            growth = sprintf("%.2f", log($6 / was[2]) / log($2 / was[1]))
        }
        close("before")
        printf "%-14s %8d %8d %9.0f %9.0f %9.1f %7.2f %7s\n", name, $1, $2, $3 / 1000, $4 / 1000, $6 / 1000, $6 / json, growth
        print $2, ($6 > 0 ? $6 : 1) > "before"
    }'
}
row 'two a cell' 512 cells
rm before
for count in "$@"; do
    row "$count lines" "$count" lines
done
