#!/bin/sh
# What large maps cost. First 'check' of triangulations of N by N cells: processor time, most memory, the ratio to Python's
# json.load of the same text in the same run, and the exponent of growth from one N to the next. Then boxes in five layouts
# over the grid alone: time to build it, to tell each pair of boxes that share a point once, and to find what is near each box,
# beside evenly spread boxes. Builds a program in a folder of its own, outside the gate.
#
#     large.sh [BOXES [N..]]      200000 boxes and N = 64 128 256 512, if nothing else is said
#     PART=check or PART=layouts  runs one of the two alone
#     PART=worst                  runs 'check' of the triangulations that cost it most instead (worst_tins.py)
set -eu
part=${PART:-both}
boxes=${1:-200000}
[ $# -gt 0 ] && shift
[ $# -gt 0 ] || set -- 64 128 256 512
top=$(CDPATH='' cd -- "$(dirname -- "$0")/.." && pwd)
. "$top/bench/below.sh"
work=$(mktemp -d)
trap 'rm -rf "$work"' EXIT

# ---- the worst
if [ "$part" = worst ]; then
    python3 "$top/bench/json_text.py" make 1 "$work/1.json"
    "$top/tinmove" check --tin "$work/1.json" >/dev/null
    python3 "$top/bench/worst_tins.py" "$top/crates/tinmove/out/tinmove" "$work"
    exit 0
fi

# ---- check
if [ "$part" != layouts ]; then
    for count in "$@"; do
        python3 "$top/bench/json_text.py" make "$count" "$work/$count.json"
    done
    # The first run proves and builds the program where that is due, and is not counted.
    "$top/tinmove" check --tin "$work/$1.json" >/dev/null
    python3 "$top/bench/growth.py" "$work" "$top/crates/tinmove/out/tinmove" "$@"
fi
[ "$part" != check ] || exit 0

# ---- layouts
crate=$work/crates/grid_bench
mkdir -p "$crate/src" "$crate/specs" "$crate/proofs/boxes"
copy_crates "$work" cell_grid
echo "grid_bench: $copied anyhow" >> "$work/crates.txt"
# The tests of the grid say which boxes they take. The same functions and proofs serve here.
tests=$top/crates/tin_tests
ours() {
    sed -e 's/tin_tests\.proofs\.cell_grid_tests/grid_bench.proofs.boxes/; s/tin_tests/grid_bench/g' "$1"
}
ours "$tests/specs/SmallBoxes.antt" > "$crate/specs/SmallBoxes.antt"
echo 'pub mod SmallBoxes' > "$crate/specs/Lib.antt"
for name in is_small are_small; do
    mkdir "$crate/proofs/boxes/$name"
    for file in "$tests/proofs/cell_grid_tests/$name"/*.antt; do
        ours "$file" > "$crate/proofs/boxes/$name/$(basename "$file")"
    done
done
ours "$tests/src/cell_grid_tests.rt" | sed -e '/^fn near(/,$d' -e '/std::test::Fail/d' -e 's/^fn /pub fn /' > "$crate/src/boxes.rt"
sed "s/@BOXES@/$boxes/" > "$crate/src/main.rt" <<'END'
//! Measures the grid over boxes in several layouts.
#![tactic(auto)]

mod boxes;

use boxes::{all_near, grid_over, pairs};
use plane_base::Rect;
use std::alloc::{AllocError, Global};
use std::time::CpuClock;

const BOXES: u64 = @BOXES@;

#[derive(Clone, Copy, PartialEq, Eq, Debug)]
enum Layout {
    Even,
    TwoVillages,
    TenVillages,
    Chain,
    TwelveOctaves,
}

// A number below a bound, and the next state of the generator (xorshift).
fn random(state: &mut u64, below: u64) -> i64 {
    let mut next = *state;
    next ^= next << 13;
    next ^= next >> 7;
    next ^= next << 17;
    *state = next;
    i64::try_from(next % below.max(1)).unwrap_or(0)
}

// The low corner of a village, along a diagonal of the country.
fn village(number: u64, count: u64) -> i64 {
    let share = 170_000_000 / count.saturating_sub(1).max(1);
    i64::try_from((number % count.max(1)).saturating_mul(share)).unwrap_or(0)
}

fn place(layout: Layout, number: u64, state: &mut u64) -> [i64; 4] {
    let mut size = random(state, 3000).saturating_add(5000);
    let mut x = 0;
    let mut y = 0;
    match layout {
        Layout::Even => {
            x = random(state, 3_000_000);
            y = random(state, 3_000_000);
        }
        Layout::TwoVillages => {
            let at = village(number, 2);
            x = random(state, 2_100_000).saturating_add(at);
            y = random(state, 2_100_000).saturating_add(at);
        }
        Layout::TenVillages => {
            let at = village(number, 10);
            x = random(state, 950_000).saturating_add(at);
            y = random(state, 950_000).saturating_add(at);
        }
        Layout::Chain => {
            size = random(state, 300).saturating_add(500);
            x = i64::try_from(number.saturating_mul(600) % 170_000_000).unwrap_or(0);
            y = x;
        }
        Layout::TwelveOctaves => {
            let least: i64 = 1 << (random(state, 12).clamp(0, 11) as u32 + 7);
            size = random(state, least.unsigned_abs()).saturating_add(least);
            x = random(state, 60_000_000);
            y = random(state, 60_000_000);
        }
    }
    let high = random(state, size.unsigned_abs()).saturating_add(1);
    let low = -90_000_000;
    x = x.saturating_add(low);
    y = y.saturating_add(low);
    [x, y, x.saturating_add(size), y.saturating_add(high)]
}

fn boxes_of(alloc: Global, layout: Layout) -> Result<Vec<Rect>, AllocError> {
    let mut state = 12_345;
    let mut made = Vec::new(alloc);
    for number in 0..BOXES {
        let [x0, y0, x1, y1] = place(layout, number, &mut state);
        made.push(Rect { x0, y0, x1, y1 })?;
    }
    Ok(made)
}

fn main(rt: HostRuntime) -> anyhow::Result<()> {
    println!(rt; "layout levels pairs near build_us pairs_us near_us")?;
    for layout in [
        Layout::Even,
        Layout::TwoVillages,
        Layout::TenVillages,
        Layout::Chain,
        Layout::TwelveOctaves,
    ] {
        let made = boxes_of(rt.alloc(), layout)?;
        let start = rt.thread_cpu_time()?;
        let grid = grid_over(rt.alloc(), &made)?;
        let built = rt.thread_cpu_time()?;
        let told = pairs(rt.alloc(), &grid, made.len() as u32)?;
        let paired = rt.thread_cpu_time()?;
        let near = all_near(rt.alloc(), &grid, &made)?;
        let found = rt.thread_cpu_time()?;
        println!(rt; "{layout:?} {} {told} {near} {} {} {}", grid.levels(), built.saturating_sub(start).as_micros(),
            paired.saturating_sub(built).as_micros(), found.saturating_sub(paired).as_micros())?;
    }
    Ok(())
}
END
(cd "$crate" && rt run > "$work/log" 2>&1) || true
program=$crate/out/grid_bench
[ -x "$program" ] || { tail -n 30 "$work/log"; exit 1; }
"$program" | awk -v boxes="$boxes" '
NR == 1 { printf "%-14s %7s %9s %9s %8s %8s %8s %7s\n", "boxes " boxes, "levels", "pairs", "near", "build ms", "pairs ms", "near ms", "ratio"; next }
{
    all = $5 + $6
    if (NR == 2) even = all > 0 ? all : 1
    printf "%-14s %7d %9d %9d %8.0f %8.0f %8.0f %7.2f\n", $1, $2, $3, $4, $5 / 1000, $6 / 1000, $7 / 1000, all / even
}'
