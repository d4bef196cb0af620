#!/bin/sh
# Finds the relation of ten million random pairs of segments of each of four kinds by rel, and prints the processor time of one.
# It builds a program over the crates of this repository in a folder of its own, outside the gate.
set -e
top=$(cd "$(dirname "$0")/.." && pwd)
. "$top/bench/below.sh"
work=$(mktemp -d)
trap 'rm -rf "$work"' EXIT
mkdir -p "$work/crates/relations_bench/src" "$work/crates/relations_bench/proofs/related"
copy_crates "$work" meet_rel
cat > "$work/crates/relations_bench/src/main.rt" <<'END'
//! Finds the relation of ten million random pairs of segments of each kind, and prints the nanoseconds of one.
#![tactic(auto)]

ghost use Rattle.relations_bench.specs.Small.{IsSmall};

use meet_rel::rel;
use plane_base::Pt;
use std::time::CpuClock;
use tin_base::Rel;

/// How many pairs of each kind.
const PAIRS: u64 = 10_000_000;

fn at(x: u16, y: u16) -> Pt
    ensures { IsSmall result }
{
    Pt {
        x: i64::from(x / 2),
        y: i64::from(y / 2),
    }
}

/// A next number that looks random.
fn step(state: u64) -> u64 {
    let mixed = state ^ (state >> 12);
    let mixed = mixed ^ mixed.wrapping_mul(33_554_432);
    mixed ^ (mixed >> 27)
}

fn related(numbers: [u16; 8]) -> Rel {
    let [ax, ay, bx, by, cx, cy, dx, dy] = numbers;
    rel(at(ax, ay), at(bx, by), at(cx, cy), at(dx, dy))
}

/// The relation of two segments whose eight numbers are taken from two states: all bits, or the last four, or on one line, or short.
fn pair_rel(kind: u8, first: u64, second: u64) -> Rel {
    let [a, b, c, d] = parts(first);
    let [e, f, g, h] = parts(second);
    match kind {
        0 => related([a, b, c, d, e, f, g, h]),
        1 => related([a % 16, b % 16, c % 16, d % 16, e % 16, f % 16, g % 16, h % 16]),
        2 => related([a, 7, c, 7, e, 7, g, 7]),
        _ => related([a, b, a ^ (c % 256), b ^ (d % 256), e, f, e ^ (g % 256), f ^ (h % 256)]),
    }
}

fn parts(state: u64) -> [u16; 4] {
    let [a, b, c, d, e, f, g, h] = state.to_le_bytes();
    [
        u16::from_le_bytes([a, b]),
        u16::from_le_bytes([c, d]),
        u16::from_le_bytes([e, f]),
        u16::from_le_bytes([g, h]),
    ]
}

fn main(rt: HostRuntime) -> anyhow::Result<()> {
    for (kind, name) in [(0, "wide"), (1, "in a small grid"), (2, "on one line"), (3, "short")] {
        let start = rt.thread_cpu_time()?;
        let mut state: u64 = 88_172_645_463_325_252;
        let mut counts: [u64; 4] = [0; 4];
        for _ in 0..PAIRS {
            let next = step(state);
            let relation = pair_rel(kind, state, next);
            let place = relation as usize;
            counts[place] = counts[place].wrapping_add(1);
            state = step(next);
        }
        let nanoseconds = rt.thread_cpu_time()?.saturating_sub(start).as_nanos();
        println!(rt; "{name}: {} ns a pair, apart touching crossing overlapping {counts:?}", nanoseconds / 10_000_000)?;
    }
    Ok(())
}
END
mkdir -p "$work/crates/relations_bench/specs"
cat > "$work/crates/relations_bench/specs/Small.antt" <<'END'
-- Points near the origin.
use Rattle.std.specs.Prelude.{◌≤◌, unsigned_abs}
use Rattle.plane_base.specs.declared.shapes.Pt.{Pt}

-- both numbers are small
pub record IsSmall (p : Pt) : Type 0 where
  pub x : unsigned_abs p.x ≤ 32768
  pub y : unsigned_abs p.y ≤ 32768
END
cat > "$work/crates/relations_bench/proofs/related/Answers.antt" <<'END'
-- Answers to the goals of `related` in src/main.rt.
use Rattle.plane_base.specs.Plane.{IsNear}
use Rattle.plane_base.specs.declared.shapes.Pt.{Pt}
use Rattle.plane_base.proofs.Bounds.NearPoints.{near_small}
use Rattle.relations_bench.specs.Small.{IsSmall}
use Rattle.relations_bench.proofs.related.Goals as goal

near : (p q : Pt) → IsSmall p → IsSmall q → IsNear p q
near p q h k = near_small p q h.x h.y k.x k.y

pub rel-requires : goal.rel-requires
rel-requires c =
    let p = c.at.result in let q = c.at-2.result in let r = c.at-3.result in let s = c.at-4.result in
    let hp = c.at.ensures in let hq = c.at-2.ensures in let hr = c.at-3.ensures in let hs = c.at-4.ensures in (
      (near p q hp hq, near p r hp hr, near q r hq hr),
      (near p q hp hq, near p s hp hs, near q s hq hs),
      near r s hr hs,
    )
END
echo '-- The files of lemmas: none.' > "$work/crates/relations_bench/proofs/Lib.antt"
printf '%s\n' '-- The file of definitions.' 'pub mod Small' > "$work/crates/relations_bench/specs/Lib.antt"
echo "relations_bench: $copied anyhow" >> "$work/crates.txt"
cd "$work/crates/relations_bench"
rt run
