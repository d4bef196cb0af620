#!/bin/sh
# Reads ten million numerals of the kind 2600123.456 by read_mm, and prints the processor time of one.
# It builds a program over the crates of this repository in a folder of its own, outside the gate.
set -e
top=$(cd "$(dirname "$0")/.." && pwd)
. "$top/bench/below.sh"
work=$(mktemp -d)
trap 'rm -rf "$work"' EXIT
mkdir -p "$work/crates/numerals_bench/src"
copy_crates "$work" mm_decimal
cat > "$work/crates/numerals_bench/src/main.rt" <<'END'
//! Reads ten million numerals of the kind `2600123.456`, and prints the nanoseconds of one.
#![tactic(auto)]

use mm_decimal::{read_mm, write_mm};
use std::alloc::{AllocError, Global};
use std::time::CpuClock;

/// How many numerals are written, and how often all of them are read.
const TEXTS: u32 = 10_000;
const ROUNDS: u32 = 1_000;

/// Texts of seven digits, a point and three digits, each of another number.
fn numerals(alloc: Global) -> Result<Vec<Vec<u8>>, AllocError> {
    let mut texts = Vec::new(alloc);
    for i in 0..TEXTS {
        let mut out = [0; 24];
        let length = write_mm(2_600_000_000 + i64::from(i) * 12_347, &mut out);
        texts.push(out[..length].to_vec(alloc)?)?;
    }
    Ok(texts)
}

/// The millimetres of all texts together, added with wrapping, and how many were refused.
fn sums(texts: &[Vec<u8>]) -> (i64, u32) {
    let mut sum: i64 = 0;
    let mut refused: u32 = 0;
    for text in texts {
        match read_mm(text.as_slice()) {
            Ok(read) => sum = sum.wrapping_add(read.mm),
            Err(_) => refused = refused.saturating_add(1),
        }
    }
    (sum, refused)
}

fn main(rt: HostRuntime) -> anyhow::Result<()> {
    let texts = numerals(rt.alloc())?;
    let start = rt.thread_cpu_time()?;
    let mut sum: i64 = 0;
    let mut refused: u32 = 0;
    for _ in 0..ROUNDS {
        let (more, fewer) = sums(&texts);
        sum = sum.wrapping_add(more);
        refused = refused.saturating_add(fewer);
    }
    let nanoseconds = rt.thread_cpu_time()?.saturating_sub(start).as_nanos();
    let read = u128::from(ROUNDS) * u128::from(TEXTS);
    println!(rt; "numerals {read} refused {refused} sum {sum}")?;
    println!(rt; "picoseconds a numeral {}", nanoseconds * 1000 / read)?;
    Ok(())
}
END
echo 'numerals_bench: mm_decimal anyhow' >> "$work/crates.txt"
cd "$work/crates/numerals_bench"
rt run
