# What the benchmarks of layers share (wkt.sh, geojson.sh, dxf.sh). It is read by them, and is no program.
# Each of them builds the program, makes a layer of its format as $layer in the folder $folder, and measures.
set -eu
top=$(CDPATH='' cd -- "$(dirname -- "$0")/.." && pwd)
. "$top/bench/below.sh"
folder=$(mktemp -d)
trap 'rm -rf "$folder"' EXIT

# build TYPE LAYER CRATE..: builds a program over the crates of this repository, those of the format named last, in $folder.
# It reads the file LAYER as TYPE, which the last crate has, and, where made.json is a sound triangulation, carries and writes it.
build() {
    type=$1 layer=$2
    shift 2
    for crate in "$@"; do :; done
    mkdir -p "$folder/crates/layer_bench/src"
    copy_crates "$folder" carry_map tin_check tin_file tin_index "$@"
    echo "layer_bench: $copied anyhow" >> "$folder/crates.txt"
    sed -e "s/FORMAT/$type/g" -e "s/CRATE/$crate/g" -e "s/LAYER/$layer/g" > "$folder/crates/layer_bench/src/main.rt" <<'END'
//! Reads the layer `LAYER`, carries it through the triangulation `made.json`, and writes it, and prints how long each takes.
#![tactic(auto)]

use CRATE::FORMAT;
use carry_map::{MOST_PIECES, carry};
use sheet_base::{How, Layer};
use std::alloc::Global;
use std::fs;
use std::time::CpuClock;
use tin_check::check_tin;
use tin_file::{MOST_BYTES, read_tin};
use tin_index::TinIndex;

/// How many points, images and bytes written there are, and when reading begins and reading, carrying and writing end, in
/// microseconds.
#[derive(Clone, Copy)]
struct Figures {
    points: usize,
    images: usize,
    written: usize,
    times: [u128; 4],
}

fn how() -> How {
    How {
        exact: false,
        drop_other: false,
        inside_only: false,
    }
}

fn index_of(alloc: Global, text: &[u8]) -> Option<TinIndex> {
    if text.len() as u64 > MOST_BYTES as u64 {
        return None;
    }
    let tin = read_tin(alloc, text, how()).ok()?;
    let sound = check_tin(alloc, tin).ok()?;
    TinIndex::build(alloc, sound).ok()
}

/// The processor time of this thread, in microseconds.
fn now(rt: &HostRuntime) -> u128 {
    match rt.thread_cpu_time() {
        Ok(time) => time.as_micros(),
        Err(_) => 0,
    }
}

/// Reads the layer to its sheet, carries that through the index, where there is one, and writes the layer.
fn measure(rt: &HostRuntime, bytes: &[u8], index: Option<&TinIndex>) -> Option<Figures> {
    if bytes.len() > 1 << 26 {
        return None;
    }
    let how = how();
    let start = now(rt);
    let sheet = FORMAT::read(rt.alloc(), bytes, how).ok()?;
    let first = now(rt);
    let mut figures = Figures {
        points: sheet.points().len(),
        images: 0,
        written: 0,
        times: [start, first, first, first],
    };
    if let Some(index) = index {
        let mut pieces = Vec::new(rt.alloc());
        let images = carry(rt.alloc(), index, &sheet, 0, MOST_PIECES, &mut pieces).ok()?;
        let second = now(rt);
        let text = FORMAT::render(rt.alloc(), bytes, how, &sheet, &images).ok()?;
        figures.images = images.points().len();
        figures.written = text.len();
        figures.times = [start, first, second, now(rt)];
    }
    Some(figures)
}

fn main(rt: HostRuntime) -> anyhow::Result<()> {
    let bytes = fs::read(&rt, "LAYER")?;
    let text = fs::read(&rt, "made.json")?;
    let index = index_of(rt.alloc(), &text);
    if let Some(figures) = measure(&rt, &bytes, index.as_ref()) {
        let [start, first, second, third] = figures.times;
        println!(rt; "{} {} {}", figures.points, figures.images, figures.written)?;
        println!(rt; "{start} {first} {second} {third}")?;
    }
    Ok(())
}
END
    # The run that builds the program finds no layer, and is not counted.
    (cd "$folder/crates/layer_bench" && rt run > "$folder/log" 2>&1) || true
    program="$folder/crates/layer_bench/out/layer_bench"
    [ -x "$program" ] || { tail -n 40 "$folder/log"; exit 1; }
}

# run_program TITLE: runs it $rounds times over the layer and the triangulation, and prints the least processor time of
# reading (Layer::read), carrying (carry) and writing (Layer::render): in milliseconds, as a multiple of what Python's json.load
# takes for the triangulation of N = 512 in the same run, and in megabytes of what is read or written a second. Then the peak of
# memory: of the layer's bytes, and of its points. Where all three are done, the pieces are held too.
run_program() {
    echo "$1"
    cd "$folder"
    [ -f yardstick.json ] || python3 "$top/bench/json_text.py" make 512 yardstick.json
    python3 - "$program" "$layer" "$rounds" <<'END'
import json, os, resource, subprocess, sys, time

program, layer, rounds = sys.argv[1:]
runs = []
for _ in range(int(rounds)):
    said = subprocess.run([program], check=True, stdout=subprocess.PIPE).stdout.split()
    runs.append([int(word) for word in said])
peak = resource.getrusage(resource.RUSAGE_CHILDREN).ru_maxrss * 1024
with open("yardstick.json", "rb") as source:
    text = source.read()
times = []
for _ in range(3):
    start = time.process_time()
    json.loads(text)
    times.append(time.process_time() - start)
yardstick = min(times) * 1e6
points, images, written = runs[0][:3]
size = os.path.getsize(layer)
print("bytes %d points %d images %d written %d" % (size, points, images, written))
print("json.load of the triangulation of N = 512: %.0f ms" % (yardstick / 1e3))
for name, first, last, amount in ("read", 3, 4, size), ("carried", 4, 5, size), ("written", 5, 6, written), ("all", 3, 6, size):
    least = min(run[last] - run[first] for run in runs)
    if least:
        print("%-8s %6.0f ms  %.2f times json.load  %4.0f MB/s" % (name, least / 1e3, least / yardstick, amount / least))
print("most memory %.0f MiB, %.1f bytes a byte of the layer, %.0f bytes a point" % (peak / 2**20, peak / size, peak / max(points, 1)))
END
}

# Over a text that is no triangulation the layer is read and no more.
measure_reading() {
    echo '{}' > "$folder/made.json"
    run_program 'reading alone'
}

# measure_all TITLE VERTICES TRIANGLES: the layer is read, carried through this triangulation, and written.
measure_all() {
    printf '%s' '{"file_type":"triangulation_file","format_version":"1.1",' \
        '"transformed_components":["horizontal"],' \
        '"vertices_columns":["source_x","source_y","target_x","target_y"],' \
        '"triangles_columns":["idx_vertex1","idx_vertex2","idx_vertex3"],' \
        '"vertices":[' "$2" '],"triangles":[' "$3" ']}' > "$folder/made.json"
    run_program "$1"
}
