#!/bin/sh
# Whether a run ends well when memory is refused: of seven small runs (a point, a line and a point,
# GeoJSON, a drawing, two layers, a made map, and tinplaces over three layers), each call of the
# allocator is refused once, one a run. Prints a line for each run: how many growths it has, and with
# how many of them refused it ended with want of memory (8), with a read fault (6) or a write fault (7)
# because a call of the system found no memory, or as if nothing had been refused (what is only said on
# standard error). Ends with 1 where a run ended otherwise, printed another line than its status has,
# made a layer that is neither missing nor whole, or left a file beside.
# usage: checks/growths.sh [PROGRAM [PLACES]]     the built programs, else the launchers build them; with
#                                                 PROGRAM alone the run of tinplaces is left out
# No part of the gate. It takes a C compiler, and a program that calls malloc of the GNU C library.
set -eu
top=$(CDPATH='' cd -- "$(dirname -- "$0")/.." && pwd)
program=${1:-}
places=${2:-}
if [ -z "$program" ]; then
    program=$top/crates/tinmove/out/tinmove
    "$top/tinmove" make 1 > /dev/null
    places=$top/crates/tinplaces/out/tinplaces
    "$top/tinplaces" --tin none none.wkt > /dev/null 2>&1 || [ $? -eq 6 ]
fi
folder=$(mktemp -d)
trap 'rm -rf "$folder"' EXIT
cd "$folder"
cat > growths.c <<'END'
// An allocator that counts its calls in a file, and refuses the one whose number it is told.
#include <errno.h>
#include <fcntl.h>
#include <stddef.h>
#include <stdlib.h>
#include <sys/mman.h>
#include <unistd.h>

extern void *__libc_malloc(size_t);
extern void *__libc_calloc(size_t, size_t);
extern void *__libc_realloc(void *, size_t);
extern void *__libc_memalign(size_t, size_t);

static volatile unsigned long *calls;
static unsigned long refused;

__attribute__((constructor)) static void begin(void) {
    const char *name = getenv("GROWTHS_FILE"), *number = getenv("GROWTHS_REFUSED");
    int file = name ? open(name, O_RDWR) : -1;
    if (file < 0) return;
    void *page = mmap(0, sizeof *calls, PROT_READ | PROT_WRITE, MAP_SHARED, file, 0);
    close(file);
    if (page == MAP_FAILED) return;
    refused = number ? strtoul(number, 0, 10) : 0;
    calls = page;
}

static int is_refused(void) {
    if (!calls || ++*calls != refused) return 0;
    errno = ENOMEM;
    return 1;
}

void *malloc(size_t size) { return is_refused() ? 0 : __libc_malloc(size); }
void *calloc(size_t count, size_t size) { return is_refused() ? 0 : __libc_calloc(count, size); }
void *realloc(void *old, size_t size) { return is_refused() ? 0 : __libc_realloc(old, size); }
void *memalign(size_t align, size_t size) { return is_refused() ? 0 : __libc_memalign(align, size); }
void *aligned_alloc(size_t align, size_t size) { return is_refused() ? 0 : __libc_memalign(align, size); }
int posix_memalign(void **out, size_t align, size_t size) {
    if (is_refused()) return ENOMEM;
    *out = __libc_memalign(align, size);
    return *out ? 0 : ENOMEM;
}
END
cc -O1 -shared -fPIC -o growths.so growths.c
python3 - "$program" "$top/crates/tinmove/data" "$places" <<'END'
import os, shutil, struct, subprocess, sys

program, data, places = os.path.abspath(sys.argv[1]), sys.argv[2], sys.argv[3]
here = os.getcwd()
NAMES = {"POINT (5 0)": "a.wkt", "POINT (6 4)": "dot.wkt", "LINESTRING (10 0, 0 10)": "line.wkt",
    "LINESTRING (10 0, 0 10)\nPOINT (6 4)": "nine.wkt"}
for text, name in NAMES.items():
    with open(name, "w") as file:
        file.write(text)
for name in "u.json", "s.json", "wells.geojson", "walls.dxf":
    shutil.copy(os.path.join(data, name), name)


def migrate(tin, *layers):
    return ["migrate", "--tin", tin, "--out", "o"] + list(layers)


RUNS = [("a point", migrate("u.json", "a.wkt")), ("a line and a point", migrate("s.json", "nine.wkt")),
    ("GeoJSON", migrate("s.json", "wells.geojson")), ("a drawing", migrate("s.json", "walls.dxf")),
    ("two layers", migrate("s.json", "line.wkt", "dot.wkt")), ("a made map", ["make", "1"])]
RUNS = [(name, [program] + words) for name, words in RUNS]
if places:
    RUNS.append(("changes on the map", [os.path.abspath(places), "--tin", "s.json", "nine.wkt", "wells.geojson", "walls.dxf"]))


# The status of a run of which this call of the allocator is refused (0: none), what it printed, what it made, and how many calls
# there were.
def ran(words, refused):
    shutil.rmtree("o", ignore_errors=True)
    with open("calls", "wb") as file:
        file.write(bytes(8))
    ended = subprocess.run(words, stdout=subprocess.PIPE, stderr=subprocess.DEVNULL, timeout=60,
        env={"LD_PRELOAD": here + "/growths.so", "GROWTHS_FILE": here + "/calls", "GROWTHS_REFUSED": str(refused)})
    made = {}
    for folder, _, names in os.walk("o"):
        for name in names:
            with open(os.path.join(folder, name), "rb") as file:
                made[os.path.join(folder, name)] = file.read()
    with open("calls", "rb") as file:
        calls, = struct.unpack("=Q", file.read())
    return ended.returncode, ended.stdout, made, calls


# What is wrong with a run, in words; `whole` is the run of which nothing is refused.
def wrongs(status, said, made, whole):
    if status == 8 and said != b"no memory\n" and said != b"":
        yield "printed"
    if status == 6 and not said.startswith(b"read fault: "):
        yield "printed"
    if status == 7 and not whole[1].startswith(said) and not b"no memory\n".startswith(said):
        yield "printed"
    if status not in (6, 7, 8) and (status, said, made) != whole[:3]:
        yield "status"
    if status in (6, 8) and made:
        yield "files"
    for name, text in made.items():
        if whole[2].get(name) != text:
            yield "file " + name


bad = 0
print("%-20s %8s %8s %8s %8s %9s" % ("run", "growths", "memory", "read", "write", "the same"))
totals = [0, 0, 0, 0, 0]
for name, words in RUNS:
    whole = ran(words, 0)
    if whole[0] not in (0, 1):
        sys.exit("%s: status %d with all memory" % (name, whole[0]))
    counts = [0, 0, 0, 0]
    for number in range(1, whole[3] + 1):
        status, said, made, _ = ran(words, number)
        counts[{8: 0, 6: 1, 7: 2}.get(status, 3)] += 1
        for wrong in wrongs(status, said, made, whole):
            bad += 1
            print("%s, growth %d: %s: status %d, printed %r, made %s" % (name, number, wrong, status, said, sorted(made)))
    row = [whole[3]] + counts
    totals = [total + count for total, count in zip(totals, row)]
    print("%-20s %8d %8d %8d %8d %9d" % tuple([name] + row))
print("%-20s %8d %8d %8d %8d %9d" % tuple(["all"] + totals))
print("%d growths refused, %d wrong; with want of memory ended %.3f of them" % (totals[0], bad, totals[1] / max(1, totals[0])))
sys.exit(1 if bad or not totals[1] else 0)
END
