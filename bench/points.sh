#!/usr/bin/env bash
# A million points with heights: what `heights` takes beside what `migrate` takes for the same points
# as well-known text, and beside PROJ's cct over the same list; and how far all places and heights
# are from cct's, for each form of a triangulation with a vertical component.
# usage: bench/points.sh [PROGRAM [POINTS]]     PROGRAM is tinmove, else the program behind the
#                                               launcher at the top; 1000000 points if not said
# Needs python3 and cct (Debian: proj-bin). Processor times are the least of three rounds in turns.
# The last line is 'points go as fast and as far as they should'; the status is 1 where one does not:
# the time over a small triangulation in the order of a survey is to be at most that of `migrate`,
# over 100,352 triangles at most half more in either order, memory at most 100 bytes a point beyond
# both texts and what the triangulation alone takes, and each number at most 0.501 mm from cct's.
set -eu
top=$(cd -- "$(dirname -- "$0")/.." && pwd)
program=${1:-} count=${2:-1000000}
if [ -z "$program" ]; then
    "$top/tinmove" make 1 >/dev/null
    program=$top/crates/tinmove/out/tinmove
fi
case $program in /*) ;; *) program=$PWD/$program ;; esac
folder=$(mktemp -d)
trap 'rm -rf "$folder"' EXIT
cd "$folder"
python3 - "$program" "$count" <<'PYTHON'
import json, os, random, subprocess, sys

program, count = sys.argv[1], int(sys.argv[2])
WIDTH = 100_000_000  # the side of the square of all points, in millimetres
ORIGIN = (600_000_000, 200_000_000)
random.seed(46)
bad = False


def metres(number):
    return f"{'-' if number < 0 else ''}{abs(number) // 1000}.{abs(number) % 1000:03}"


def write_tin(name, cells, horizontal, offsets):
    """A triangulation of cells by cells squares, each two triangles, with its corners moved a little."""
    step = WIDTH // cells
    rows = []
    for line in range(cells + 1):
        for place in range(cells + 1):
            inner = 0 < line < cells and 0 < place < cells
            x, y = (ORIGIN[axis] + WIDTH * at // cells + (random.randint(-step // 5, step // 5) if inner else 0)
                    for axis, at in ((0, place), (1, line)))
            row = [x, y]
            if horizontal:
                row += [x + 2_000_000_000 + random.randint(-300, 300), y + 1_000_000_000 + random.randint(-300, 300)]
            height, offset = random.randint(200_000, 4_000_000), random.randint(-2_000, 2_000)
            row += [offset] if offsets else [height, height + offset]
            rows.append("[" + ",".join(metres(number) for number in row) + "]")
    faces = []
    for line in range(cells):
        for place in range(cells):
            a = line * (cells + 1) + place
            b, c, d = a + 1, a + cells + 1, a + cells + 2
            faces += [f"[{a},{b},{d}]", f"[{a},{d},{c}]"]
    columns = ["source_x", "source_y"] + (["target_x", "target_y"] if horizontal else [])
    columns += ["offset_z"] if offsets else ["source_z", "target_z"]
    head = {
        "file_type": "triangulation_file", "format_version": "1.1",
        "transformed_components": (["horizontal"] if horizontal else []) + ["vertical"],
        "vertices_columns": columns,
        "triangles_columns": ["idx_vertex1", "idx_vertex2", "idx_vertex3"],
    }
    with open(name, "w") as file:
        file.write(json.dumps(head)[:-1])
        file.write(',"vertices":[' + ",\n".join(rows) + '],"triangles":[' + ",\n".join(faces) + "]}\n")


def within(number, least):
    return max(least, min(least + WIDTH, number))


def survey():
    """Points line by line, there and back, as a person or an aircraft goes."""
    lines = max(1, int(count ** 0.5))
    for number in range(count):
        line, place = divmod(number, lines)
        place = place if line % 2 == 0 else lines - 1 - place
        yield (within(ORIGIN[0] + WIDTH * place // lines + random.randint(-20_000, 20_000), ORIGIN[0]),
               within(ORIGIN[1] + WIDTH * line // (lines + 2) + random.randint(-20_000, 20_000), ORIGIN[1]))


def scattered():
    for _ in range(count):
        yield tuple(least + random.randint(0, WIDTH) for least in ORIGIN)


def write_points(name, places):
    with open(name + ".txt", "w") as heights, open(name + ".wkt", "w") as layer:
        for x, y in places:
            heights.write(f"{metres(x)} {metres(y)} {metres(random.randint(-20_000, 4_500_000))}\n")
            layer.write(f"POINT ({metres(x)} {metres(y)})\n")


def run(words, given=None, out="/dev/null"):
    """Processor time in seconds and most memory in bytes."""
    with open(given or "/dev/null") as source, open(out, "w") as sink:
        child = subprocess.Popen(words, stdin=source, stdout=sink)
        _, status, used = os.wait4(child.pid, 0)
        child.returncode = os.waitstatus_to_exitcode(status)
    if child.returncode not in (0, 1):
        sys.exit(f"status {child.returncode}: {' '.join(words)}")
    return used.ru_utime + used.ru_stime, used.ru_maxrss * 1024


def by_cct(tin, points, out="/dev/null"):
    return run(["cct", "-d", "6", "-t", "0", "+proj=tinshift", f"+file={tin}"], points, out)


def judge(what, found, most):
    global bad
    wrong = found > most
    bad = bad or wrong
    return f"{found:10.3f}  {'above' if wrong else 'within'} {most}  {what}"


# ---- time and memory
orders = {"survey": survey, "scattered": scattered}
sizes = {"small": 8, "large": 224}
for size, cells in sizes.items():
    write_tin(size + ".json", cells, True, True)
for order, places in orders.items():
    write_points(order, places())
with open("one.txt", "w") as file:
    file.write(f"{metres(ORIGIN[0])} {metres(ORIGIN[1])} 0\n")

print("processor seconds, least of 3    heights    migrate    ratio    cct")
ratios, memory = {}, {}
for size in sizes:
    for order in orders:
        taken = {"heights": [], "migrate": [], "cct": []}
        for _ in range(3):
            words = ["--tin", size + ".json", "--out", "moved"]
            time, most = run([program, "heights", *words, order + ".txt"])
            taken["heights"].append(time)
            taken["migrate"].append(run([program, "migrate", *words, order + ".wkt"])[0])
            taken["cct"].append(by_cct(size + ".json", order + ".txt")[0])
        least = {name: min(times) for name, times in taken.items()}
        alone = run([program, "heights", "--tin", size + ".json", "--out", "moved", "one.txt"])[1]
        texts = os.path.getsize(order + ".txt") + os.path.getsize(f"moved/{order}.txt")
        ratios[size, order] = least["heights"] / least["migrate"]
        memory[size, order] = (most - alone - texts) / count
        print(f"{size + ' ' + order:30} {least['heights']:9.2f}  {least['migrate']:9.2f}"
              f"  {ratios[size, order]:7.2f}  {least['cct']:7.2f}")

print()
print(judge("of migrate's time, small, survey", ratios["small", "survey"], 1.0))
for order in orders:
    print(judge(f"of migrate's time, 100,352 triangles, {order}", ratios["large", order], 1.5))
for (size, order), bytes_a_point in memory.items():
    print(judge(f"bytes a point beyond both texts, {size}, {order}", bytes_a_point, 100))

# ---- beside cct
for horizontal in (True, False):
    for offsets in (True, False):
        write_tin("form.json", 40, horizontal, offsets)
        run([program, "heights", "--tin", "form.json", "--out", "moved", "scattered.txt"])
        by_cct("form.json", "scattered.txt", "by_cct")
        most, lines = 0.0, 0
        with open("moved/scattered.txt") as ours, open("by_cct") as theirs:
            for one, other in zip(ours, theirs):
                far = max(abs(float(a) - float(b)) for a, b in zip(one.split(), other.split()))
                most, lines = max(most, far), lines + 1
        if lines != count:
            sys.exit(f"cct and tinmove have {lines} lines together, and not {count}")
        form = ("both" if horizontal else "vertical alone") + (", offset_z" if offsets else ", source_z and target_z")
        print(judge(f"mm from cct, the farthest of {lines} points: {form}", most * 1000, 0.501))

if bad:
    sys.exit(1)
print("points go as fast and as far as they should")
PYTHON
