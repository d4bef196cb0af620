#!/bin/sh
# Whether each layer is old or new, and nothing is beside it, when the outside fails in the middle of a run: over a full file
# system (a tmpfs of 1 MB, which the script mounts, so it is for root), a run over its own folder there, files of another owner
# and with other permissions, a limit on the size of a file, a closed pipe, a folder that is removed while it is written, two runs
# at once, and runs that are killed. Prints one line a case: how many runs, their statuses, how many layers were new, old and
# missing, and how many names were beside them; and ends with 1 where a layer was neither old nor new, where a run that was not
# killed left something beside, or where a file has not the owner and the permissions of the one that it replaced.
# usage: checks/full_disk.sh [PROGRAM]
# No part of the gate.
set -eu
top=$(CDPATH='' cd -- "$(dirname -- "$0")/.." && pwd)
program=${1:-}
if [ -z "$program" ]; then
    program=$top/crates/tinmove/out/tinmove
    "$top/tinmove" make 1 > /dev/null
fi
folder=$(mktemp -d)
trap 'umount "$folder/disk" 2> /dev/null || true; rm -rf "$folder"' EXIT
mkdir "$folder/disk"
mount -t tmpfs -o size=1m tmpfs "$folder/disk"
cd "$folder"
cp "$top/crates/tinmove/data/u.json" .
python3 - "$program" <<'END'
import collections, os, random, resource, shutil, signal, subprocess, sys, time

program = sys.argv[1]
bad = 0


# A layer of points in the triangle of u.json, and what a run makes of it.
def points(count, step):
    places = [(i * step % 4000, i * step // 4000 % 4000) for i in range(count)]
    return "".join("POINT (%d.%03d %d.%03d)\n" % (x // 1000, x % 1000, y // 1000, y % 1000) for x, y in places).encode()


def write(name, text):
    with open(name, "wb") as file:
        file.write(text)


def read(name):
    try:
        with open(name, "rb") as file:
            return file.read()
    except (FileNotFoundError, NotADirectoryError):
        return None


def words(out, *layers):
    return [program, "migrate", "--tin", "u.json", "--out", out] + list(layers)


def run(command, stdout=subprocess.DEVNULL, **rest):
    return subprocess.run(command, stdout=stdout, stderr=subprocess.DEVNULL, **rest).returncode


NAMES = ["a.wkt", "b.wkt"]
os.makedirs("before")
os.makedirs("after")
write("before/a.wkt", points(60, 7))
write("before/b.wkt", points(40, 11))
write("after/a.wkt", points(900, 13))
write("after/b.wkt", points(1200, 17))
for source, out in ("before", "old"), ("after", "new"):
    assert run(words(out, source + "/a.wkt", source + "/b.wkt")) in (0, 1)
OLD = {name: read("old/" + name) for name in NAMES}
NEW = {name: read("new/" + name) for name in NAMES}
SOURCES = {name: read("after/" + name) for name in NAMES}


class Case:
    def __init__(self, name, killed=False):
        self.name, self.killed = name, killed
        self.statuses, self.layers, self.beside, self.wrong = collections.Counter(), collections.Counter(), 0, 0

    # Looks at what a run left in a folder, where each layer is to be as before (None: missing) or new.
    def left(self, status, folder, before, news=None):
        self.statuses[status] += 1
        for name in NAMES:
            text = read(os.path.join(folder, name))
            news_of = [NEW[name]] if news is None else [new[name] for new in news]
            if text in news_of:
                self.layers["new"] += 1
            elif text == before.get(name):
                self.layers["missing" if text is None else "old"] += 1
            else:
                self.wrong += 1
        names = os.listdir(folder) if os.path.isdir(folder) else []
        beside = [name for name in names if name not in NAMES and name not in ("fill", "u.json")]
        self.beside += len(beside)
        if beside and not self.killed:
            self.wrong += 1

    def say(self):
        global bad
        bad += self.wrong
        print("%-28s %4d runs  status %-24s new %4d old %4d missing %4d  beside %3d  wrong %d" % (self.name, sum(self.statuses.values()),
            " ".join("%d: %d" % item for item in sorted(self.statuses.items())), self.layers["new"], self.layers["old"],
            self.layers["missing"], self.beside, self.wrong), flush=True)


def emptied(folder):
    for name in os.listdir(folder):
        path = os.path.join(folder, name)
        shutil.rmtree(path) if os.path.isdir(path) else os.remove(path)


# A disk with room for none, one or both layers, over old layers and without.
case = Case("full disk")
for before in OLD, {}:
    for free in range(0, 104, 4):
        emptied("disk")
        os.makedirs("disk/out")
        for name in before:
            write("disk/out/" + name, before[name])
        room = os.statvfs("disk").f_bavail * os.statvfs("disk").f_bsize
        write("disk/fill", b"x" * max(0, room - free * 1024))
        case.left(run(words("disk/out", "after/a.wkt", "after/b.wkt")), "disk/out", before)
case.say()

# The folder of the layers is the folder that they are written to: a layer is what it was, or carried.
case = Case("full disk, own folder")
for free in range(0, 104, 4):
    emptied("disk")
    for name in NAMES:
        write("disk/" + name, SOURCES[name])
    room = os.statvfs("disk").f_bavail * os.statvfs("disk").f_bsize
    write("disk/fill", b"x" * max(0, room - free * 1024))
    case.left(run(words("disk", "disk/a.wkt", "disk/b.wkt")), "disk", SOURCES)
case.say()
emptied("disk")


def fresh(before):
    shutil.rmtree("out", ignore_errors=True)
    if before is not None:
        os.makedirs("out")
        for name in before:
            write("out/" + name, before[name])


# What a new file takes over of the one that it replaces: owner, group and permissions, but no set-user-id and set-group-id
# bit. Where strace is there, it says with which permissions the file is made, and that its folder is brought to the disk.
case = Case("owner and permissions")
for mode in 0o600, 0o640, 0o644, 0o444, 0o4755, 0o2755, 0o000:
    fresh(OLD)
    for name in NAMES:
        os.chown("out/" + name, 65534, 65533)
        os.chmod("out/" + name, mode)
    os.umask(0)
    traced = ["strace", "-f", "-o", "trace", "-e", "trace=openat,open,fsync"] if shutil.which("strace") else []
    case.left(run(traced + words("out", "after/a.wkt", "after/b.wkt")), "out", OLD)
    for name in NAMES:
        there = os.stat("out/" + name)
        case.wrong += (there.st_uid, there.st_gid, there.st_mode & 0o7777) != (65534, 65533, mode & 0o1777)
    if traced:
        lines = list(open("trace"))
        made = [line for line in lines if ".part" in line]
        case.wrong += len(made) != 2 or any("0600)" not in line for line in made)
        case.wrong += sum("fsync(" in line for line in lines) != 4
    os.umask(0o022)
case.say()

# A limit on the size of a file, which kills by a signal, or where that is ignored is a write fault.
for name, ignored in ("size limit", False), ("size limit, signal ignored", True):
    case = Case(name, killed=not ignored)
    for limit in 0, 1000, 10000, 25000, 30000:
        fresh(OLD)

        def limited(limit=limit, ignored=ignored):
            resource.setrlimit(resource.RLIMIT_FSIZE, (limit, limit))
            signal.signal(signal.SIGXFSZ, signal.SIG_IGN if ignored else signal.SIG_DFL)

        status = run(words("out", "after/a.wkt", "after/b.wkt"), preexec_fn=limited, restore_signals=False)
        case.left(status, "out", OLD)
    case.say()

# A closed pipe: the layers are written before the report.
case = Case("closed pipe")
for before in OLD, None:
    fresh(before)
    reading, writing = os.pipe()
    os.close(reading)
    status = run(words("out", "after/a.wkt", "after/b.wkt"), stdout=writing)
    os.close(writing)
    case.left(status, "out", before or {})
case.say()

# A folder that is removed while it is written: what is there afterwards is new.
case = Case("removed folder")
for turn in range(30):
    fresh(OLD)
    process = subprocess.Popen(words("out", "after/a.wkt", "after/b.wkt"), stdout=subprocess.DEVNULL, stderr=subprocess.DEVNULL)
    end = time.monotonic() + 0.002 * turn
    while time.monotonic() < end and process.poll() is None:
        pass
    shutil.rmtree("out", ignore_errors=True)
    case.left(process.wait(), "out", {})
case.say()

# Two runs into one folder at once: each layer is that of one of them.
case = Case("two runs at once")
for turn in range(10):
    fresh(None)
    both = [subprocess.Popen(words("out", source + "/a.wkt", source + "/b.wkt"), stdout=subprocess.DEVNULL) for source in ("before", "after")]
    statuses = [process.wait() for process in both]
    case.left(max(statuses), "out", {}, [OLD, NEW])
case.say()

# Runs that are killed may leave a name beside, which does not stand in the way of the next.
case = Case("killed", killed=True)
for turn in range(30):
    fresh(OLD)
    process = subprocess.Popen(words("out", "after/a.wkt", "after/b.wkt"), stdout=subprocess.DEVNULL, stderr=subprocess.DEVNULL)
    time.sleep(0.002 * turn)
    process.kill()
    case.left(process.wait(), "out", OLD)
    again = run(words("out", "after/a.wkt", "after/b.wkt"))
    case.wrong += again not in (0, 1) or any(read("out/" + name) != NEW[name] for name in NAMES)
case.say()

print("wrong: %d" % bad)
sys.exit(1 if bad else 0)
END
