#!/bin/sh
# Whether a ledger's file is what the replies said, after each way in which a run of tinledger may end: status 0, 2, 3, 4, 6, 7, 8, 9
# and 10, runs that are killed at 200 moments of a campaign of 50 scripts, two programs at once, a file that sqlite3 holds, and a full
# disk (a tmpfs of 1 MB, which the script mounts where it is run by root). After each run a copy of the file and of its log is read by
# Debian's sqlite3: 'integrity_check' says ok, and runs and pairs are those of a model. Prints a line a case, and ends with 1 where a
# file is otherwise.
# usage: checks/ledger_files.sh [PROGRAM]     the built program, else the launcher builds it
# Needs sqlite3 (Debian: sqlite3) and Python. No part of the gate.
set -eu
top=$(CDPATH='' cd -- "$(dirname -- "$0")/.." && pwd)
program=${1:-}
if [ -z "$program" ]; then
    program=$top/crates/tinledger/out/tinledger
    "$top/tinledger" > /dev/null 2>&1 || [ $? -eq 2 ]
fi
program=$(readlink -f -- "$program")
folder=$(mktemp -d)
disk=
trap '[ -z "$disk" ] || umount "$folder/disk"; rm -rf "$folder"' EXIT
mkdir "$folder/disk"
if [ "$(id -u)" -eq 0 ] && mount -t tmpfs -o size=1m tmpfs "$folder/disk" 2> /dev/null; then disk=1; fi
cd "$folder"
python3 - "$program" "${disk:-0}" <<'END'
import collections, os, random, resource, shutil, signal, sqlite3, subprocess, sys, time

program, has_disk = sys.argv[1], sys.argv[2] == "1"
bad = 0
RELATIONS = ["apart", "touching", "crossing", "overlapping"]


def fail(text):
    global bad
    bad += 1
    if bad <= 20:
        print("FAILED:", text, flush=True)


def write(name, text):
    with open(name, "wb") as file:
        file.write(text.encode())


def change_of(run, place):
    """Both places, and both relations, of a change: another one for each run and place."""
    return f"0/{place}/{run}/0", f"0/{place + 1}/{run}/1", RELATIONS[place % 4], RELATIONS[(place + 1 + run % 3) % 4]


def report(run, pairs):
    lines = ["tinmove report 1", "triangulation corners 4 triangles 2 inexact 0 name s.json"]
    lines.append("layer 0 paths 9 segments 9 pieces 9 inexact 0 dropped 0 name nine.wkt")
    lines.append(f"changes {pairs}")
    lines += ["change %s %s %s %s" % change_of(run, place) for place in range(pairs)]
    return "\n".join(lines + ["end"]) + "\n"


class Ledger:
    """What a ledger is to have: of each run its report and layers, and of each pair what was decided."""

    def __init__(self, runs=(), verdicts=()):
        self.runs, self.verdicts = list(runs), [list(it) for it in verdicts]

    def copy(self):
        return Ledger(self.runs, self.verdicts)

    def rows(self):
        return [
            (run + 1, place, verdict) + change_of(self.runs[run][0], place)
            for run, verdicts in enumerate(self.verdicts)
            for place, verdict in enumerate(verdicts)
        ]

    def obey(self, line):
        """The reply, as the guide has it."""
        word, *rest = line.split(" ")
        if word == "enter":
            number = int(rest[0][1:].split(".")[0])
            entry = number, rest[0]
            if entry in self.runs:
                return f"known {self.runs.index(entry) + 1}\n"
            self.runs.append(entry)
            self.verdicts.append(["undecided"] * PAIRS)
            return f"entered {len(self.runs)} pairs {PAIRS}\n"
        run = int(rest[0]) - 1
        if not 0 <= run < len(self.runs):
            return "no run\n"
        open_ones = [place for place, it in enumerate(self.verdicts[run]) if it == "undecided"]
        if word == "list":
            lines = ["open %d %s %s %s %s\n" % ((it,) + change_of(self.runs[run][0], it)) for it in open_ones]
            return f"listed {len(lines)}\n" + "".join(lines)
        if word == "clear":
            return f"waiting {open_ones[0]}\n" if open_ones else "clear\n"
        place = int(rest[1])
        if place >= PAIRS:
            return "no pair\n"
        if self.verdicts[run][place] != "undecided":
            return f"settled {self.verdicts[run][place]}\n"
        self.verdicts[run][place] = rest[2]
        return "decided\n"


def states(ledger, lines):
    """The ledger behind each front of the lines, and all replies."""
    ledger, replies = ledger.copy(), []
    fronts = [ledger.copy()]
    for line in lines:
        replies.append(ledger.obey(line))
        fronts.append(ledger.copy())
    return fronts, "".join(replies)


def kept(database):
    """What sqlite3 reads in a copy of the file and of its log."""
    for end in ("", "-wal"):
        if os.path.exists("copy.db" + end):
            os.remove("copy.db" + end)
        if os.path.exists(database + end):
            shutil.copyfile(database + end, "copy.db" + end)
    if not os.path.exists("copy.db"):
        return []
    ask = "PRAGMA integrity_check; SELECT name FROM sqlite_schema WHERE type = 'table' ORDER BY name;"
    found = subprocess.run(["sqlite3", "copy.db", ask], capture_output=True, text=True)
    if found.returncode != 0 or not found.stdout.startswith("ok\n"):
        fail(f"sqlite3 says of {database}: {found.stdout}{found.stderr}")
        return None
    tables = found.stdout.split()[1:]
    if "pairs" not in tables or "runs" not in tables:
        return []
    ask = """SELECT run, place, verdict, first_layer || '/' || first_path || '/' || first_segment || '/' || first_piece,
             second_layer || '/' || second_path || '/' || second_segment || '/' || second_piece, was, now
             FROM pairs ORDER BY run, place;"""
    found = subprocess.run(["sqlite3", "copy.db", ask], capture_output=True, text=True)
    rows = [it.split("|") for it in found.stdout.splitlines()]
    of_runs = subprocess.run(
        ["sqlite3", "copy.db", "SELECT run, pairs, length(seal) FROM runs ORDER BY run"], capture_output=True, text=True
    ).stdout.splitlines()
    counts = collections.Counter(it[0] for it in rows)
    if of_runs != [f"{number + 1}|{counts[str(number + 1)]}|32" for number in range(len(of_runs))]:
        fail(f"the runs of {database} have other pairs than they say")
    return [(int(run), int(place), verdict, first, second, was, now) for run, place, verdict, first, second, was, now in rows]


def run(database, lines, stdout=subprocess.PIPE, **rest):
    write("script", "".join(it + "\n" for it in lines))
    done = subprocess.run([program, database, "script"], stdout=stdout, stderr=subprocess.PIPE, **rest)
    return done.returncode, (done.stdout or b"").decode(), done.stderr.decode()


def expect(case, found, wanted):
    if found != wanted:
        fail(f"{case}: {str(found)[:200]!r} in place of {str(wanted)[:200]!r}")


def remove(database):
    for end in ("", "-wal", "-shm", "-journal"):
        if os.path.exists(database + end):
            os.remove(database + end)


PAIRS = 20
write("nine.wkt", "POINT (1.000 1.000)\n")
for number in range(60):
    write(f"r{number}.txt", report(number, PAIRS))

# ---- endings of one run
database = "ends.db"
ledger = Ledger()
first = ["enter r0.txt nine.wkt", "list 1", "decide 1 3 kept", "decide 1 3 mended", "decide 1 99 kept", "clear 1", "list 2"]
fronts, replies = states(ledger, first)
status, said, _ = run(database, first)
expect("status 0", (status, said), (0, replies))
ledger = fronts[-1]
expect("rows after status 0", kept(database), ledger.rows())
more = ["enter r1.txt nine.wkt", "decide 1 4 mended"]
missing = "enter nothing.txt nine.wkt"
write("bad.txt", report(2, PAIRS)[:-4])
os.mkdir("long")
refused = {
    "status 3": (more + ["decide 1 x kept"], 3, "script: bad at line 3\n"),
    "status 4, no report": (more + ["enter bad.txt nine.wkt"], 4, f"report of line 3: bad at line {PAIRS + 5}\n"),
    "status 4, layers": (more + ["enter r2.txt"], 4, "report of line 3: layers\n"),
    "status 6": (more + [missing], 6, "read fault: line 3\n"),
    "status 6, layer": (more + ["enter r2.txt none.wkt"], 6, "read fault: line 3\n"),
    "status 9": (more + ["list 1"] * 200000, 9, "limit: bytes of script\n"),
}
for case, (lines, wanted, line) in refused.items():
    status, said, _ = run(database, lines)
    expect(case, (status, said), (wanted, line))
    expect(f"rows after {case}", kept(database), ledger.rows())
for words in ([], ["one"], ["", "script"], ["a", "b", "c"]):
    done = subprocess.run([program, *words], capture_output=True)
    expect("status 2", (done.returncode, done.stdout), (2, b"words: not understood\n"))
expect("files that a refused command line makes", [it for it in ("one", "a", "--help") if os.path.exists(it)], [])
subprocess.run([program, "--help"], capture_output=True)
expect("a file of --help", os.path.exists("--help"), False)
fronts, replies = states(ledger, more)
with open("/dev/full", "wb") as full:
    status, _, _ = run(database, more, stdout=full)
expect("status 7", status, 7)
ledger = fronts[-1]
expect("rows after status 7", kept(database), ledger.rows())
holder = sqlite3.connect(database, isolation_level=None)
holder.execute("BEGIN EXCLUSIVE")
status, said, why = run(database, ["enter r2.txt nine.wkt"])
expect("status 10", (status, said), (10, "stopped: keeper fault after 0 commands\n"))
expect("what standard error says of a busy ledger", "locked" in why and database in why, True)
holder.execute("ROLLBACK")
holder.close()
expect("rows after status 10", kept(database), ledger.rows())
write("text.db", "this is no database, but a text of some length\n" * 100)
status, said, why = run("text.db", ["list 1"])
expect("status 10 of a text", (status, said), (10, "stopped: keeper fault after 0 commands\n"))
expect("the text afterwards", open("text.db").read(), "this is no database, but a text of some length\n" * 100)
status, said, why = run("none/a.db", ["list 1"])
expect("status 10 without a folder", (status, said, "none/a.db" in why), (10, "stopped: keeper fault after 0 commands\n", True))
print("endings: statuses 0, 2, 3, 4, 6, 7, 9 and 10 as they should be")

# ---- memory
counts = collections.Counter()
lines = [f"enter r{number}.txt nine.wkt" for number in range(3, 9)] + [f"decide 3 {place} kept" for place in range(PAIRS)]
for megabytes in range(8, 66, 2):
    fronts, replies = states(ledger, lines)
    bytes_at_most = megabytes << 20
    status, said, _ = run(database, lines, preexec_fn=lambda: resource.setrlimit(resource.RLIMIT_AS, (bytes_at_most, bytes_at_most)))
    counts[status] += 1
    found = kept(database)
    if status == 0:
        expect("replies with little memory", said, replies)
        expect("rows with little memory", found, fronts[-1].rows())
    reached = [it for it in fronts if it.rows() == found]
    if not reached:
        fail(f"rows after status {status} with {megabytes} MB are those of no front of the script")
    else:
        ledger = reached[-1]
if counts[8] == 0:
    fail("no run ended with status 8")
print("memory:", dict(sorted(counts.items())))

# ---- killed at 200 moments of a campaign of 50 scripts
database, ledger = "campaign.db", Ledger()
random.seed(7)
took, counts, cut = 0.05, collections.Counter(), 0
for number in range(50):
    lines = [f"enter r{number}.txt nine.wkt", f"list {number + 1}"]
    lines += [f"decide {random.randint(1, number + 1)} {random.randrange(PAIRS)} {random.choice(['kept', 'mended'])}" for _ in range(60)]
    lines += [f"clear {number + 1}"]
    for _ in range(4):
        fronts, _ = states(ledger, lines)
        write("script", "".join(it + "\n" for it in lines))
        started = subprocess.Popen([program, database, "script"], stdout=subprocess.PIPE, stderr=subprocess.DEVNULL)
        time.sleep(random.uniform(0, took))
        started.send_signal(signal.SIGKILL)
        started.communicate()
        counts["killed" if started.returncode < 0 else f"status {started.returncode}"] += 1
        found = kept(database)
        reached = [it for it in fronts if it.rows() == found]
        if not reached:
            fail(f"rows after a kill in script {number} are those of no front of it")
            break
        cut += any(len(it.rows()) != len(fronts[0].rows()) for it in reached) and reached[-1].rows() != fronts[-1].rows()
        ledger = reached[-1]
    fronts, replies = states(ledger, lines)
    start = time.monotonic()
    status, said, _ = run(database, lines)
    took = max(time.monotonic() - start, 0.002)
    expect(f"script {number} behind its kills", (status, said), (0, replies))
    ledger = fronts[-1]
    expect(f"rows behind script {number}", kept(database), ledger.rows())
print("killed:", dict(sorted(counts.items())), f"of which {cut} in the middle of a script's commands")

# ---- two at once
lines = ["enter r50.txt nine.wkt"] + [f"decide {run} {place} kept" for run in range(1, 51) for place in range(PAIRS)]
others = ["enter r51.txt nine.wkt", "list 1"]
write("script", "".join(it + "\n" for it in lines))
write("others", "".join(it + "\n" for it in others))
long_one = subprocess.Popen([program, database, "script"], stdout=subprocess.PIPE, stderr=subprocess.DEVNULL)
refusals, answers = 0, []
while long_one.poll() is None:
    other = subprocess.run([program, database, "others"], capture_output=True)
    if other.returncode == 0:
        answers.append(other.stdout.decode())
        continue
    refusals += 1
    said = (other.returncode, other.stdout, b"locked" in other.stderr and database.encode() in other.stderr)
    expect("the refused one", said, (10, b"stopped: keeper fault after 0 commands\n", True))
said = (long_one.returncode, long_one.communicate()[0].decode())


def in_turn(before):
    """The ledger, and all answers, where so many of the others came first."""
    after, found = ledger.copy(), []
    for number in range(len(answers) + 1):
        if number == before:
            fronts, replies = states(after, lines)
            after = fronts[-1]
            found.append((0, replies))
        if number < len(answers):
            fronts, replies = states(after, others)
            after = fronts[-1]
            found.append(replies)
    return after, found


if said[0] == 10:
    # The other one was first in the database: the long one is given again.
    expect("the refused long one", said[1], "stopped: keeper fault after 0 commands\n")
    refusals += 1
    status, text, _ = run(database, lines)
    said = (status, text)
    turns = [in_turn(len(answers))]
else:
    turns = [in_turn(it) for it in range(len(answers) + 1)]
right = [after for after, found in turns if said in found and [it for it in found if it != said] == answers]
if not right:
    fail(f"the replies of two programs are those of no order of them: {said[0]}, {said[1][:60]!r}, {[it[:20] for it in answers]}")
else:
    ledger = right[0]
    expect("rows behind two at once", kept(database), ledger.rows())
if refusals == 0:
    fail("no program was refused beside another one")
print(f"two at once: {refusals} refused by name, {len(answers) + 1} obeyed, nothing lost")

# ---- a full disk
if has_disk:
    database, ledger, counts = "disk/full.db", Ledger(), collections.Counter()
    PAIRS = 500
    for number in range(60):
        write(f"r{number}.txt", report(number, PAIRS))
    for number in range(60):
        lines = [f"enter r{number}.txt nine.wkt"] + [f"decide {len(ledger.runs) + 1} {place} kept" for place in range(3)]
        fronts, replies = states(ledger, lines)
        status, said, _ = run(database, lines)
        counts[status] += 1
        if status not in (0, 7, 10):
            fail(f"status {status} on a full disk")
        found = kept(database)
        reached = [it for it in fronts if it.rows() == found]
        if not reached:
            fail(f"rows after status {status} on a full disk are those of no front of the script")
            break
        if status == 0:
            expect("replies on a disk that is not full", said, replies)
        ledger = reached[-1]
    if counts[10] + counts[7] == 0:
        fail("the disk was never full")
    print("full disk:", dict(sorted(counts.items())), f"{len(ledger.runs)} runs are whole")
else:
    print("full disk: not tried, for want of a file system to fill")
if bad:
    sys.exit(1)
print("the files are as the replies said")
END
