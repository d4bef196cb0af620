#!/bin/sh
# Whether hostile bytes and words are refused as they should be: runs the built programs on N inputs (default 100,000), each made
# from the data of crates/tinmove by one to three changes (cut, flipped, doubled, inserted or exchanged bytes) in the triangulation,
# in a layer of one of the formats, in a list of points with heights, in a written layer, in a certificate, or in the script, the
# report, the layer or the database of a ledger, or from the words of such a run. It runs all modes: 'migrate' with and without
# certificates and sides, 'check', 'verify', 'heights', 'make', 'tinplaces' and 'tinledger'. Says how many runs ended with each status,
# and each run that ended with a status other than those that its input can give, printed another line than its status has, left
# another file than it should, changed a ledger that it refused, or took over two seconds of processor time. Ends with 1 where there
# was one; then the files of the first hundred of them are kept, and the last line names their folder.
# usage: checks/hostile.sh [N [SEED [TINMOVE TINPLACES TINLEDGER]]]     run K of a seed is the same whatever N is
# As many runs are at work as 'taskset' and 'nproc' have processors. Most of the time goes into writing files: TMPDIR=/dev/shm is
# quicker. Needs Python. No part of the gate.
set -eu
fail() {
    echo "hostile.sh: $1" >&2
    exit 2
}
runs=${1:-100000}
seed=${2:-1}
for number in "$runs" "$seed"; do
    case $number in '' | *[!0-9]*) fail "'$number' is no number: checks/hostile.sh [N [SEED [TINMOVE TINPLACES TINLEDGER]]]" ;; esac
done
top=$(CDPATH='' cd -- "$(dirname -- "$0")/.." && pwd)
if [ $# -lt 3 ]; then
    set -- "$runs" "$seed" "$top/crates/tinmove/out/tinmove" "$top/crates/tinplaces/out/tinplaces" "$top/crates/tinledger/out/tinledger"
    "$top/tinmove" make 1 > /dev/null
    "$top/tinplaces" --tin none none.wkt > /dev/null 2>&1 || [ $? -eq 6 ]
    "$top/tinledger" > /dev/null 2>&1 || [ $? -eq 2 ]
fi
[ $# -eq 5 ] || fail 'name all three programs, or none'
for file in "$3" "$4" "$5"; do [ -x "$file" ] || fail "$file is no program"; done
program=$(readlink -f -- "$3") places=$(readlink -f -- "$4") ledger=$(readlink -f -- "$5")
folder=$(mktemp -d)
trap 'rmdir "$folder/kept" 2> /dev/null && rm -rf "$folder" || find "$folder" -mindepth 1 -maxdepth 1 ! -name kept -exec rm -rf {} +' EXIT
mkdir "$folder/kept"
cd "$folder"
python3 - "$program" "$places" "$ledger" "$top/crates" "$runs" "$seed" <<'END'
import collections, json, multiprocessing, os, random, shutil, signal, sqlite3, subprocess, sys

program, places, ledger, data, runs, seed = *sys.argv[1:5], int(sys.argv[5]), int(sys.argv[6])
SECONDS = 2.0
# Each layer with a triangulation that it lies in.
LAYERS = [("p.wkt", "u.json"), ("lines.wkt", "s.json"), ("wells.geojson", "s.json"), ("walls.dxf", "s.json")]
# What the statuses of a run without faults of the outside print first.
FIRST = {2: b"words: ", 3: b"triangulation: ", 4: b"layer ", 5: b"outside: ", 6: b"read fault: ", 9: b"limit: ", 10: b"certificate: "}
OF_LEDGER = {2: b"words: ", 3: b"script: bad at line ", 4: b"report of line ", 6: b"read fault: ", 9: b"limit: "}
# What each mode prints first after 0 and 1.
DONE = {"migrate": b"tinmove report 1\n", "make": b"tinmove report 1\n", "check": b"sound: ", "verify": b"certified\n", "heights": b"heights: ",
    "places": b'{"type":"FeatureCollection"', "faults": b'{"type":"FeatureCollection"', "ledger": b""}
FLAGS = ["--inverse", "--exact", "--inside-only", "--drop-other"]
# Those options of tinplaces that its help has, some with a word behind.
HELP = subprocess.run([places, "--help"], capture_output=True, text=True, check=True).stdout
OF_PLACES = [it for it in ["--lines", "--across", "--sides", "--name id"] if "\n  " + it.split()[0] + " " in HELP]
HAS_FAULTS = "\n  --faults " in HELP
MODES = ["migrate"] * 8 + ["check"] * 3 + ["verify"] * 4 + ["places"] * 4 + ["heights"] * 3 + ["ledger"] * 4 + ["make"] + ["faults"] * 2 * HAS_FAULTS
WORDS = ["", "-", "--", "--tin", "--out", "--cert", "--source", "--help", "migrate", "verify", "make", "0", "513", "-1", "nothing.wkt", "s.json",
    "a\u202eb.wkt", "x" * 300 + ".wkt", "--tin=s.json", "--exact", ".", "/dev/null", "o/../o"]
PIECES = [b"-", b"+", b".", b"e", b"E99", b"1e-99", b"9" * 70, b"0" * 70, b"null", b"[", b"]" , b"{", b"}", b'"', b"\\", b"\\u0000",
    b"\\ud800", b"\xff", b"\xef\xbb\xbf", b"\x00", b"(", b")", b"EMPTY", b" Z ", b"GEOMETRYCOLLECTION (", b"[" * 65, b",", b":", b"\n",
    b"\r\n", b"  0\nLINE\n", b"  0\nSECTION\n", b"  0\nENDSEC\n", b"  0\nEOF\n", b" 70\n     1\n", b"4294967296", b"18446744073709551616",
    b"1073741824", b'"coordinates":', b'"vertices":[]', b'"type":']


def read(*name):
    with open(os.path.join(data, *name), "rb") as file:
        return file.read()


TEXTS = {name: read("tinmove", "data", name) for pair in LAYERS for name in pair}
TEXTS |= {name: read("tinledger", "data", name) for name in ("script", "r.txt", "nine.wkt")}
# the same square with offsets of heights at its corners, and a list of points in it
SQUARE = json.loads(TEXTS["s.json"])
SQUARE["transformed_components"].append("vertical")
SQUARE["vertices_columns"].append("offset_z")
for offset, row in zip((0.25, -0.125, 1, 0.5), SQUARE["vertices"]):
    row.append(offset)
TEXTS["h.json"] = json.dumps(SQUARE).encode()
TEXTS["h.txt"] = b"6 4 484.91\n\n10 10 -3.005\n0 0 0\n5.5 5.5 1e3\n"
TEXTS["again"] = b"list 1\ndecide 1 0 mended\nenter r.txt nine.wkt\nclear 1\n"


def changed(chance, text):
    text = bytearray(text)
    for _ in range(chance.randint(1, 3)):
        start = chance.randint(0, len(text))
        end = min(len(text), start + chance.choice([1, 1, 2, 3, 8, 40, 400]))
        way = chance.randrange(9)
        if way == 0:
            del text[start:end]
        elif way == 1:
            del text[start:]
        elif way == 2 and text:
            text[min(start, len(text) - 1)] ^= 1 << chance.randrange(8)
        elif way == 3:
            text[end:end] = text[start:end] * chance.choice([1, 1, 1, 2, 50])
        elif way == 4:
            text[start:start] = chance.choice(PIECES) if chance.random() < 0.7 else chance.randbytes(chance.randint(1, 9))
        elif way == 5:
            text[start:end] = chance.choice(PIECES)
        else:  # another digit: most of such texts have a form
            found = [at for at, byte in enumerate(text) if 48 <= byte <= 57]
            if found:
                text[chance.choice(found)] = chance.randrange(48, 58)
    return bytes(text)


# The status of a run, what it printed, what it said on standard error after it, and its seconds.
def run(path, words, folder):
    with open(os.path.join(folder, "said"), "wb") as said:
        process = os.posix_spawn(path, [os.path.basename(path)] + words, {},
            file_actions=[(os.POSIX_SPAWN_DUP2, said.fileno(), 1), (os.POSIX_SPAWN_OPEN, 2, "/dev/null", os.O_WRONLY, 0)])
    _, status, used = os.wait4(process, 0)
    with open(os.path.join(folder, "said"), "rb") as said:
        return os.waitstatus_to_exitcode(status), said.read(), used.ru_utime + used.ru_stime


# Whether what a run printed has the form of its status. A ledger that fails has replies before its last line.
def is_said(mode, status, said, words):
    if mode == "ledger" and status == 0:
        return said == b"" or said.endswith(b"\n")
    if mode == "ledger" and status == 10:
        return said[:-1].split(b"\n")[-1].startswith(b"stopped: keeper fault after ") and said.endswith(b"\n")
    if mode == "migrate" and status < 2 and "--sides" in words:
        return said.startswith(b"tinmove report 2\n") and b"\nsides " in said and said.endswith(b"\nend\n")
    first = DONE[mode] if status < 2 else (OF_LEDGER if mode == "ledger" else FIRST).get(status, b"")
    return said.startswith(first) and said.endswith(b"\n") and (status < 2 or said.count(b"\n") == 1)


# What is wrong with the end of a run, in words.
def wrongs(mode, status, said, words, seconds, made, wanted, statuses):
    if status not in statuses:
        yield "status"
    elif not is_said(mode, status, said, words):
        yield "printed"
    if made != (wanted if status in (0, 1) else []):
        yield "files"
    if seconds > SECONDS:
        yield "time"


# The rows of a database and what sqlite says of it, as an error has it where it reads none.
def kept(name):
    try:
        found = sqlite3.connect(name)
        try:
            rows = [found.execute(f"SELECT * FROM {it} ORDER BY 1, 2").fetchall() for it in ("runs", "pairs")]
            return [found.execute("PRAGMA integrity_check").fetchall(), *rows]
        finally:
            found.close()
    except sqlite3.Error as error:
        return [str(error)]


# What is wrong with the ledger that a run of its own files leaves: refused, it is as it was, and else sound, with all that it had.
def wrong_ledger(status, before):
    now = kept("ledger.db")
    if status in (2, 3, 4, 6, 9):
        return [] if now == before else ["ledger changed"]
    if now[0] != [("ok",)]:
        return ["ledger " + str(now[0])]
    same = now[1][: len(before[1])] == before[1] and len(now[2]) >= len(before[2])
    return [] if same and (status != 10) else ["ledger"]


# The words of a run in this mode, which of its files can be changed, and the statuses that a change of each can give.
def job(chance, mode, layer, tin):
    flags = [flag for flag in FLAGS if chance.random() < 0.2]
    if mode == "ledger":
        script = chance.choice(["script", "again"])
        return ["ledger.db", script], {script: {0, 3, 4, 6, 9}, "r.txt": {0, 4, 9}, "nine.wkt": {0, 9}, "ledger.db": {0, 10}}
    if mode == "heights":
        words = ["heights", "--tin", "h.json", "--out", "o"] + [flag for flag in flags if flag in FLAGS[1:3]] + ["h.txt"]
        return words, {"h.json": {0, 3, 5, 9}, "h.txt": {0, 4, 5, 9}}
    if mode == "faults":
        return ["--tin", tin, "--faults"] + ["--lines"] * chance.randrange(2) + [flag for flag in flags if flag in FLAGS[1:3]], {tin: {0, 1, 3, 9}}
    if mode == "check":
        return ["check", "--tin", tin] + [flag for flag in flags if flag in FLAGS[1:3]], {tin: {0, 3, 9}}
    if mode == "verify":
        words = ["verify", "--tin", tin, "--source", layer, "--written", "w", "--cert", "c"] + flags
        return words, {tin: {0, 3, 9, 10}, layer: {0, 4, 9, 10}, "w": {0, 10}, "c": {0, 10}}
    if mode == "make":
        return ["make", str(chance.randint(1, 9))], {}
    if mode == "migrate":
        words = ["migrate", "--out", "o"] + [it for it in ("--cert", "--sides") if chance.random() < 0.3]
    else:
        words = " ".join(it for it in OF_PLACES if chance.random() < 0.3).split()
    return words + ["--tin", tin] + flags + [layer], {tin: {0, 1, 3, 5, 9}, layer: {0, 1, 4, 5, 9}}


def one(number):
    chance = random.Random("%d %d" % (seed, number))
    layer, tin = chance.choice(LAYERS)
    folder = os.path.join(os.getcwd(), "run%d" % os.getpid())
    os.makedirs(folder, exist_ok=True)
    os.chdir(folder)
    try:
        mode = chance.choice(MODES)
        words, statuses = job(chance, mode, layer, tin)
        target = chance.choice(list(statuses) * 3 + ["words"])
        texts = dict(zip(("w", "c"), CARRIED[layer]), **{layer: TEXTS[layer], tin: TEXTS[tin]})
        if mode in OTHERS:
            texts = {name: TEXTS[name] for name in OTHERS[mode]}
        if target == "words":
            at = chance.randrange(len(words))
            words[at:at + chance.randrange(2)] = chance.sample(WORDS, chance.randrange(3))
        else:
            texts[target] = changed(chance, texts[target])
        for name in os.listdir("."):
            if name.startswith("ledger.db"):
                os.remove(name)
        for name, text in texts.items():
            with open(name, "wb") as file:
                file.write(text)
        path = places if mode in ("places", "faults") else ledger if mode == "ledger" else program
        status, said, seconds = run(path, words, folder)
        made = sorted(os.listdir("o")) if os.path.isdir("o") else []
        if target == "words":
            # a word may ask for the help, or for another mode
            is_empty = mode == "ledger" and status == 0 and said == b""
            wrong = [] if status in {0, 1, 2, 3, 4, 5, 6, 7, 9, 10} and seconds <= SECONDS else ["words"]
            wrong += [] if status == 7 or said.endswith(b"\n") or is_empty else ["printed"]
            wrong += ["files"] if status > 1 and made and status != 7 else []
        else:
            wanted = [layer] + [layer + ".cert"] * ("--cert" in words) if mode == "migrate" else ["h.txt"] if mode == "heights" else []
            wrong = list(wrongs(mode, status, said, words, seconds, made, wanted, statuses[target]))
            if mode == "ledger" and target != "ledger.db":
                wrong += wrong_ledger(status, LEDGER)
        if wrong and len(os.listdir("../kept")) < 100:
            shutil.copytree(folder, os.path.join("../kept", "run%d" % number))
        for name in os.listdir("."):
            if os.path.isdir(name):
                shutil.rmtree(name, ignore_errors=True)
            elif name not in texts and name != "said":
                os.remove(name)
        names = {"w": "written", "c": "certificate", "ledger.db": "database", "r.txt": "report", "again": "script"}
        return number, mode, names.get(target, target), status, seconds, wrong, words
    finally:
        os.chdir(os.path.dirname(folder))


# What a migration writes of a layer of the data: the layer and its certificate.
def carried(layer, tin):
    for name in layer, tin:
        with open(name, "wb") as file:
            file.write(TEXTS[name])
    assert run(program, ["migrate", "--tin", tin, "--out", "carried", "--cert", layer], os.getcwd())[0] in (0, 1)
    with open("carried/" + layer, "rb") as written, open("carried/%s.cert" % layer, "rb") as cert:
        return written.read(), cert.read()


CARRIED = {layer: carried(layer, tin) for layer, tin in LAYERS}
# The files of a mode that has others than a layer and its triangulation.
OTHERS = {"heights": ["h.json", "h.txt"], "ledger": ["script", "again", "r.txt", "nine.wkt", "ledger.db"]}
for name in ("script", "r.txt", "nine.wkt"):
    with open(name, "wb") as file:
        file.write(TEXTS[name])
assert run(ledger, ["ledger.db", "script"], os.getcwd())[0] == 0
LEDGER = kept("ledger.db")  # sqlite puts its log into the database
with open("ledger.db", "rb") as file:
    TEXTS["ledger.db"] = file.read()
signal.signal(signal.SIGPIPE, signal.SIG_DFL)
counts, slowest, bad = collections.Counter(), (0.0, 0), 0
with multiprocessing.Pool(len(os.sched_getaffinity(0))) as pool:
    for number, mode, target, status, seconds, wrong, words in pool.imap_unordered(one, range(runs), 64):
        counts[(mode, target), status] += 1
        slowest = max(slowest, (seconds, number))
        if wrong:
            bad += 1
            print("run %d: %s: status %d, %.2f s: %s" % (number, ", ".join(wrong), status, seconds, " ".join(words)))
statuses = sorted({status for _, status in counts})
print("%-24s" % "changed" + "".join("%9s" % ("status %d" % status) for status in statuses))
for target in sorted({target for target, _ in counts}):
    print("%-24s" % " ".join(target) + "".join("%9d" % counts[target, status] for status in statuses))
print("slowest: run %d, %.3f s, %.4f of the time that a run may take" % (slowest[1], slowest[0], slowest[0] / SECONDS))
print("%d runs, %d wrong" % (runs, bad) + (": their files are in %s/kept" % os.getcwd() if bad else ""))
sys.exit(1 if bad else 0)
END
