#!/usr/bin/env bash
# Tries the launcher 'tinmove', also under the names 'tinplaces' and 'tinledger', on a small checkout
# with a kit that only pretends to prove, in a temporary folder whose name has blanks. It needs bash,
# and takes some thirty seconds.
# The last line is 'N passed, M failed'; the status is 1 where one failed.
set -u
top=$(cd -- "$(dirname -- "$0")/.." && pwd)
work=$(mktemp -d "${TMPDIR:-/tmp}/tinmove launcher.XXXXXX") || exit 1
trap 'chmod -R u+w "$work"; rm -rf "$work"' EXIT
passed=0
failed=0

# The words of a fact, and a command that is true where it holds.
holds() {
    local fact=$1
    shift
    if "$@"; then
        passed=$((passed + 1))
    else
        failed=$((failed + 1))
        printf 'FAILED: %s\n' "$fact"
    fi
}
has() { grep -q -- "$2" "$1"; }
lacks() { ! grep -q -- "$2" "$1"; }
same() { [ "$1" = "$2" ]; }

# A checkout of three libraries, a test crate that the programs do not use, and the programs.
checkout() {
    rm -rf "$work/check out"
    for name in low side mid some_tests help_texts tinmove tinplaces tinledger; do
        mkdir -p "$work/check out/crates/$name/src"
    done
    cd "$work/check out" || exit 1
    cp -R "$top/tinmove" "$top/tools" .
    ln -s tinmove tinplaces
    ln -s tinmove tinledger
    cp "$top/crates/help_texts/src/help.rt" crates/help_texts/src/help.rt
    cp "$top/crates/tinplaces/src/help.rt" crates/tinplaces/src/help.rt
    cp "$top/crates/tinledger/src/help.rt" crates/tinledger/src/help.rt
    printf '%s\n' '# lowest first' 'low: thiserror' 'side:' 'mid: side low' 'some_tests: mid low' \
        'tinmove: mid low side clap' 'tinplaces: mid low clap' 'tinledger: low clap' >crates.txt
    for name in low side mid some_tests; do echo "// $name" >crates/$name/src/lib.rt; done
    echo 'first' >crates/tinmove/src/main.rt
    echo 'places' >crates/tinplaces/src/main.rt
    echo 'ledger' >crates/tinledger/src/main.rt
    : >"$work/calls"
}
place="$work/check out/crates/tinmove/out/rlib"

# A kit that pretends: each call of it writes a line. A library is what its source says, and is built
# over those below it; the first two are built at once. A program prints what its source said when
# the build began. In 'lib_does' and 'run_does' stands what else the prover is to do, and in 'rt_does'
# what rt is.
kit="$work/a kit"
mkdir -p "$kit/bin" "$kit/c" "$kit/logic_built" "$kit/toolchain" "$kit/rattle/logic" "$work/bin" "$work/no rt"
for name in std thiserror clap; do mkdir -p "$kit/rlibs/$name.rlib"; done
touch "$kit/c/libos_c.a" "$kit/c/liblibc_c.a" "$kit/rattle/logic/antt-project.json"
printf '#!/bin/sh\necho 2\n' >"$work/bin/nproc"
# What sums contents writes a line for each call.
# shellcheck disable=SC2016
printf '#!/bin/sh\necho sum >>"$WORK/sums"\nexec %s "$@"\n' "$(command -v sha256sum)" >"$work/bin/sha256sum"
: >"$work/sums"
ln -s "$kit/bin/rt" "$work/bin/rt"
cat >"$work/program.sh" <<'END'
program() { # what it says
    cat <<PROGRAM
#!/usr/bin/env bash
[ "\${1-}" != --version ] || exit 0
echo "said $1 in \$PWD"
grep SigIgn /proc/self/status
echo "tunables \$GLIBC_TUNABLES"
printf '<%s>\n' "\$@"
cat
exit 5
PROGRAM
}
END
cat >"$kit/bin/rt" <<'END'
#!/usr/bin/env bash
. "$WORK/program.sh"
name=$(basename "$PWD")
echo "rt $1 $name" >>"$WORK/calls"
[ ! -e "$WORK/rt_does" ] || . "$WORK/rt_does"
mkdir -p out
program "$(cat src/main.rt)" >"out/$name"
chmod +x "out/$name"
exec "out/$name" "${@:5}"
END
cat >"$kit/bin/rattle" <<'END'
#!/usr/bin/env bash
. "$WORK/program.sh"
[ "$2" != --help ] || { echo '      --statements'; exit 0; }
words=("$@")
used=()
while [ $# -gt 0 ]; do
    case $1 in
        --crate-name) name=$2 root=$3 ;;
        --extern) used+=("$2") ;;
        -o) to=$2 ;;
    esac
    shift
done
printf '%s\n' "${words[@]}" >"$WORK/words of $name"
for one in "${used[@]}"; do [ -d "${one#*=}" ] || exit 1; done
if [ "$root" = src/lib.rt ]; then
    echo "lib $name" >>"$WORK/calls"
    [ ! -e "$WORK/lib_does" ] || . "$WORK/lib_does"
    grep -q wrong src/lib.rt && echo "error: $name is wrong" && exit 1
    for one in "${used[@]}"; do
        [ ! -d "../${one%%=*}" ] || cmp "../${one%%=*}/src/lib.rt" "${one#*=}/lib.rt" || exit 1
    done
    : >"$WORK/begun $name"
    for _ in $(seq 300); do
        [ "$name" != mid ] && [ ! -e "$WORK/begun low" -o ! -e "$WORK/begun side" ] || break
        sleep 0.1
    done
    mkdir -p "$to"
    cp src/lib.rt "$to"
else
    echo "run $name" >>"$WORK/calls"
    said=$(cat src/main.rt)
    [ ! -e "$WORK/run_does" ] || . "$WORK/run_does"
    program "$said" >"$to"
fi
echo 'logic=proved'
END
cat >"$kit/bin/rattle-link" <<'END'
#!/usr/bin/env bash
cp "$7" "$6" && chmod +x "$6"
END
chmod +x "$kit"/bin/* "$work/bin/nproc" "$work/bin/sha256sum"
for tool in awk basename bash cat chmod cksum cmp cp cut date dirname env find flock getconf grep kill \
    mkdir mv nproc printf pwd python3 readlink rm rmdir sed seq sh sha256sum sleep sort sync tail tr wc; do
    found=$(command -v "$tool") && [ -x "$found" ] && ln -sf "$found" "$work/no rt/$tool"
done
cp -R "$work/no rt" "$work/no flock"
rm "$work/no flock/flock"
ln -sf "$work/bin"/* "$work/no flock"
export WORK=$work
with_rt=$work/bin:$PATH
calls() { wc -l <"$work/calls" | tr -d ' '; }
sums() { wc -l <"$work/sums" | tr -d ' '; }
run() { # the words of a command: its output, its errors and its status
    out=$work/out.txt err=$work/err.txt
    PATH=$with_rt "$@" >"$out" 2>"$err" </dev/null
    status=$?
}

checkout
# The help stands in the source, and needs no build and no rt.
for pair in 'WHOLE:--help' 'WHOLE:-h' 'WHOLE:help' 'VERSION:--version' 'VERSION:-V' \
    'MIGRATE:migrate --help' 'CHECK:check -h' 'MAKE:make -h'; do
    read -ra words <<<"${pair#*:}"
    PATH="$work/no rt" ./tinmove "${words[@]}" >"$work/out.txt" 2>"$work/err.txt"
    holds "help of ${pair#*:}: status" same $? 0
    python3 - "${pair%%:*}" crates/help_texts/src/help.rt >"$work/wanted.txt" <<'END'
import re, sys
text = open(sys.argv[2]).read()
body = re.search(r'pub const %s: &str =\s*"((?:[^"\\]|\\.|\\\n)*)";' % sys.argv[1], text, re.S)[1]
body = re.sub(r"\\\n\s*", "", body)
sys.stdout.write(body.replace("\\n", "\n").replace('\\"', '"'))
END
    holds "help of ${pair#*:}: text" cmp -s "$work/wanted.txt" "$work/out.txt"
    holds "help of ${pair#*:}: nothing on standard error" test ! -s "$work/err.txt"
done
./tinmove --help >/dev/full
holds 'help that cannot be written' same $? 7

# A help without the text that is asked for: the program is built and asked.
sed 's/const VERSION/const EDITION/' "$top/crates/help_texts/src/help.rt" >crates/help_texts/src/help.rt
run ./tinmove --version
holds 'no such text in the help: built, and the program asked' same "$(calls)" 4
holds 'no such text in the help: status of the program' same "$status" 0
checkout

# Of ten words the number begins with a 1 too: the program answers them.
run ./tinmove help migrate a b c d e f g h
holds 'help with nine words behind it: the program answers' has "$out" '^<help>$'
holds 'help with nine words behind it: status of the program' same "$status" 5
checkout

# Without rt.
PATH="$work/no rt" ./tinmove check --tin a >"$work/out.txt" 2>"$work/err.txt"
holds 'no rt: status' same $? 125
holds 'no rt: one line' same "$(wc -l <"$work/err.txt" | tr -d ' ')" 1
holds 'no rt: which names README' has "$work/err.txt" README
holds 'no rt: nothing on standard output' test ! -s "$work/out.txt"

# The first run builds, says how far it is, and hands on words, input and status.
mkdir "$work/else where" && cd "$work/else where" || exit 1
echo 'from the input' | PATH=$with_rt "$work/check out/tinmove" check 'a b' '' >"$work/out.txt" 2>"$work/err.txt"
holds 'first run: status of the program' same $? 5
holds 'first run: folder of the caller' has "$work/out.txt" "said first in $work/else where"
holds 'first run: words' has "$work/out.txt" '<a b>'
holds 'first run: empty word' has "$work/out.txt" '^<>$'
holds 'first run: input' has "$work/out.txt" 'from the input'
holds 'first run: says where it is' has "$work/err.txt" 'crate 1 of 4'
holds 'first run: says how long it took' has "$work/err.txt" '[0-9] min [0-9]* s'
holds 'first run: each library, then the program' same "$(calls)" 4
holds 'first run: what is used is built before' same "$(sed 1,2d "$work/calls" | tr '\n' ,)" \
    'lib mid,run tinmove,'
holds 'first run: no copy of the sources is left' test ! -e "$place/text"
holds 'first run: nothing is left at the top' test ! -e "$work/check out/out"
holds 'first run: the program is where README says' test -x "$work/check out/crates/tinmove/out/tinmove"
cat >"$work/wanted.txt" <<END
build
--crate-name
mid
src/lib.rt
--extern
std=$kit/rlibs/std.rlib
--extern
side=$place/side.rlib
--extern
low=$place/low.rlib
-L
dependency=$kit/rlibs
-L
dependency=$place
--antt-project
$kit/rattle/logic/antt-project.json
--logic-built
$kit/logic_built
--jobs
2
--links
mid=
--statements
-o
$place/mid.rlib
END
holds 'first run: the words of the gate for a library' cmp "$work/wanted.txt" "$work/words of mid"
holds 'first run: no statements of a program' lacks "$work/words of tinmove" '--statements'
holds 'first run: its libraries of the kit' has "$work/words of tinmove" "clap=$kit/rlibs/clap.rlib"

# Nothing changed: no build, whatever the dates say.
run "$work/check out/tinmove" check
holds 'second run: no build' same "$(calls)" 4
holds 'second run: nothing on standard error' test ! -s "$work/err.txt"
touch -d '2099-01-01' "$work/check out/crates/low/src/lib.rt"
run "$work/check out/tinmove" check
holds 'a date to come: no build' same "$(calls)" 4
echo '// more' >>"$work/check out/crates/some_tests/src/lib.rt"
run "$work/check out/tinmove" check
holds 'a crate that the program does not use: no build' same "$(calls)" 4
PATH="$work/no rt" "$work/check out/tinmove" check >"$work/out.txt" 2>"$work/err.txt" </dev/null
holds 'built, without rt: runs' same $? 5

# Nothing changed since the last call: times and sizes are looked at, and no contents. A file that was
# just changed is read again, since it may be changed once more in the same moment of the clock.
sleep 4
run "$work/check out/tinmove" check
: >"$work/sums"
run "$work/check out/tinmove" check
holds 'nothing changed: runs' has "$out" 'said first'
holds 'nothing changed: no contents are read' same "$(sums)" 0
touch "$work/check out/crates/low/src/lib.rt"
run "$work/check out/tinmove" check
holds 'a time moved: contents are read' test "$(sums)" -gt 0
sleep 4
run "$work/check out/tinmove" check
: >"$work/sums"
run "$work/check out/tinmove" check
holds 'a time moved: the call after the next reads none' same "$(sums)" 0
holds 'a time moved: no build' same "$(calls)" 4
main="$work/check out/crates/tinmove/src/main.rt"
touch -r "$main" "$work/time"
echo 'firsT' >"$main"
touch -r "$work/time" "$main"
run "$work/check out/tinmove" check
holds 'an edit of the same size with its old time: built' has "$out" 'said firsT'
echo 'first' >"$main"
run "$work/check out/tinmove" check
holds 'put back at once: built' has "$out" 'said first'
echo '// new' >"$work/check out/crates/mid/src/new.rt"
run "$work/check out/tinmove" check
holds 'a new file: built' same "$(sed 1,6d "$work/calls" | tr '\n' ,)" 'lib mid,run tinmove,'
rm "$work/check out/crates/mid/src/new.rt"
run "$work/check out/tinmove" check
: >"$work/calls"
printf 'lib low\nlib side\nlib mid\nrun tinmove\n' >"$work/calls"

# A program that is empty, as a loss of power may leave one that was not written to the disk yet.
for it in "$place"/tinmove-*; do : >"$it"; done
run "$work/check out/tinmove" check
holds 'an empty program: built again' same "$(sed 1,4d "$work/calls")" 'run tinmove'
holds 'an empty program: what is run' same "$status" 5
sed -i 5,9d "$work/calls"

# The program that README names runs while a new one is built.
busy="$work/check out/crates/tinmove/out/tinmove"
cp "$(command -v sleep)" "$busy"
"$busy" 60 &
sleeper=$!
echo 'busy' >"$main"
run "$work/check out/tinmove" check
holds 'the old program runs: status' same "$status" 5
holds 'the old program runs: the new one is kept' has "$out" 'said busy'
holds 'the old program runs: the new one takes its place' has "$busy" 'said busy'
kill "$sleeper"
echo 'first' >"$main"
run "$work/check out/tinmove" check
printf 'lib low\nlib side\nlib mid\nrun tinmove\n' >"$work/calls"

# A limit on the size of a file does not end the program: its signal, of number 25, is ignored.
run "$work/check out/tinmove" check
holds 'the signal of a limit on the size of files is ignored' has "$out" '^SigIgn:.*[13579bdf]......$'

# The C library is asked for large pages; what the caller asks of it stays.
holds 'large pages are asked for' has "$out" '^tunables glibc.malloc.hugetlb=1$'
run env GLIBC_TUNABLES=glibc.malloc.perturb=0 "$work/check out/tinmove" check
holds 'beside what the caller asks for' has "$out" '^tunables glibc.malloc.perturb=0:glibc.malloc.hugetlb=1$'
run env GLIBC_TUNABLES=glibc.malloc.hugetlb=0 "$work/check out/tinmove" check
holds 'and not where the caller says otherwise' has "$out" '^tunables glibc.malloc.hugetlb=0$'

# Other ways to call it.
ln -s "$work/check out/tinmove" "$work/else where/moved"
ln -s moved "$work/else where/again"
run "$work/else where/again" check
holds 'through two links' has "$work/out.txt" "said first in $work/else where"
cd "$work/check out" || exit 1
run bash tinmove check
holds 'as bash tinmove' has "$work/out.txt" 'said first'
run sh tinmove check
holds 'as sh tinmove' has "$work/out.txt" 'said first'
holds 'other ways: no build' same "$(calls)" 4

# Under the name of the other program that one is built and run, with its own help.
run ./tinplaces --help
holds 'tinplaces: help' has "$out" 'usage: tinplaces'
run ./tinplaces check --help
holds 'tinplaces: no mode has a help' same "$status" 5
holds 'tinplaces: built' has "$out" 'said places'
holds 'tinplaces: the libraries that are there, and its program' same "$(calls)" 5
holds 'tinplaces: says its name' has "$err" 'tinplaces: there is no program'
ln -s "$work/check out/tinplaces" "$work/else where/places"
run "$work/else where/places" check
holds 'tinplaces: through a link of another name' has "$out" 'said places'
run ./tinmove check
holds 'tinplaces: tinmove is what it was' has "$out" 'said first'
holds 'tinplaces: no build more' same "$(calls)" 5

# A source of an older date is another source.
echo 'second' >crates/tinmove/src/main.rt
touch -d '2001-01-01' crates/tinmove/src/main.rt
run ./tinmove check
holds 'an edit with an old date: built' has "$work/out.txt" 'said second'
holds 'an edit of the program: its libraries stay' same "$(calls)" 6
echo '// other' >crates/low/src/lib.rt
run ./tinmove check
holds 'an edit of a library: built' has "$work/out.txt" 'said second'
holds 'an edit of a library: it and what is above' same "$(sed 1,6d "$work/calls" | tr '\n' ,)" \
    'lib low,lib mid,run tinmove,'

# A source that is edited while it is built.
echo 'third' >crates/tinmove/src/main.rt
# shellcheck disable=SC2016
echo '[ -e "$WORK/once" ] || { : >"$WORK/once"; echo fourth >"$WORK/check out/crates/tinmove/src/main.rt"; }' >"$work/run_does"
run ./tinmove check
holds 'edited while it was built: built again' has "$work/out.txt" 'said fourth'
holds 'edited while it was built: says so' has "$work/err.txt" 'built again'
# shellcheck disable=SC2016
echo 'echo more >>"$WORK/check out/crates/tinmove/src/main.rt"' >"$work/run_does"
echo 'fifth' >crates/tinmove/src/main.rt
run ./tinmove check
holds 'edited each time: refused' same "$status" 125
rm "$work/run_does"

# A library that is edited while it is built, and is as it was before the end, is built of one text.
checkout
# shellcheck disable=SC2016
echo 'echo other >"$WORK/check out/crates/$name/src/lib.rt"' >"$work/lib_does"
# shellcheck disable=SC2016
echo 'for it in low side mid; do echo "// $it" >"$WORK/check out/crates/$it/src/lib.rt"; done' >"$work/run_does"
run ./tinmove check
holds 'edited and put back: runs' has "$out" 'said first'
holds 'edited and put back: one build, of what was there' same "$(calls)" 4
rm "$work/run_does" "$work/lib_does"

# A prover that is killed is begun again, with a processor less.
checkout
# shellcheck disable=SC2016
echo '[ $name != mid ] || [ -e "$WORK/twice" ] || { : >"$WORK/twice"; kill -9 $$; }' >"$work/lib_does"
run ./tinmove check
holds 'killed once: runs' has "$out" 'said first'
holds 'killed once: begun again' same "$(calls)" 5
holds 'killed once: with a processor less' same "$(sed -n '/^--jobs$/{n;p;}' "$work/words of mid")" 1
# shellcheck disable=SC2016
echo '[ $name != side ] || kill -9 $$' >"$work/lib_does"
echo '// again' >crates/side/src/lib.rt
run ./tinmove check
holds 'killed each time: status' same "$status" 125
rm "$work/lib_does"

# Another prover proves all again.
echo '# newer' >>"$kit/bin/rattle"
echo '// side' >crates/side/src/lib.rt
: >"$work/calls"
run ./tinmove check
holds 'another prover, and the program is there: runs' same "$(calls)" 0
echo 'newer' >crates/tinmove/src/main.rt
run ./tinmove check
holds 'another prover: all is built again' same "$(calls)" 4
holds 'another prover: runs' has "$out" 'said newer'

# Where rt has kept work of the program, or the kit is another, rt builds it.
checkout
mkdir -p crates/tinmove/out/incremental
run ./tinmove check
holds 'kept work: built by rt' same "$(cat "$work/calls")" 'rt run tinmove'
holds 'kept work: runs' has "$out" 'said first'
run ./tinmove check
holds 'kept work: no build' same "$(calls)" 1
# shellcheck disable=SC2016
echo 'echo "error: $name is wrong" >&2; exit 1' >"$work/rt_does"
echo 'other' >crates/tinmove/src/main.rt
run ./tinmove check
holds 'kept work, not proved: status' same "$status" 125
holds 'kept work, not proved: says what rt said' has "$err" 'tinmove is wrong'
rm "$work/rt_does"
checkout
mv "$kit/bin/rattle-link" "$work/linker"
run ./tinmove check
holds 'another kit: built by rt' same "$(cat "$work/calls")" 'rt run tinmove'
holds 'another kit: runs' has "$out" 'said first'
mv "$work/linker" "$kit/bin/rattle-link"
checkout

# A crate that is not proved.
echo '// wrong' >crates/low/src/lib.rt
run ./tinmove check
holds 'not proved: status' same "$status" 125
holds 'not proved: says what rt said' has "$err" 'low is wrong'
holds 'not proved: nothing on standard output' test ! -s "$out"
run ./tinmove --version
holds 'not proved: the version is printed' same "$(cat "$out")" "$(sed -n 's/.*VERSION: &str = "\(.*\)\\n";/\1/p' crates/help_texts/src/help.rt)"

# Two at once.
checkout
for n in 1 2; do
    (PATH=$with_rt ./tinmove check >"$work/out$n.txt" 2>"$work/err$n.txt" </dev/null) &
done
wait
holds 'two at once: both run' same "$(cat "$work/out1.txt" "$work/out2.txt" | grep -c 'said first')" 2
holds 'two at once: one build' same "$(calls)" 4

# Two at once where the system has no command flock.
checkout
for n in 1 2; do
    (PATH="$work/no flock" ./tinmove check >"$work/out$n.txt" 2>"$work/err$n.txt" </dev/null) &
done
wait
holds 'two at once without flock: both run' same "$(cat "$work/out1.txt" "$work/out2.txt" | grep -c 'said first')" 2
holds 'two at once without flock: one build' same "$(calls)" 4
rm "$work/no flock/python3"
echo 'other' >crates/tinmove/src/main.rt
PATH="$work/no flock" ./tinmove check >"$out" 2>"$err" </dev/null
holds 'neither flock nor Python: status' same $? 125
holds 'neither flock nor Python: says so' has "$err" 'neither flock nor python3'
echo 'first' >crates/tinmove/src/main.rt

# A launcher that builds by rt leaves the copy of the sources to the one that builds from it.
checkout
mkdir -p crates/tinplaces/out/incremental
# shellcheck disable=SC2016
echo '[ $name != mid ] || for _ in $(seq 600); do [ ! -e "$WORK/other ended" ] || break; sleep 0.1; done' >"$work/lib_does"
(PATH=$with_rt ./tinmove check >"$work/out1.txt" 2>"$work/err1.txt" </dev/null) &
for _ in $(seq 300); do has "$work/calls" 'lib mid' && break; sleep 0.1; done
run ./tinplaces check
: >"$work/other ended"
wait
rm "$work/lib_does"
holds 'one by rt beside a build: runs' has "$out" 'said places'
holds 'one by rt beside a build: the build ends well' has "$work/out1.txt" 'said first'
holds 'one by rt beside a build: no copy of the sources is left' test ! -e "$place/text"
checkout
run ./tinmove check

# A checkout that cannot be written: what is built of its sources runs, and nothing older.
echo 'sixth' >crates/tinmove/src/main.rt
mv crates/tinmove/out "$work/kept"
: >crates/tinmove/out
run ./tinmove check
holds 'not writable: status' same "$status" 125
holds 'not writable: says so' has "$err" 'cannot be written'
holds 'not writable: no build' same "$(calls)" 4
rm crates/tinmove/out
mv "$work/kept" crates/tinmove/out
echo 'first' >crates/tinmove/src/main.rt
chmod -R a-w .
run ./tinmove check
holds 'not writable, and built of these sources: runs' has "$out" 'said first'
chmod -R u+w .

# A build that is ended takes the provers with it, and leaves nothing but what is proved.
ended() { # at which call, and by which signal
    checkout
    [ "$1" != rt ] || mkdir -p crates/tinmove/out/incremental
    # shellcheck disable=SC2016
    echo 'echo $$ >>"$WORK/provers"; exec sleep 77' >"$work/$1_does"
    rm -f "$work/provers"
    PATH=$with_rt ./tinmove check >/dev/null 2>&1 </dev/null &
    launched=$!
    for _ in $(seq 300); do [ -s "$work/provers" ] && break; sleep 0.1; done
    holds "ended at $1: the prover is there before" there
    kill -s "$2" "$launched"
    wait "$launched" 2>/dev/null
    status=$?
    rm "$work/$1_does"
}
there() { xargs kill -0 <"$work/provers" 2>/dev/null; }
gone() { ! there; }
for at in lib rt run; do
    ended $at TERM
    holds "ended at $at: status" same "$status" 143
    holds "ended at $at: the prover is ended too" gone
    holds "ended at $at: no copy of the sources is left" test ! -e "$place/text"
done
: >"$work/calls"
run ./tinmove check
holds 'ended and run again: what was proved stays' same "$(cat "$work/calls")" 'run tinmove'
holds 'ended and run again: runs' has "$out" 'said first'

# So does one whose standard error is no longer read, at its next line.
checkout
# shellcheck disable=SC2016
echo '[ $name = low ] || { : >"$WORK/begun $name"; echo $$ >>"$WORK/provers"; exec sleep 77; }' >"$work/lib_does"
rm -f "$work/provers" "$work"/begun*
{ PATH=$with_rt ./tinmove check 2>&1 >/dev/null </dev/null; echo "$?" >"$work/status"; } | head -n 2 >"$work/err.txt"
rm "$work/lib_does"
holds 'nobody reads: status' same "$(cat "$work/status")" 141
holds 'nobody reads: the prover is ended too' gone
holds 'nobody reads: no copy of the sources is left' test ! -e "$place/text"

# A launcher that is killed leaves its provers, and the next one waits for them.
ended lib KILL
: >"$work/err.txt"
PATH=$with_rt ./tinmove check >"$work/out.txt" 2>"$work/err.txt" </dev/null &
launched=$!
for _ in $(seq 300); do [ -s "$work/err.txt" ] && break; sleep 0.1; done
holds 'killed: the next one waits for its provers' has "$work/err.txt" waiting
xargs kill <"$work/provers"
wait "$launched"
holds 'killed: the next one builds' has "$work/out.txt" 'said first'
holds 'killed: no copy of the sources is left' test ! -e "$place/text"

# The ledger is built under its own name, of the crates below it alone.
checkout
run ./tinledger --help
holds 'tinledger: help' has "$out" 'usage: tinledger DB SCRIPT'
run ./tinledger --version
holds 'tinledger: version' same "$(cat "$out")" "$(sed -n 's/.*VERSION: &str = "\(.*\)\\n";/\1/p' crates/tinledger/src/help.rt)"
holds 'tinledger: help and version: no build' same "$(calls)" 0
run ./tinledger campaign.db 'a script'
holds 'tinledger: built' has "$out" 'said ledger'
holds 'tinledger: words' has "$out" '<a script>'
holds 'tinledger: says its name' has "$err" 'tinledger: there is no program'
holds 'tinledger: what is below it, and its program' same "$(tr '\n' , <"$work/calls")" 'lib low,run tinledger,'

# A program more is one line in the launcher, and a link to it.
checkout
mkdir -p crates/third/src
echo 'third' >crates/third/src/main.rt
echo 'third: low' >>crates.txt
sed -i 's|^tinledger .*|&\nthird crates/third/src/help.rt|' tinmove
ln -s tinmove third
run ./third check
holds 'a third program: built under its own name' has "$out" 'said third'
holds 'a third program: says its name' has "$err" 'third: there is no program'
run ./tinmove check
holds 'a third program: the launcher runs tinmove' has "$out" 'said first'

echo "$passed passed, $failed failed"
[ "$failed" -eq 0 ]
