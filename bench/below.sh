# Read by the scripts of this folder that build a crate of their own, which have set top, the checkout.
# shellcheck shell=sh
# shellcheck disable=SC2154

# Copies crates, and all that crates.txt lists below them, into the new repository of a folder, with their
# lines of crates.txt; copied is then their names, lowest first. A library that 'rt lib' or 'rt check' left
# in the checkout comes along: 'rt' takes it where it is of the same text, and else builds its own.
copy_crates() { # the folder, the crates
    repository=$1
    shift
    mkdir -p "$repository/crates"
    awk -v wanted="$*" '
        /^#/ || NF == 0 { next }
        { name = $1; sub(/:.*/, "", name); line[NR] = $0; number[name] = NR }
        END {
            count = split(wanted, first, " ")
            for (at = 1; at <= count; at++) {
                if (!(first[at] in number)) { print "no crate is called " first[at] | "cat >&2"; exit 1 }
                take(first[at])
            }
            for (at = 1; at <= NR; at++) if (at in taken) print line[at]
        }
        function take(name, words, count, part) {
            if (!(name in number) || number[name] in taken) return
            taken[number[name]] = 1
            count = split(line[number[name]], words, /[ :]+/)
            for (part = 2; part <= count; part++) take(words[part])
        }' "$top/crates.txt" >"$repository/crates.txt"
    copied=$(sed 's/:.*//' "$repository/crates.txt" | tr '\n' ' ')
    for name in $copied; do
        mkdir -p "$repository/crates/$name"
        for part in src specs proofs; do
            [ ! -d "$top/crates/$name/$part" ] || cp -r "$top/crates/$name/$part" "$repository/crates/$name"
        done
        [ -f "$top/crates/$name/out/rlib/stamp" ] || continue
        mkdir "$repository/crates/$name/out"
        cp -r "$top/crates/$name/out/rlib" "$repository/crates/$name/out"
    done
}
