#!/usr/bin/env bash
# Whether the man pages, the completion and the launcher say what the programs' help says.
# usage: checks/help.sh [PROGRAM]     with PROGRAM its own texts are compared with the launcher's too
# The last line is 'the help is the same everywhere'; the status is 1 where it is not.
set -eu
top=$(cd -- "$(dirname -- "$0")/.." && pwd)
program=${1:-}
bad=0
differ() { printf 'differs: %s\n' "$1"; bad=1; }
plain() { tr -s ' \n' ' ' | sed 's/^ //; s/ $//'; }
page() { MANWIDTH=500 man -l "$top/recipes/$1.1" 2>/dev/null | col -bx; }
options() { grep -o -- '--[a-z-]*[a-z]' | sort -u; }
statuses() { # the exit statuses, a help and its man page: each status begins in the same way
    local found status said
    found=$(sed -n 's/^  \([0-9][0-9]*\)  *[^ ].*/\1/p' <<<"$2" | plain)
    [ "$found" = "$1" ] || differ "the statuses of the help: $found"
    for status in $found; do
        said=$(sed -n "s/^  $status  *//p" <<<"$2" | cut -d, -f1 | cut -d';' -f1)
        grep -qi -- "$said" <<<"$3" || differ "status $status of the man page: $said"
    done
}

# The launcher prints the text of the source; so does the program.
if [ -n "$program" ]; then
    for words in --help -h help --version -V 'migrate --help' 'check -h' 'make --help' 'verify -h' 'heights --help'; do
        read -ra list <<<"$words"
        cmp -s <("$top/tinmove" "${list[@]}") <("$program" "${list[@]}") || differ "the launcher's text of '$words'"
    done
fi

help=$("$top/tinmove" --help)
man=$(page tinmove)

# Each option and mode of the help is in the man page and in the completion, and no other.
in_help=$(options <<<"$help")
in_man=$(options <<<"$man")
in_completion=$(grep -o -- '--[a-z][a-z-]*' "$top/recipes/tinmove.bash" | sort -u)
[ "$in_help" = "$in_man" ] || differ "the options of the man page"
[ "$in_help" = "$in_completion" ] || differ "the options of the completion"
for mode in migrate check make verify heights; do
    grep -q -- "tinmove $mode" <<<"$man" || differ "the mode $mode of the man page"
    of_mode=$("$top/tinmove" $mode --help | grep -o -- '--[a-z-]*' | sort -u | plain)
    of_completion=$(sed -n "s/^ *$mode) options='\(.*\)' ;;/\1/p" "$top/recipes/tinmove.bash" | tr ' ' '\n' | sort -u | plain)
    [ "$of_mode" = "$of_completion" ] || differ "the options of $mode in the completion"
done

# The version, and each exit status, which begin in the same way.
version=$("$top/tinmove" --version)
grep -q "\"$version\"" "$top/recipes/tinmove.1" || differ "the version of the man page"
statuses '0 1 2 3 4 5 6 7 8 9 10' "$help" "$man"

# The same of tinplaces, which has no modes. Its completion asks it for its options: what is offered
# after --, as bash asks for it.
offered() (
    . "$top/recipes/tinmove.bash"
    COMP_WORDS=("$1" --) COMP_CWORD=1
    _tinplaces "$1" 2>/dev/null
    printf '%s\n' "${COMPREPLY[@]}" | sort -u
)
help=$("$top/tinplaces" --help)
man=$(page tinplaces)
[ "$(options <<<"$help")" = "$(options <<<"$man")" ] || differ "the options of the man page of tinplaces"
[ "$(options <<<"$help")" = "$(offered "$top/tinplaces")" ] || differ "the options of the completion of tinplaces"
grep -q "\"$("$top/tinplaces" --version)\"" "$top/recipes/tinplaces.1" || differ "the version of the man page of tinplaces"
statuses '0 1 2 3 4 5 6 7 8 9' "$help" "$man"

# The same of tinledger, whose lines of a script are in the man page too.
help=$("$top/tinledger" --help)
man=$(page tinledger)
[ "$(options <<<"$help")" = "$(options <<<"$man")" ] || differ "the options of the man page of tinledger"
[ "$(options <<<"$help")" = "$(grep -o -- '--[a-z][a-z-]*' "$top/recipes/tinledger.bash" | sort -u)" ] || differ "the options of the completion of tinledger"
grep -q "\"$("$top/tinledger" --version)\"" "$top/recipes/tinledger.1" || differ "the version of the man page of tinledger"
statuses '0 2 3 4 6 7 8 9 10' "$help" "$man"
count=0
while read -r line; do
    count=$((count + 1))
    grep -qF -- "$line" <<<"$man" || differ "the line '$line' of the man page of tinledger"
done < <(sed -n 's/^  \(enter\|decide\|list\|clear\) \([A-Z]*[A-Za-z. ]*[A-Za-z.]\)   *.*/\1 \2/p; s/^  \(list\|clear\) RUN  .*/\1 RUN/p' <<<"$help" | sort -u)
[ "$count" -gt 0 ] || differ "the lines of a script in the help of tinledger"
[ "$bad" -eq 0 ] && echo 'the help is the same everywhere'
exit $bad
