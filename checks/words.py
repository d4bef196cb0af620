#!/usr/bin/env python3
"""Names that have more than one meaning or say too little, and lines that are too long.

    checks/words.py             prints the worst names of each kind that has more rows than it may, and the counts
    checks/words.py KIND..      prints all rows of these kinds
    checks/words.py --crates    prints the counts by kind and crate
    checks/words.py --accept    writes how many rows each kind has at present into words.txt, as what it may have
    checks/words.py --tests     reads the crates of tests (`.._tests`) too, with any of the above except --accept

The kinds:
  types    a type of src that has the name of a type of another crate
  twice    a function of src outside of impls that has the name of one in another file of its crate
  bare     a function, or a function of specs, whose name is a participle alone: `counted`, `told`
  vague    a lemma whose name is one word of VAGUE or a participle, as `one`, `below`, `joined`; or is of several such
           words and is the name of three lemmas or more, as `not_zero`
  unnamed  a public lemma that no other file imports
  wide     a line of src of more than 140 columns, in crates of tests too
The number before a row is what makes it bad: the crates, files or lemmas that share the name, the files that use it, the
lemmas of its file that nothing imports, or the columns. words.txt beside this file has the exceptions, KIND NAME ->
REASON, and how many rows a kind may have, at most N in KIND -> REASON. A wide line has its function's name. The status
is 1 where a kind has more.
"""

import re
import sys
from collections import Counter, defaultdict
from collections.abc import Callable, Iterable
from pathlib import Path

from sources import Words, accept, code_of, crates, enter_top, exceptions, files, limits

Place = tuple[str, str, Path, int]  # a crate, a name, its file and its line's number
Row = tuple[int, str, str, str]  # what makes it bad, its crate, its name, its place

MOST_COLUMNS = 140
SHOWN = 12
PARTICIPLE = re.compile("[a-z]{2,}ed|told|made|held|found|given|written|kept|taken|shown|drawn|seen|known|built|sent|begun|chosen")
NOT_PARTICIPLES = {"need", "seed", "feed", "speed", "exceed", "proceed", "embed", "shed", "indeed"}
VAGUE = set("""
    above across after again alike all alone among and another any apart at back before behind below beside between beyond
    both by different differs down each earlier either else empty end equal even ever fails falls few fewer first five
    from full good has here high in inside is it itself last later least left less lesser like long longer low many more
    most natural near neither never next no none not nothing now of on once one only other others out outside over own
    part past positive right rises same second self shorter single six small some starts stays step still that the there
    third three through to too two under up upto weaker where which whole wide wider with within without yes zero""".split())
SHARED = 3
OPEN = r"(?:pub(?:\(\w+\))? )?"
TYPE = OPEN + r"(?:struct|enum|trait|type) (\w+)"
FUNCTION = OPEN + r"(?:const )?fn (\w+)"
SPEC_FUNCTION = r"(?:abbrev |unfoldable )*pub ([a-z]\w*) :"
LEMMA = r"([a-z][^\s:]*) :"
IMPORTS = re.compile(r"(?m)\buse Rattle\.(\w+)\.proofs\.([\w.]+?)(?:\.\{([^}]*)\}| as (\w+));?$")


def is_bare(name: str) -> bool:
    return bool(PARTICIPLE.fullmatch(name)) and name not in NOT_PARTICIPLES


def is_vague(name: str) -> bool:
    return all(it in VAGUE or is_bare(it) for it in re.split(r"[_-]", name) if it)


def declared(members: Iterable[str], part: str, pattern: str) -> list[Place]:
    """Gives what is declared at the beginning of a line: its crate, name, file and line's number."""
    return [(crate, hit[1], path, number) for crate in members for path in files(crate, part)
            for number, line in enumerate(path.read_text(encoding="utf-8").splitlines(), 1) if (hit := re.match(pattern, line))]


def row(weight: int, it: Place) -> Row:
    return (weight, it[0], it[1], f"{it[2]}:{it[3]}")


def types(members: list[str]) -> list[Row]:
    found = declared(members, "src", TYPE)
    homes: dict[str, set[str]] = defaultdict(set)
    for it in found:
        homes[it[1]].add(it[0])
    return [row(len(homes[it[1]]), it) for it in found if len(homes[it[1]]) > 1]


def twice(members: list[str]) -> list[Row]:
    found = declared(members, "src", FUNCTION)
    count = Counter((crate, name) for crate, name, _ in {it[:3] for it in found})
    return [row(count[it[:2]], it) for it in found if count[it[:2]] > 1]


def bare(members: list[str]) -> list[Row]:
    found = declared(members, "src", r"\s*" + FUNCTION) + declared(members, "specs", SPEC_FUNCTION)
    uses = Counter(it for crate in members for part in ("src", "specs", "proofs") for path in files(crate, part)
                   for it in set(re.findall(r"[a-z]\w*", code_of(path))))
    return [row(uses[it[1]], it) for it in found if is_bare(it[1])]


def lemmas(members: list[str], mark: str = "(?:pub )?") -> list[Place]:
    return [it for it in declared(members, "proofs", mark + LEMMA) if it[2].stem not in ("Answers", "Invariants")]


def vague(members: list[str]) -> list[Row]:
    found = [it for it in lemmas(members) if is_vague(it[1])]
    count = Counter(it[1] for it in found)
    return [row(count[it[1]], it) for it in found if count[it[1]] >= SHARED or not re.search("[_-]", it[1])]


def unnamed(members: list[str]) -> list[Row]:
    imported = set()
    for path in (it for crate in crates()[0] for part in ("src", "specs", "proofs") for it in files(crate, part)):
        text = code_of(path)
        for crate, module, names, alias in IMPORTS.findall(text):
            found = re.findall(rf"\b{alias}\.([^\s(){{}},:;.]+)", text) if alias else re.findall(r"([^\s,]+)(?: as [^\s,]+)?", names)
            imported |= {(crate, module.split(".")[-1], it) for it in found}
    found = [it for it in lemmas(members, "pub ") if (it[0], it[2].stem, it[1]) not in imported]
    count = Counter(it[2] for it in found)
    return [row(count[it[2]], it) for it in found]


def wide(_: list[str]) -> list[Row]:
    found = []
    for crate in crates()[0]:
        for path in files(crate, "src"):
            function = "use"
            for number, line in enumerate(path.read_text(encoding="utf-8").splitlines(), 1):
                function = hit[1] if (hit := re.match(r"\s*" + FUNCTION, line)) else function
                if len(line) > MOST_COLUMNS:
                    found.append(row(len(line), (crate, function, path, number)))
    return found


KINDS: dict[str, Callable[[list[str]], list[Row]]] = {
    "types": types, "twice": twice, "bare": bare, "vague": vague, "unnamed": unnamed, "wide": wide}


def print_rows(kind: str, rows: list[Row], is_whole: bool) -> None:
    """Prints all rows, or the worst names (the worst files, of lemmas that nothing imports), each with its first place."""
    groups: dict[str, list[Row]] = defaultdict(list)
    for it in sorted(rows, key=lambda it: (-it[0], it[2], it[3])):
        groups[it[3] if is_whole else it[3].split(":")[0] if kind == "unnamed" else it[2]].append(it)
    for group in list(groups.values())[: None if is_whole else SHOWN]:
        weight, _, name, place = group[0]
        print(f"  {weight:4} {name:24} {place}" + (f" and {len(group) - 1} more" if group[1:] else ""))


def print_crates(members: list[str], found: dict[str, list[Row]]) -> None:
    """Prints how many rows of each kind each crate has, the worst crates first."""
    by_crate = {crate: [sum(1 for it in rows if it[1] == crate) for rows in found.values()] for crate in members}
    print(f"{'':16}" + "".join(f"{it:>9}" for it in found))
    for crate, counts in sorted(by_crate.items(), key=lambda it: -sum(it[1])):
        print(f"{crate:16}" + "".join(f"{it or '':>9}" for it in counts))


def main() -> int:
    words = Words(__doc__)
    words.add_argument("kinds", nargs="*", metavar="KIND", help=f"print all rows of these kinds: {', '.join(KINDS)}")
    words.add_argument("--crates", action="store_true", help="print the counts by kind and crate")
    words.add_argument("--accept", action="store_true", help="take the present counts as what kinds may have")
    words.add_argument("--tests", action="store_true", help="read the crates of tests, too")
    asked = words.parse_args()
    for it in asked.kinds:
        if it not in KINDS:
            words.error(f"'{it}' is no kind")
    if asked.accept and (asked.tests or asked.kinds):
        words.error("--accept goes with no other word")
    enter_top()
    members = [it for it in crates()[0] if asked.tests or not it.endswith("_tests")]
    excepted = exceptions(__file__)
    found = {kind: [it for it in KINDS[kind](members) if f"{kind} {it[2]}" not in excepted] for kind in asked.kinds or KINDS}
    if asked.accept:
        accept(__file__, {kind: len(rows) for kind, rows in found.items()}, "names of today")
    allowed = limits(__file__)
    over = [kind for kind, rows in found.items() if len(rows) > allowed.get(kind, 0)]
    for kind, rows in found.items():
        print(f"{kind}: {len(rows)} rows, {len({it[2] for it in rows})} names; {allowed.get(kind, 0)} rows may be")
        if asked.kinds or kind in over:
            print_rows(kind, rows, bool(asked.kinds))
    if asked.crates:
        print_crates(members, found)
    return 1 if over and not asked.tests else 0


if __name__ == "__main__":
    sys.exit(main())
