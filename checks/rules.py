#!/usr/bin/env python3
"""Whether each row of the table of rules in docs/architecture.md leads to its rule, and on to what carries it.

    checks/rules.py     prints a row for each fault; the status is 1 where there is one

The second cell has a file of specs and names that are defined there: definitions, or fields of records. The third has
what carries them: CRATE: CALL, and then in brackets the labels of its clauses, or that it is a law; without brackets it
is the clause that has no label. After a semicolon comes another call, of the same crate if it names none. A call is
public, as the lib.rt of its crate says; TYPE::CALL is a method. From the names in these clauses imports are followed,
definition by definition (spec_files.py says how): they must lead to each name of the second cell. The clauses of a
type that is a Layer are those of the trait, whose open words the file of the type fills in.
"""

import re
import sys
from collections.abc import Iterator
from pathlib import Path

from sources import Words, code_of, enter_top, files
from spec_files import Definition, blocks, clause, follow, imports

PAGE = Path("docs/architecture.md")
HEAD = "| Rule | Look in | Carried by |"
SPAN = re.compile(r"`([^`]+)`")
CALL = re.compile(r"(?:(\w+): )?`(?:(\w+)::)?(\w+)`(?: \((?:law|(`[\w.`, ]+`))\))?")
TRAIT = Path("crates/sheet_base/src/layers.rt")


def rows(page: str) -> Iterator[list[str]]:
    """Gives the cells of each row of the table."""
    for line in page.partition(HEAD)[2].splitlines()[2:]:
        if not line.startswith("|"):
            return
        yield [it.strip() for it in line.strip("|").split("|")]


def has_clauses(path: Path, call: str, labels: list[str]) -> bool:
    """Says whether a function of a file has clauses of these labels, or one without a label where there are none."""
    wanted = {it.partition(".")[0] for it in labels} or {""}
    contracts = re.findall(rf"(?ms)\bfn {call}\b(.*?)(?:^\s*\{{\}}?$|;$)", code_of(path))
    return any(wanted <= set(re.findall(r"\bensures ?(\w*) ?\{", it)) for it in contracts)


def starts_of(crate: str, kind: str, call: str, labels: list[str]) -> set[Definition] | str:
    """Gives the definitions that a call's clauses name, or what is wrong."""
    lib = Path("crates", crate, "src/lib.rt")
    if not lib.exists():
        return f"there is no crate '{crate}'"
    if not re.search(rf"\b{kind or call}\b", " ".join(re.findall(r"pub use [^;]*;", code_of(lib)))):
        return f"{crate} has no public {kind or call}"
    for path in files(crate, "src"):
        if kind and f"impl Layer for {kind} " in code_of(path) and has_clauses(TRAIT, call, labels):
            return set(imports(path).values())
        if (not kind or re.search(rf"\b(?:impl|trait) {kind}\b", code_of(path))) and has_clauses(path, call, labels):
            return clause(" ".join([str(path.relative_to("crates")), call, *labels]))
    return f"{crate} has no {call} with {', '.join(labels) or 'a clause without a label'}"


def wanted_in(look: str) -> Iterator[Definition | str]:
    """Gives the definitions that a cell names, with the record in the place of its field, or what is wrong."""
    found, alias, file = {}, {}, PAGE
    for span in SPAN.findall(look):
        if "/" in span:
            file = Path("crates", span)
            found, alias = blocks(file) if file.exists() else ({}, {})
            continue
        field = next((it for it, lines in found.items() if re.search(rf"(?m)^ +pub {span} :", "\n".join(lines))), None)
        name = span if span in found else alias.get(span, field)
        yield (file, name) if name else f"{file} does not define {span}"


def carriers_in(carried: str) -> Iterator[set[Definition] | str]:
    """Gives for each call of a cell the definitions that its clauses name, or what is wrong."""
    crate = ""
    for part in carried.split("; "):
        named = CALL.fullmatch(part)
        if named:
            crate = named[1] or crate
            yield starts_of(crate, named[2] or "", named[3], SPAN.findall(named[4] or ""))
        else:
            yield f"'{part}' is not CRATE: CALL and its clauses"


def faults(look: str, carried: str) -> Iterator[str]:
    """Asks of a row whether its definitions and clauses are there, and whether these rest on those."""
    wanted, carriers = list(wanted_in(look)), list(carriers_in(carried))
    yield from (it for it in [*wanted, *carriers] if isinstance(it, str))
    reached = follow(set().union(*(it for it in carriers if not isinstance(it, str))))
    for it in wanted:
        if not isinstance(it, str) and it not in reached:
            yield f"{carried} does not rest on {it[1]}"


def main() -> int:
    Words(__doc__).parse_args()
    enter_top()
    table = list(rows(PAGE.read_text(encoding="utf-8")))
    found = [f"{PAGE}: {rule}: {it}" for rule, look, carried in table for it in faults(look, carried)]
    print("\n".join(found), end="\n" if found else "")
    print(f"{len(table)} rules, {len(found)} rows")
    return 1 if found or not table else 0


if __name__ == "__main__":
    sys.exit(main())
