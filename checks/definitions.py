#!/usr/bin/env python3
"""Whether the names that docs/definitions.md and docs/guarantees.md have in backticks exist.

    checks/definitions.py     prints a row for each that does not; the status is 1 where there is one

A section names its crates in its heading, and an entry may name further ones. A row of a table is an entry, and its
first cell names its crates. In a table with the columns Call and Clauses the first cell is CRATE: CALL. Each call is
declared in one of the row's crates, and each clause is one of that crate's contracts; CLAUSE.FIELD is a field of a
record of specs that the clause may cite. In a table of definitions the first cell is CRATE/FILE: NAME. Each is a file
of specs, and each name is defined in one of the row's files. A name of one word must be in a file of these crates or of crates below them, or be a crate. A file, as `tin_base/specs/Segments.antt`, `specs/Segments.antt`
or `Segments.antt`, must exist, in one of these crates where it names none. definitions.txt has the exceptions,
PAGE:NAME -> REASON; one that excepts nothing is a row.
"""

import re
import sys
from collections.abc import Iterator
from functools import lru_cache
from pathlib import Path

from sources import Words, code_of, crates, enter_top, exceptions, files

PAGES = (Path("docs/definitions.md"), Path("docs/guarantees.md"))
SPAN = re.compile(r"`([^`]+)`")
WORD = re.compile(r"[^\W\d][\w'-]*")
FILE = re.compile(r"(?:crates/)?(?:(\w+)/)?(?:(specs|proofs|src)/)?([\w/]+\.(?:antt|rt))")
CALLS, STATED = "| Call | Clauses |", "| Definition | In words |"  # how the heads of two kinds of tables begin
Entry = tuple[int, str, list[str]]  # its line's number, its text, the crates of its section


def entries(page: Path, all_crates: set[str]) -> Iterator[Entry]:
    """Gives the paragraphs and items of a page, each in one line."""
    homes: list[str] = []
    lines: list[str] = []
    first = 0
    for number, line in enumerate([*page.read_text(encoding="utf-8").splitlines(), ""], 1):
        is_head, is_item = line.startswith("#"), re.match(r"\s*(?:[-*]|\d+\.) |\|", line)
        if lines and (is_head or is_item or not line.strip()):
            yield first, " ".join(lines), homes
            lines = []
        if is_head:
            found = [it for it in re.findall(r"\w+", line) if it in all_crates]
            homes = found if found or line.startswith("## ") else homes
        elif line.startswith("|"):
            in_row = [it for it in re.findall(r"\w+", line.split("|")[1].partition(":")[0]) if it in all_crates]
            yield number, line, in_row or homes
        elif line.strip() and not line.startswith("    "):
            first = first if lines else number
            lines.append(line.strip())


@lru_cache(maxsize=None)
def words_of(crate: str) -> frozenset[str]:
    """Gives all words of a crate's files, and the names of these files."""
    found: set[str] = {crate}
    for part in ("src", "specs", "proofs"):
        for path in files(crate, part):
            found |= {path.stem, *WORD.findall(path.read_text(encoding="utf-8"))}
    return frozenset(found)


@lru_cache(maxsize=None)
def declared_in_src(crate: str) -> frozenset[str]:
    """Gives the functions, types and constants that a crate's code declares."""
    return frozenset(it for path in files(crate, "src") for it in re.findall(r"\b(?:fn|struct|enum|trait|const|type) (\w+)", code_of(path)))


def paths_of(span: str, homes: list[str], lines: dict[str, list[str]]) -> list[Path] | None:
    """Gives the files that a span may name, or None where it names no file."""
    named = FILE.fullmatch(span)
    if not named:
        return None
    crate, part, name = named.groups()
    if crate in ("specs", "proofs", "src"):
        crate, part, name = None, crate, f"{part}/{name}" if part else name
    elif crate and crate not in lines:
        crate, name = None, f"{crate}/{name}"
    parts = [part] if part else ["specs", "proofs", "src"]
    return [Path("crates", home, it, name) for home in ([crate] if crate else homes or list(lines)) for it in parts]


def is_defined(name: str, path: Path) -> bool:
    """Says whether a file of specs defines a name: at its left edge, or as a field or constructor."""
    head = rf"(?m)^\s*(?:(?:abbrev|unfoldable|pub|data|record|mutual) )*◌?{re.escape(name)}◌?(?![\w'-])"
    return re.search(head, path.read_text(encoding="utf-8")) is not None


def stated_faults(row: str) -> Iterator[str]:
    """Asks of a row of definitions whether its files are there, and whether each name is defined in one of them."""
    stated, _, names = row.split("|")[1].partition(":")
    paths = [Path("crates", *it.strip().split("/", 1)) for it in stated.split(",")]
    paths = [path.parent / "specs" / f"{path.name}.antt" for path in paths]
    yield from (f"no file {path}" for path in paths if not path.exists())
    there = [path for path in paths if path.exists()]
    yield from (f"{it} is not defined in {stated.strip()}" for it in SPAN.findall(names) if not any(is_defined(it, path) for path in there))


@lru_cache(maxsize=None)
def clauses_of(crate: str) -> frozenset[str]:
    """Gives the labels of the clauses of a crate's contracts."""
    return frozenset(it for path in files(crate, "src") for it in re.findall(r"\bensures ([\w-]+) \{", path.read_text(encoding="utf-8")))


@lru_cache(maxsize=None)
def fields_of(crate: str) -> frozenset[str]:
    """Gives the fields of the records of a crate's specs."""
    return frozenset(it for path in files(crate, "specs") for it in re.findall(r"(?m)^\s+pub (\w+) :", path.read_text(encoding="utf-8")))


def has_clause(crate: str, name: str, lines: dict[str, list[str]]) -> bool:
    """Says whether a crate has the clause of a name, or of a name with a field of a record that the crate knows."""
    label, _, field = name.partition(".")
    known = [crate, *(it for it in lines[crate] if it in lines)]
    return label in clauses_of(crate) and (not field or any(field in fields_of(it) for it in known))


def call_faults(row: str, homes: list[str], lines: dict[str, list[str]]) -> Iterator[str]:
    """Asks of a row of crates, calls and clauses whether the crates have them."""
    _, calls, clauses, *_ = row.split("|")
    where = ", ".join(homes)
    for it in SPAN.findall(calls):
        if not any(it in declared_in_src(home) for home in homes):
            yield f"{where} has no call {it}"
    for it in SPAN.findall(clauses):
        if not any(has_clause(home, it, lines) for home in homes):
            yield f"{where} has no clause {it}"


def faults(page: Path, lines: dict[str, list[str]]) -> Iterator[str]:
    head = ""
    for number, text, homes in entries(page, set(lines)):
        named = {it for it in re.findall(r"\w+", text) if it in lines}
        near = set(homes).union(named, *(lines[it] for it in [*homes, *named])) & set(lines) if homes else set(lines)
        found = []
        is_row = text.startswith("|") and not text.startswith(("|---", CALLS, STATED))
        head = next((it for it in (CALLS, STATED) if text.startswith(it)), head if text.startswith("|") else "")
        if is_row and head:
            found += call_faults(text, homes, lines) if head == CALLS else stated_faults(text)
        for span in SPAN.findall(text):
            paths = paths_of(span, [*homes, *sorted(named)], lines)
            if paths is not None and not any(path.exists() for path in paths):
                found.append(f"{span}: no such file")
            elif paths is None and WORD.fullmatch(span) and span not in lines and not any(span in words_of(it) for it in near):
                where = "the project" if not any(span in words_of(it) for it in lines) else ", ".join(homes) + " or below"
                found.append(f"{span} is in no file of {where}")
        yield from (f"{page}:{number}: {it}" for it in dict.fromkeys(found))


def main() -> int:
    Words(__doc__).parse_args()
    enter_top()
    lines, _ = crates()
    rows = [row for page in PAGES for row in faults(page, lines)]
    excepted = exceptions(__file__)
    used = {name for name in excepted for row in rows if re.sub(r":\d+: ", ":", row).startswith((f"{name} ", f"{name}:"))}
    rows = [row for row in rows if not re.sub(r":\d+: ", ":", row).startswith(tuple(f"{name}{end}" for name in excepted for end in " :"))]
    rows += [f"checks/definitions.txt: {it}: it excepts nothing" for it in excepted if it not in used]
    print("\n".join(rows), end="\n" if rows else "")
    spans = sum(len(SPAN.findall(text)) for page in PAGES for _, text, _ in entries(page, set(lines)))
    print(f"{spans:,} names and texts in backticks, {len(rows)} rows")
    return 1 if rows else 0


if __name__ == "__main__":
    sys.exit(main())
