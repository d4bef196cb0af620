#!/usr/bin/env python3
"""Whether the documents fit the repository.

    checks/documents.py            prints a row for each fault; the status is 1 where there is one
    checks/documents.py --counts   writes the numbers of tests and of must-fail edits into docs/testing.md

README lists each crate of crates.txt and no other; each crate has a README; links, their places in a page, and files
that are named exist, as `docs/guide.md` or `runs/src/lines.rt`, and scripts that comments of the code name; names in
the code spans of README and docs/ are somewhere in the sources; prose breaks at 100 columns (wrap_docs.py breaks it),
except where a script writes it, and ends in no blank or empty line; below cert_check there is no grid, index or walk,
as its README says; docs/testing.md counts the tests and the must-fail edits, and its wrong bodies have edits that
exist. In the README of a crate the names of a row's first cell are in the code of that crate, and all that look like a
call, a type, a definition or a lemma in the code of some crate; of `Status::code` some file has the type with the call;
`specs/Values.antt` is a file of the crate, and `Values.antt` of some crate. documents.txt has the exceptions.
"""

import re
import sys
from collections.abc import Iterator
from functools import lru_cache
from pathlib import Path

from sources import Words, code_of, crates, enter_top, exceptions, files

MOST_COLUMNS = 100
LIBRARY = {"clap_builder", "get_flag", "get_one", "or_from", "sync_all"}  # what the toolchain's library and its ports call so
SEARCHES = ("cell_grid", "tin_index", "seg_walk")  # a receiver checks a certificate without these
FILE = re.compile(r"\b(?:bench|checks|rows|recipes|tools|examples|docs|crates)/[\w./-]+\.\w+")
PART = re.compile(r"(\w+)/(?:src|specs|proofs|must-fail)\b[\w./-]*")  # a file or folder of a crate
NAME = re.compile(r"(?:Is|Are|Has|Have|Do|Does)[A-Z]\w+|[a-z]+(?:_[a-z]+)+")  # IsImage, image_of
SPAN = re.compile(r"`([^`]+)`")
WORD = re.compile(r"[^\W\d]\w+")
DECLARED = re.compile(r"\b(?:[A-Z][a-z]\w*|[a-z]\w*_\w+)")  # IsImage, Keeper, image_of
METHOD = re.compile(r"\b([A-Z]\w+)::(\w+)")  # Status::code
TERM = re.compile(r"(?!--)[^\s\"'`./\\{}()\[\],:;]+")  # a name of specs or proofs, as *ℤ_assoc or sum-cons
FILE_OF_CRATE = re.compile(r"(?:src|specs|proofs|must-fail|data)/[\w./-]*|\w+\.(?:antt|rt)")


def lines_of(page: Path) -> Iterator[tuple[int, str]]:
    """Gives the lines of a page that are no code, with their numbers."""
    is_code = False
    for number, line in enumerate(page.read_text(encoding="utf-8").splitlines(), 1):
        if line.startswith("```"):
            is_code = not is_code
        elif not is_code and not line.startswith("    "):
            yield number, line


@lru_cache(maxsize=None)
def anchors(page: Path) -> set[str]:
    """Gives the places of a page that a link may name: its headings, as GitHub writes them."""
    heads = (re.match(r"#+ (.*)", line) for _, line in lines_of(page))
    return {re.sub(r"[^\w\- ]", "", it[1].lower()).replace(" ", "-") for it in heads if it}


def link_faults(page: Path, line: str) -> Iterator[str]:
    for name, place in re.findall(r"\]\(([^)#\s]*)(?:#([^)\s]*))?\)", line):
        target = page.parent / name if name else page
        if "://" in name:
            continue
        if not target.exists():
            yield f"no file {name}"
        elif place and target.suffix == ".md" and place not in anchors(target):
            yield f"{name or page} has no heading #{place}"


def lists_faults() -> Iterator[str]:
    """Asks whether README lists the crates, and each has a page."""
    lines, _ = crates()
    listed = re.findall(r"\[(\w+)\]\(crates/\w+\)", Path("README.md").read_text(encoding="utf-8"))
    yield from (f"README.md does not list {it}" for it in lines if it not in listed)
    yield from (f"README.md lists {it}, which is no crate" for it in listed if it not in lines)
    yield from (f"crates/{it} has no README.md" for it in lines if not Path("crates", it, "README.md").exists())
    below = set(lines.get("cert_check", []))
    while more := {low for it in below for low in lines.get(it, [])} - below:
        below |= more
    yield from (f"crates.txt: {it} is below cert_check" for it in SEARCHES if it in below)


@lru_cache(maxsize=None)
def names_of(crate: str) -> frozenset[str]:
    """Gives the names in the code of a crate, and those of its files."""
    found = {crate}
    for path in (it for part in ("src", "specs", "proofs") for it in files(crate, part)):
        found |= {path.stem, path.name, *WORD.findall(code_of(path)), *TERM.findall(code_of(path))}
    return frozenset(found)


@lru_cache(maxsize=None)
def names_of_all() -> frozenset[str]:
    return frozenset(LIBRARY).union(*(names_of(it) for it in crates()[0]))


@lru_cache(maxsize=None)
def has_method(kind: str, call: str) -> bool:
    """Whether a file of some crate has the type or the trait, and the call, or the case of an enum."""
    kinds, calls = re.compile(rf"\b(?:impl|trait|enum)\b[^;{{]*\b{kind}\b"), re.compile(rf"(?m)\bfn {call}\b|^ +{call}\b")
    return any(kinds.search(code_of(it)) and calls.search(code_of(it)) for crate in crates()[0] for it in files(crate, "src"))


def is_file(crate: str, span: str) -> bool:
    """Whether a crate has the file or folder `specs/Values.antt`, or some crate the file `Values.antt`."""
    return any(Path("crates", crate, span + end).exists() for end in ("", ".antt")) if "/" in span else span in names_of_all()


def names_in(span: str) -> Iterator[str]:
    """Gives the words that look like a call, a type or a definition, and the whole span where it is a lemma."""
    yield from DECLARED.findall(span)
    if TERM.fullmatch(span) and (re.search(r"\w-\w", span) or not span.isascii()):
        yield span


def crate_faults(crate: str, line: str) -> Iterator[str]:
    """Asks whether the names that a line of a crate's README has between backticks are in the code."""
    first = line.split("|")[1] if line.startswith("| ") else ""
    for span in SPAN.findall(first):
        if not FILE_OF_CRATE.fullmatch(span):
            yield from (f"{crate} has nothing called {it}" for it in WORD.findall(span.partition("(")[0]) if it not in names_of(crate))
    for span in SPAN.findall(line):
        if FILE_OF_CRATE.fullmatch(span):
            yield from [] if is_file(crate, span) else [f"no file {span}"]
        elif "/" not in span:
            yield from (f"nothing in the code is called {it}" for it in dict.fromkeys(names_in(span)) if it not in names_of_all())
            yield from (f"no file has {kind} with {call}" for kind, call in METHOD.findall(span) if not has_method(kind, call))


def page_faults(page: Path, names: set[str]) -> Iterator[str]:
    is_written = False
    for number, line in lines_of(page):
        is_written = line.startswith("<!-- begin ") or is_written and not line.startswith("<!-- end ")
        is_wide = len(line) > MOST_COLUMNS and not is_written and not line.startswith(("|", "#", "<!--"))
        found = [f"{len(line)} columns"] if is_wide else []
        found += ["a blank at the end"] if line.endswith(" ") else []
        found += link_faults(page, line)
        found += crate_faults(page.parts[1], line) if page.parts[0] == "crates" else []
        for span in SPAN.findall(line):
            if FILE.fullmatch(span) and not Path(span).exists():
                found.append(f"no file {span}")
            elif (part := PART.fullmatch(span)) and part[1] in names and not any(Path("crates", span + end).exists() for end in ("", ".antt")):
                found.append(f"no file crates/{span}")
            elif page.parts[0] != "crates" and NAME.fullmatch(span) and span not in names:
                found.append(f"nothing in the sources is called {span}")
        yield from (f"{page}:{number}: {it}" for it in found)
    if page.read_text(encoding="utf-8").endswith("\n\n"):
        yield f"{page}: an empty last line"


def comment_faults(source: Path) -> Iterator[str]:
    """Asks whether scripts that comments of the code name exist."""
    for number, line in enumerate(source.read_text(encoding="utf-8").splitlines(), 1):
        comment = re.match(r"\s*(?://|--)(.*)", line)
        for name in re.findall(r"\b(?:bench|checks|rows|recipes)/[\w/]+\.(?:sh|py)\b", comment[1] if comment else ""):
            if not Path(name).exists():
                yield f"{source}:{number}: no file {name}"


def counts() -> dict[str, int]:
    """Counts the tests and the must-fail edits, under the names that docs/testing.md has for them."""
    tests = sum(it.read_text(encoding="utf-8").count("#[test]") for it in Path("crates").glob("*/src/**/*.rt"))
    return {"tests of the crates": tests, "wrong edits that the prover must refuse": len(list(Path("crates").glob("*/must-fail/*.edit")))}


def with_counts(page: str) -> str:
    """Gives docs/testing.md with the numbers as they are."""
    for what, count in counts().items():
        page = re.sub(rf"(?m)^\| {what} \| \d+ \|", f"| {what} | {count} |", page)
    return page


def count_faults(page: Path) -> Iterator[str]:
    """Asks whether docs/testing.md has the numbers of tests and of must-fail edits."""
    for what, count in counts().items():
        if f"| {what} | {count} |" not in page.read_text(encoding="utf-8"):
            yield f"{page}: there are {count} {what}"


def edit_faults(page: Path) -> Iterator[str]:
    """Asks whether each edit in the table of wrong bodies, CRATE/NAME, is there."""
    _, _, table = page.read_text(encoding="utf-8").partition("\n| Wrong body | Edit |\n")
    edits = re.findall(r"\b(\w+)/(\w+)\b", table.partition("\n\n")[0])
    if not edits:
        yield f"{page}: no table of wrong bodies"
    for crate, name in edits:
        if not Path(f"crates/{crate}/must-fail/{name}.edit").exists():
            yield f"{page}: no edit {crate}/{name}"


def main() -> int:
    words = Words(__doc__)
    words.add_argument("--counts", action="store_true", help="write the numbers of tests and edits into docs/testing.md")
    asked = words.parse_args()
    enter_top()
    testing = Path("docs/testing.md")
    if asked.counts:
        testing.write_text(with_counts(testing.read_text(encoding="utf-8")), encoding="utf-8")
    lines, _ = crates()
    sources = [it for end in ("rt", "antt") for it in Path("crates").glob(f"*/*/**/*.{end}") if "out" not in it.parts]
    names = LIBRARY | set(lines) | {it.stem for it in sources if it.suffix == ".antt"}
    for it in [*sources, Path("docs/guide.md")]:
        names |= set(re.findall(r"[^\W\d]\w*", it.read_text(encoding="utf-8", errors="replace")))
    pages = [Path("README.md"), *sorted(Path("docs").glob("*.md")), *sorted(Path("crates").glob("*/README.md"))]
    bad = [*lists_faults(), *count_faults(testing), *edit_faults(testing), *(row for page in pages for row in page_faults(page, names))]
    bad += [row for it in sources for row in comment_faults(it)]
    passed = {row for row in bad if re.sub(r":\d+: ", ":", row) in exceptions(__file__)}
    stale = set(exceptions(__file__)) - {re.sub(r":\d+: ", ":", row) for row in passed}
    bad = [*(row for row in bad if row not in passed), *(f"checks/documents.txt: {it}: it excepts nothing" for it in sorted(stale))]
    print("\n".join(bad), end="\n" if bad else "")
    print(f"{len(pages)} documents, {len(lines)} crates, {len(bad)} faults")
    return 1 if bad else 0


if __name__ == "__main__":
    sys.exit(main())
