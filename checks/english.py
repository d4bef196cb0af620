#!/usr/bin/env python3
"""Whether the prose of README, docs, the crates' READMEs and comments is plain English.

    checks/english.py                prints the sentences that are not, of each page that has more than it may
    checks/english.py --all          prints those of all pages
    checks/english.py --comments     reads the comments of the code, too, and prints the counts alone
    checks/english.py --sample N S   prints N sentences and rows of tables of each page, picked by the seed S, to be read by hand
    checks/english.py PATH..         reads these files alone, and prints all rows
    checks/english.py --accept       writes what the pages have at present into english.txt, as what they may have

It looks for the words of HOUSE, for sentences of more than 40 words, for sentences that begin with a clause or with
'Of a ..' (OPENINGS), and for comments that begin 'The same of ..' or the like. It reads no code, table, heading,
comment of HTML or list that a script writes; a name in backticks, a quotation, and words in italics count as one word.
A comment 'what is left' over a definition is its name, so What and Who are looked for in pages alone. 'That' may point
at a thing: 'That is all.', 'That line is printed.'
english.txt beside this file has the exceptions, PATH:PHRASE -> REASON, and how many rows a page may have that is not yet
rewritten, at most N in PATH -> REASON, where `crates` is the pages of all crates; all other pages may have none. An
exception that excepts nothing is a row. The status is 1 where there is a row too many.
"""

import random
import re
import sys
from collections import Counter
from collections.abc import Iterator
from pathlib import Path

from sources import Words, accept, enter_top, exceptions, fail, limits

Lines = list[tuple[int, str]]  # lines with their numbers
Row = tuple[int, str, str, str, str]  # a line's number, the kind, what was found, plain words for it, the sentence

MOST_WORDS = 40
HOUSE = {  # what is looked for, and plain words for it
    r"(?<!')\bstand(?:s|ing)?\b(?! for\b|-)": "is, lies, comes, applies",
    r"(?<!left )\bbehind\b": "after",
    r"\b(?:told|tells)\b(?! apart)": "says, states, knows",
    r"(?<!in )\bfronts? of\b": "a prefix, the first part",
    r"(?<!each )(?<!both )(?<!all )(?<!some )(?<!none )(?<!most )\bof (?:which|whom)\b": "whose, and .. of them",
    r"\bgives? no (?:job|answer)\b|\blacks? (?:a|the) job\b": "an invalid command line",
    r"\bso many\b|\bso much as\b": "that many, up to the limit",
    r"\bnot once\b(?! more)": "is missing or repeated",
    r"(?<!there )\bis none\b(?! of)": "there is no .., is not a ..",
    r"\bnone but\b|\bno others? but\b": "only",
    r"\bgo(?:es)? on so\b": "continues that way",
}
CLAUSE = "the|an?|each|every|no|none|what|which|it|its|they|all|this|these|those|there|one|only|both|CODE"
PLURAL = r"\w+(?<![su])s (?:are|have|were|do|can|may|must|that|of|in|and|get|go)"
OPENINGS = {  # how a sentence begins, how it would, and whether that is looked for in pages alone
    r"Of (?:an?|the|each|its|it|what|this|those|these|all|both)\b": ("the subject first", False),
    rf"That (?:{CLAUSE}|{PLURAL})\b(?! is\b| has\b)": ("the subject first", False),
    r"What\b(?!.*\?$)": ("name the thing", True),
    r"Who\b(?!.*\?$)": ("if you ..", True),
}
HIDDEN = (r"``?[^`]+``?", r'"[^"]{1,120}"', r"(?<![\w'])'[^' ][^']{0,80}'(?!\w)", r"(?<!\*)\*(?![ *])[^*]+\*(?!\*)")
SENTENCE_ENDS = re.compile(r"(?<!\.)[.?!]\0*[)]?\s+(?=[\0(]*[A-Z0-9])")
SAME = re.compile(r"(?i)the same(?:[,.:;]|$| (?:as|at|after|and|but|by|for|from|if|in|of|on|over|that|to|when|where|with)\b)")
ITEM = re.compile(r"^\s*(?:[-*+] |\d+\. |> |$)")


def paragraphs_of_page(text: str) -> list[Lines]:
    """Gives the paragraphs of a page: the lines of each with their numbers."""
    found: list[Lines] = []
    lines: Lines = []
    is_code = is_written = False
    for number, line in enumerate(text.splitlines(), 1):
        if line.startswith("```"):
            is_code = not is_code
        is_written = line.startswith("<!-- begin ") or is_written and not line.startswith("<!-- end ")
        is_row = line.startswith(("```", "|", "#", "<!--")) or is_written and line.lstrip().startswith("- ")
        is_other = is_code or is_row or line.startswith("    ") and not lines
        if is_other or ITEM.match(line):
            found, lines = [*found, lines], []
        if line.strip() and not is_other:
            lines.append((number, re.sub(r"^\s*(?:[-*+] |\d+\. |> )?\s*", "", line)))
    return [it for it in [*found, lines] if it]


def paragraphs_of_source(text: str, marks: str) -> list[Lines]:
    """Gives each run of comment lines of one kind, without their marks."""
    found: list[Lines] = []
    lines: Lines = []
    last = None
    for number, line in enumerate([*text.splitlines(), ""], 1):
        comment = re.match(rf"\s*({marks})(?: (.*))?$", line)
        if not comment or comment[1] != last or not comment[2]:
            found, lines = [*found, lines], []
        if comment and comment[2]:
            lines.append((number, comment[2]))
        last = comment and comment[1]
    return [it for it in found if it]


def plain(text: str) -> str:
    """Gives a text with names and quotations as one word each, of the same length, so that places stay."""
    for pattern in HIDDEN:
        text = re.sub(pattern, lambda it: "CODE".ljust(len(it[0]), "\0")[: len(it[0])], text)

    def link(it: re.Match[str]) -> str:
        """Gives a link's words; a name or a path counts as one, and may begin a sentence."""
        return (f" {it[1]} " if " " in it[1].strip() else "CODE").ljust(len(it[0]), "\0")

    return re.sub(r"\[([^\]]*)\]\([^)]*\)", link, text).replace("*", "\0")


def sentences(path: Path) -> Iterator[tuple[int, str, str, bool]]:
    """Gives each sentence: its line's number, its plain text, its text, and whether it begins a comment."""
    text, is_page = path.read_text(encoding="utf-8"), path.suffix == ".md"
    marks = "--" if path.suffix == ".antt" else "//[/!]?"
    for lines in paragraphs_of_page(text) if is_page else paragraphs_of_source(text, marks):
        joined, starts = "", []
        for number, line in lines:
            starts.append((len(joined), number))
            joined += line + " "
        shown, at = plain(joined), 0
        for end in [*(it.end() for it in SENTENCE_ENDS.finditer(shown)), len(joined)]:
            number = max(number for start, number in starts if start <= at)
            sentence = re.sub(r"\s+", " ", shown[at:end].replace("\0", "")).strip()
            if re.search(r"[a-z]", sentence):
                yield number, sentence, re.sub(r"\s+", " ", joined[at:end]).strip(), not is_page and at == 0
            at = end


def faults(path: Path) -> Iterator[Row]:
    """Gives the rows of a file: the line's number, the kind, what was found, plain words for it, and the sentence."""
    for number, sentence, shown, is_first in sentences(path):
        words = re.findall(r"[A-Za-z0-9][\w'-]*", sentence)
        for pattern, instead in HOUSE.items():
            for hit in re.finditer(pattern, sentence, re.I):
                yield number, "house word", hit[0], instead, shown
        if len(words) > MOST_WORDS:
            yield number, "long", f"{len(words)} words", "one thought a sentence", shown
        is_heading = shown.startswith("**") and len(words) < 7
        for pattern, (instead, is_in_pages) in OPENINGS.items():
            if (path.suffix == ".md" or not is_in_pages) and not is_heading and (hit := re.match(pattern, sentence)):
                yield number, "opening", hit[0], instead, shown
        if is_first and SAME.match(sentence):
            yield number, "the same", "The same", "say what", shown


def print_counts(rows: dict[Path, list[Row]]) -> None:
    """Prints a line for each page, for the READMEs of crates, and for comments of each part."""

    def group(path: Path) -> str:
        return str(path) if path.parts[0] != "crates" else "READMEs of crates" if path.suffix == ".md" else f"comments of {path.parts[2]}"

    kinds = Counter((group(path), row[1]) for path, found in rows.items() for row in found)
    for place in dict.fromkeys(map(group, rows)):
        print(f"{place:20}", *(f"{kind} {kinds[place, kind]:4}  " for kind in ("house word", "long", "opening", "the same")))


def home(path: Path) -> str:
    """Gives the name under which english.txt says how many rows a page may have."""
    return "crates" if path.parts[0] == "crates" else str(path)


def without_exceptions(rows: dict[Path, list[Row]], is_whole: bool) -> tuple[dict[Path, list[Row]], list[str]]:
    """Leaves out what english.txt lets pass, and gives the exceptions that except nothing."""
    stale = []
    for name in exceptions(__file__):
        place, _, phrase = name.partition(":")
        found = rows.get(Path(place), [])
        left = [row for row in found if phrase.lower() not in row[4].lower()]
        if len(left) < len(found):
            rows[Path(place)] = left
        elif is_whole:
            stale.append(f"checks/english.txt: {name}: it excepts nothing")
    return rows, stale


def sample(path: Path, count: int, seed: int) -> list[tuple[int, str]]:
    """Picks sentences and rows of tables of a file, with their lines."""
    found = [(number, shown) for number, _, shown, _ in sentences(path)]
    if path.suffix == ".md":
        found += [(number, line) for number, line in enumerate(path.read_text(encoding="utf-8").splitlines(), 1) if line.startswith("| ")]
    return sorted(random.Random(f"{seed} {path}").sample(found, min(count, len(found))))


def main() -> int:
    words = Words(__doc__)
    words.add_argument("--all", action="store_true", help="print the rows of all pages")
    words.add_argument("--comments", action="store_true", help="read comments, too, and print the counts alone")
    words.add_argument("--sample", nargs=2, type=int, metavar=("N", "SEED"), help="print sentences picked at random")
    words.add_argument("--accept", action="store_true", help="take the present counts as what pages may have")
    words.add_argument("paths", nargs="*", type=Path, help="files to read, in place of all pages")
    asked = words.parse_args()
    for path in asked.paths:
        if not path.is_file():
            fail(f"no file {path}")
    given = [path.resolve() for path in asked.paths]
    enter_top()
    given = [path.relative_to(Path.cwd()) if path.is_relative_to(Path.cwd()) else path for path in given]
    pages = [Path("README.md"), *sorted(Path("docs").glob("*.md")), *sorted(Path("recipes").glob("**/*.md")), *sorted(Path("crates").glob("*/README.md"))]
    if asked.comments:
        pages += sorted(it for part in ("src/**/*.rt", "specs/**/*.antt", "proofs/**/*.antt") for it in Path("crates").glob(f"*/{part}"))
    if asked.sample:
        for path in given or pages:
            print(*(f"{path}:{number}: {shown}" for number, shown in sample(path, *asked.sample)), sep="\n")
        return 0
    rows, stale = without_exceptions({path: list(faults(path)) for path in given or pages}, not given)
    counts = Counter({home(path): 0 for path in rows})
    for path, found in rows.items():
        counts[home(path)] += len(found) if path.suffix == ".md" else 0
    if asked.accept and not given:
        accept(__file__, counts, "not yet rewritten")
    allowed = limits(__file__)
    over = {name for name, count in counts.items() if count > allowed.get(name, 0)}
    shown = [(path, row) for path, found in rows.items() for row in found if given or asked.all or home(path) in over]
    for path, (number, kind, hit, instead, sentence) in [] if asked.comments else shown:
        print(f"{path}:{number}: {kind}: {hit} -> {instead}\n    {sentence if given else sentence[:160]}")
    for name in sorted(over) if not given else []:
        print(f"{name}: {counts[name]} rows, and {allowed.get(name, 0)} may be")
    print("\n".join(stale), end="\n" if stale else "")
    print_counts(rows)
    print(f"{sum(1 for it in rows for _ in sentences(it)):,} sentences, {sum(map(len, rows.values())):,} rows")
    return 1 if stale or over or given and any(rows.values()) else 0


if __name__ == "__main__":
    sys.exit(main())
