"""What the checks share: crates.txt, the files of a crate, their code, lists of exceptions, marked blocks of pages."""

import argparse
import os
import re
import signal
import sys
from collections.abc import Mapping
from functools import lru_cache
from pathlib import Path
from typing import NoReturn

TOP = Path(__file__).resolve().parent.parent
signal.signal(signal.SIGPIPE, signal.SIG_DFL)  # so that `| head` ends a script in silence


class Words(argparse.ArgumentParser):
    """Reads a script's words. The help is the script's docstring, and a wrong word gets one line and status 2."""

    def __init__(self, docstring: str) -> None:
        super().__init__(description=docstring, formatter_class=argparse.RawDescriptionHelpFormatter, allow_abbrev=False)

    def error(self, message: str) -> NoReturn:
        self.exit(2, f"{self.prog}: {message} (--help lists the words)\n")


def enter_top() -> None:
    """Makes the project's top the current folder, as all paths of the checks are from there."""
    os.chdir(TOP)
    if not Path("crates.txt").exists():
        fail(f"{TOP} has no crates.txt, so it is no checkout of the project")


def fail(message: str) -> NoReturn:
    """Ends the script with a line of what is wrong with the input, and status 2."""
    print(f"{Path(sys.argv[0]).name}: {message}", file=sys.stderr)
    raise SystemExit(2)


def crates(path: str = "crates.txt") -> tuple[dict[str, list[str]], dict[str, str | None]]:
    """Gives the names that each crate's line lists, and each crate's floor: the comment '# -- FLOOR' above it, if any."""
    lines: dict[str, list[str]] = {}
    floors: dict[str, str | None] = {}
    floor = None
    for line in Path(path).read_text(encoding="utf-8").splitlines():
        if line.startswith("# -- "):
            floor = line[5:].strip()
        elif line.strip() and not line.startswith("#"):
            name, _, listed = line.partition(":")
            lines[name.strip()], floors[name.strip()] = listed.split(), floor
    return lines, floors


def files(crate: str, part: str) -> list[Path]:
    """Gives the files of a crate's src, specs or proofs."""
    return sorted(Path("crates", crate, part).rglob("*.rt" if part == "src" else "*.antt"))


@lru_cache(maxsize=None)
def code_of(path: Path) -> str:
    """Gives a file's text without comments and without what is between quotation marks."""
    mark = "--" if path.suffix == ".antt" else "//"
    text = re.sub(r'"(?:[^"\\\n]|\\.)*"', '""', path.read_text(encoding="utf-8"))
    return re.sub(rf"(?m)(?:^|\s){mark}.*$", "", text)


def rows_of(script: str) -> list[tuple[str, str]]:
    """Gives the rows 'NAME -> REASON' of the file that has a script's name and ends in .txt."""
    listed = Path(script).with_suffix(".txt")
    rows = []
    for number, line in enumerate(listed.read_text(encoding="utf-8").splitlines() if listed.exists() else [], 1):
        if line.strip() and not line.startswith("#"):
            name, arrow, reason = line.partition(" -> ")
            if not arrow or not reason.strip():
                fail(f"checks/{listed.name}:{number}: a row is NAME -> REASON")
            rows.append((name.strip(), reason.strip()))
    return rows


def exceptions(script: str) -> dict[str, str]:
    """Gives what a script lets pass, with the reason."""
    return {name: reason for name, reason in rows_of(script) if not name.startswith("at most ")}


def limits(script: str) -> dict[str, int]:
    """Gives how many rows a script lets a page or a kind have: the rows 'at most N in NAME'."""
    found = {}
    for name, _ in rows_of(script):
        if name.startswith("at most "):
            limit = re.fullmatch(r"at most (\d+) in (\S+)", name)
            if not limit:
                fail(f"checks/{Path(script).stem}.txt: '{name}' is not 'at most N in NAME'")
            found[limit[2]] = int(limit[1])
    return found


def accept(script: str, counts: Mapping[str, int], reason: str) -> None:
    """Writes how many rows each page or kind has as how many it may have, and keeps all other rows of the list."""
    listed = Path(script).with_suffix(".txt")
    kept = [line for line in listed.read_text(encoding="utf-8").splitlines() if not line.startswith("at most ")]
    rows = [f"at most {count} in {name} -> {reason}" for name, count in sorted(counts.items()) if count]
    listed.write_text("\n".join([*kept, *rows]) + "\n", encoding="utf-8")


def settle(path: str, name: str, block: str, is_check: bool) -> int:
    """Writes the block between its two comments in a page, or with `is_check` only compares; gives the exit status."""
    first, last = f"<!-- begin {name}.py -->", f"<!-- end {name}.py -->"
    old = Path(path).read_text(encoding="utf-8")
    if old.count(first) != 1 or old.count(last) != 1 or old.index(first) > old.index(last):
        fail(f"{path} lacks a line {first} and below it a line {last}")
    new = old.split(first)[0] + first + "\n" + block.rstrip("\n") + "\n" + last + old.split(last)[1]
    if old == new:
        return 0
    if is_check:
        print(f"{path}: its block is not current: run python3 checks/{name}.py")
        return 1
    Path(path).write_text(new, encoding="utf-8")
    print(f"{path}: written")
    return 0
