#!/usr/bin/env python3
"""Which crate rests on which, by what the files of each crate name.

    checks/graph.py                 writes the graph into docs/architecture.md, and the costs into docs/changing.md
    checks/graph.py --check         says whether both blocks are current, with status 1 where one is not
    checks/graph.py --edges         prints each edge, the parts of the crate that name it, and whether it follows
    checks/graph.py --lines         prints crates.txt without the names that no file of their crate has
    checks/graph.py --idle          prints the names of crates.txt that no file of their crate has
    checks/graph.py --above CRATE.. prints the crates that are proved again where these change, and their minutes

An edge is named in code where a file of src has `low::`, in specs where a clause or a file of specs has `Rattle.low.`,
and in proofs where a file of proofs has it. The graph leaves out an edge that follows by way of others. Its groups are
the comments '# -- FLOOR' of crates.txt. What a crate is for is the title of its README. Faults are a crate without a
floor, and one that names a crate that its line in crates.txt lacks, or that comes later there, or is of a floor above.
A name that no file has is none: crates.txt may be longer than needed. Minutes are processor time of proofs by
bench/gate.txt.
"""

import re
import sys
from collections.abc import Iterable
from pathlib import Path

from sources import Words, code_of, crates, enter_top, fail, files, settle

Graph = dict[str, list[str]]
Parts = dict[str, dict[str, set[str]]]  # for each crate and what it names, the parts of the crate that do

CHANGES = {  # what is changed, and the lowest crates that change with it
    "a text of the help": "help_texts",
    "an option, or a mode": "job_words",
    "a line of the report": "report_text",
    "the line of a refusal": "runs",
    "what standard error says of a refusal": "remarks",
    "a fault of a triangulation's file": "tin_file",
    "a fault of all layers": "sheet_base",
    "an entity of a drawing": "dxf_entities",
    "a definition of the plane": "plane_base",
}


def named(crate: str) -> dict[str, set[str]]:
    """Gives, for each crate and library that the files of this one name, the parts that do: code, specs, proofs."""
    found: dict[str, set[str]] = {}
    src = Path("crates", crate, "src")
    top = src / ("main.rt" if (src / "main.rt").exists() else "lib.rt")
    if not top.exists():
        fail(f"crates/{crate} has neither src/lib.rt nor src/main.rt")
    own = set(re.findall(r"(?m)^(?:pub )?mod (\w+)", code_of(top))) | {crate, "crate", "self", "super", "std"}
    for part in ("src", "specs", "proofs"):
        for path in files(crate, part):
            text = code_of(path)
            if part == "src":
                for low in set(re.findall(r"(?<![\w:.])(\w+)::", text)) - own:
                    found.setdefault(low, set()).add("code")
            for low in set(re.findall(r"\bRattle\.(\w+)\.", text)) - {crate, "std"}:
                found.setdefault(low, set()).add("proofs" if part == "proofs" else "specs")
    return found


def reduced(edges: Graph) -> Graph:
    """Leaves out each edge that follows by way of another; the crates come lowest first."""
    below: dict[str, set[str]] = {}
    for crate, lows in edges.items():
        below[crate] = set(lows).union(*(below[low] for low in lows))
    return {crate: [low for low in lows if not any(low in below[mid] for mid in lows)] for crate, lows in edges.items()}


def by_floor(lines: Graph, floors: dict[str, str | None]) -> dict[str, list[str]]:
    """Groups the crates by the comments of crates.txt."""
    groups: dict[str, list[str]] = {}
    for crate in lines:
        groups.setdefault(floors[crate] or "no floor", []).append(crate)
    return groups


def purpose(crate: str) -> str:
    """Gives what a crate is for: the title of its README, after its name."""
    page = Path("crates", crate, "README.md")
    title = page.read_text(encoding="utf-8").split("\n", 1)[0] if page.exists() else ""
    if not title.startswith(f"# {crate}: "):
        fail(f"the title of crates/{crate}/README.md is not '# {crate}: what it is for'")
    return title.removeprefix(f"# {crate}: ")


def picture(graph: Graph, groups: dict[str, list[str]]) -> str:
    """Gives the graph as docs/architecture.md has it."""
    rows = [f"{len(graph)} crates, {sum(map(len, graph.values()))} edges that follow from no others.", ""]
    for floor, members in groups.items():
        lows = {crate: f" ({', '.join(graph[crate])})" if graph[crate] else "" for crate in members}
        rows += [f"- **{floor}**", *(f"  - [{crate}](../crates/{crate}): {purpose(crate)}{lows[crate]}" for crate in members)]
    return "\n".join(rows)


def minutes() -> dict[str, float]:
    """Gives what the proof of each crate took when it was last measured."""
    gate = Path("bench/gate.txt").read_text(encoding="utf-8")
    return {crate: float(time) for crate, time in re.findall(r"\b([a-z]\w+) +(\d+\.\d)\b", gate)}


def counted(number: float, word: str) -> str:
    """Gives a whole number of what the word names, as '1 minute' or '2 minutes'."""
    return f"{number:.0f} {word}" + ("" if f"{number:.0f}" == "1" else "s")


def above(lines: Graph, changed: Iterable[str]) -> list[str]:
    """Gives the crates that are proved again where these change: they, and all whose lines reach one."""
    found = set(changed)
    for crate, lows in lines.items():
        if found & set(lows):
            found.add(crate)
    return [crate for crate in lines if crate in found]


def costs(lines: Graph) -> str:
    """Gives the list of docs/changing.md."""
    took = minutes()
    rows = []
    for what, crate in CHANGES.items():
        again = above(lines, [crate])
        time, unknown = sum(took.get(it, 0) for it in again), sum(it not in took for it in again)
        more = f" ({unknown} not measured yet)" if unknown else ""
        rows.append(f"- {what}, from `{crate}` on: {counted(len(again), 'crate')}, {counted(time, 'minute')} of proof{more}")
    return "\n".join(rows)


def print_summary(lines: Graph, parts: Parts, edges: Graph, graph: Graph, idle: Graph) -> None:
    def count(rows: Graph) -> int:
        return sum(map(len, rows.values()))

    ours = {crate: [low for low in lows if low in lines] for crate, lows in lines.items()}
    code = sum("code" in parts[crate][low] for crate in edges for low in edges[crate])
    proofs = sum(parts[crate][low] == {"proofs"} for crate in edges for low in edges[crate])
    print(f"{len(lines)} crates; crates.txt lists {count(lines)} names, {count(ours)} of them crates of the project")
    print(f"files name {count(edges)} crates: {code} in code, {count(edges) - code - proofs} more in specs, {proofs} in proofs alone")
    print(f"{count(graph)} edges follow from no others; no file of their crate has {count(idle)} names of crates.txt (--idle)")


def main() -> int:
    words = Words(__doc__)
    for option, says in (("check", "compare the blocks with the pages, and write nothing"), ("edges", "print each edge"),
                         ("lines", "print a short crates.txt"), ("idle", "print names that no file has")):
        words.add_argument(f"--{option}", action="store_true", help=says)
    words.add_argument("--above", nargs="+", metavar="CRATE", help="print what is proved again where these change")
    asked = words.parse_args()
    enter_top()
    lines, floors = crates()
    if asked.above:
        for it in asked.above:
            if it not in lines:
                fail(f"{it} is no crate of crates.txt")
        took = minutes()
        again = above(lines, asked.above)
        for it in again:
            print(f"{it:16} {took[it]:5.1f}" if it in took else f"{it:16} not measured")
        print(f"{counted(len(again), 'crate')}, {counted(sum(took.get(it, 0) for it in again), 'minute')}")
        return 0
    parts = {crate: named(crate) for crate in lines}
    places = {crate: at for at, crate in enumerate(lines)}
    edges = {crate: sorted((it for it in parts[crate] if it in lines and places[it] < at), key=places.__getitem__) for crate, at in places.items()}
    graph = reduced(edges)
    idle = {crate: [low for low in lows if low not in parts[crate]] for crate, lows in lines.items()}
    if asked.edges:
        for crate, low in ((crate, low) for crate in edges for low in edges[crate]):
            print(crate, low, "+".join(sorted(parts[crate][low])), "" if low in graph[crate] else "follows")
        return 0
    if asked.lines:
        for line in Path("crates.txt").read_text(encoding="utf-8").splitlines():
            head, colon, listed = line.partition(":")
            is_crate = colon and not line.startswith("#")
            print(head + colon + "".join(f" {it}" for it in listed.split() if it not in idle[head.strip()]) if is_crate else line)
        return 0
    print_summary(lines, parts, edges, graph, idle)
    if asked.idle:
        for crate, lows in idle.items():
            print(f"{crate}: {' '.join(lows)}" if lows else "", end="\n" if lows else "")
        return 0
    lost = [(crate, low) for crate in lines for low in parts[crate] if low in lines and low not in lines[crate]]
    late = [(crate, low) for crate in lines for low in lines[crate] if places.get(low, -1) > places[crate]]
    for crate, low in lost + late:
        print(f"crates.txt: {crate} names {low}, which its line lacks, or which comes later")
    groups = by_floor(lines, floors)
    floor_of = {crate: at for at, members in enumerate(groups.values()) for crate in members}
    high = [(crate, low) for crate in edges for low in edges[crate] if floor_of[low] > floor_of[crate]]
    for crate, low in high:
        print(f"{crate} rests on {low} of a floor above it")
    for it in groups.get("no floor", []):
        print(f"crates.txt: {it} has no floor")
    blocks = [settle("docs/architecture.md", "graph", picture(graph, groups), asked.check), settle("docs/changing.md", "graph", costs(lines), asked.check)]
    return 1 if lost or late or high or "no floor" in groups or any(blocks) else 0


if __name__ == "__main__":
    sys.exit(main())
