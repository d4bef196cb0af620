#!/usr/bin/env python3
"""What one has to read to believe each promise of README: the definitions that its clauses rest on.

    checks/reading.py           writes the tables between the two comments of docs/reading.md, and the two totals of README
    checks/reading.py --check   says whether the tables are current, with status 1 where they are not
    checks/reading.py --tally   prints the totals, and the lines of whole spec files, with all that they import

PROMISES maps the promises to clauses. From the names in a clause, and in the conditions of its function, it follows
imports, definition by definition (spec_files.py says how). Lines are those of the definitions with their comments,
without blanks and imports; a type of src, as `Status`, counts with its lines there. README has the
two totals. A clause that is gone, and a crate that SUBJECTS lacks, end the script with status 2.
"""

import re
import sys
from collections import defaultdict
from collections.abc import Iterable
from functools import lru_cache
from itertools import takewhile
from pathlib import Path

from sources import Words, crates, enter_top, fail, settle
from spec_files import Definition, clause, follow, imports

PAGE = "docs/reading.md"
RUN = "whole_runs/src/run_ends.rt run_to_end"
PROMISES = {  # what is promised, and the clauses: a file of src, a function, labels (none: the clause without a label)
    "1": ("a triangulation is accepted where it is sound",
          ["tin_check/src/checks.rt check_tin same sound images first accepted"]),
    "F": ("all faults of a triangulation are listed", ["tin_faults/src/searches.rt all_faults ok too_many", "fault_runs/src/run_ends.rt run_to_end ends"]),
    "2": ("a layer is accepted where all of it is inside",
          ["carry_map/src/layers.rt carry_layer outside", "seg_walk/src/cuts.rt cut pieces inside outside"]),
    "3": ("each point is its exact image, rounded once",
          ["affine_image/src/images.rt image_of", "affine_image/src/images.rt image_cut",
           "carry_map/src/layers.rt carry_layer carried", "sheet_base/src/layers.rt render spliced rest"]),
    "4": ("all changes are listed, and no others", ["topo_check/src/change_lists.rt changes ok too_many"]),
    "5": ("after status 0 all relations are kept", [f"{RUN} made.kept"]),
    "6": ("all changes of sides are listed, and no others", ["ring_side/src/changes.rt side_changes ok too_many"]),
    "7": ("a refusal writes its line alone", [f"{RUN} made.stands press", "publication/src/outputs.rt refuse written"]),
    "E": ("how any run ends", [f"{RUN} made.ends"]),
    "V": ("a certified layer is its source's", ["verify_mode/src/verifications.rt prepare_verification ok"]),
    "H": ("a list of points is moved", ["height_mode/src/heights.rt prepare_heights ok"]),
}
IDEA = [  # the files to read first: what is promised of relations, then what its words mean, lowest first
    "migrate_mode/KeptRelations", "plane_base/Plane", "tin_base/Triangulation", "tin_base/Soundness", "tin_base/Images",
    "affine_image/RoundedImages", "tin_base/Segments", "tin_base/Pieces", "sheet_pieces/SheetPieces",
    "tin_base/Relations", "topo_check/Changes"]
SUBJECTS = [  # the rest, in the order in which to read, and their crates
    ("Triangulations, segments and images", "frac128 plane_base tin_base border_law tin_check tin_faults meet_rel affine_image seg_walk topo_check"),
    ("A layer of any format, and what carrying makes of it", "sheet_base sheet_pieces carry_map ring_side tin_height"),
    ("A run: its words, files, refusals, report and ends", "shelf_io text_places text_fields job_words runs cert_check report_text "
     "publication check_mode layer_formats migrate_mode verify_mode height_mode whole_runs change_places fault_runs"),
    ("Numerals", "mm_decimal"),
    ("Well-known text", "wkt_layer"),
    ("JSON, and the file of a triangulation", "jtext tin_file"),
    ("GeoJSON", "gj_layer"),
    ("Drawings", "dxf_pairs dxf_entities dxf_copies dxf_layer"),
]


Needs = dict[Path, dict[str, dict[str, int]]]  # for each file and promise, its definitions and their lines


def needs() -> Needs:
    """Gives for each file, for each promise, the definitions that it needs there, with their lines."""
    found: Needs = defaultdict(lambda: defaultdict(dict))
    for promise, (_, places) in PROMISES.items():
        for (file, name), lines in follow(set().union(*map(clause, places))).items():
            found[file][promise][name] = len(lines)
    return found


@lru_cache(maxsize=None)
def depth(file: Path) -> int:
    """Gives how many files of its crate are below each other under this one."""
    if file.suffix == ".rt":
        return 0
    below = {it for it, _ in imports(file).values() if it != file and it.parts[1] == file.parts[1]}
    return 1 + max(map(depth, below), default=0)


def size(promises: Iterable[dict[str, int]]) -> int:
    """Counts the lines of the definitions of these promises, each definition once."""
    return sum({name: lines for names in promises for name, lines in names.items()}.values())


def whole_files(starts: Iterable[Definition]) -> tuple[int, int]:
    """Gives the spec files that are reached where each import of a file counts, and their lines without imports and blanks."""
    reached: set[Path] = set()
    left = [file for file, _ in starts]
    while left:
        file = left.pop()
        if file.suffix == ".antt" and file not in reached:
            reached.add(file)
            left += [it for it, _ in imports(file).values()]
    return len(reached), sum(1 for file in reached for it in file.read_text(encoding="utf-8").splitlines()
                             if it.strip() and not it.lstrip().startswith(("use ", "pub use ", "pub mod ")))


def idea_files() -> list[Path]:
    """Gives the files of IDEA."""
    return [Path("crates", *it.split("/")[:1], "specs", it.split("/")[1] + ".antt") for it in IDEA]


def totals(found: Needs) -> list[str]:
    """Gives the first table: a row for each promise."""
    rows = ["| Promise | Clauses | Files | Lines |", "|---|---|---:|---:|"]
    for promise, (says, places) in PROMISES.items():
        mine = [file for file in found if promise in found[file]]
        what = "; ".join(f"`{name}` {', '.join(labels)}".strip() for _, name, *labels in map(str.split, places))
        lines = sum(size([found[file][promise]]) for file in mine)
        rows.append(f"| {promise} {says} | {what} | {len(mine)} | {lines:,} |")
    lines = sum(size(it.values()) for it in found.values())
    return [*rows, f"| all | | {len(found)} | {lines:,} |"]


def says(file: Path) -> str:
    """Gives the first sentence of the comment that a spec file begins with."""
    text = " ".join(it[2:].strip() for it in takewhile(lambda it: it.startswith("--"), file.read_text(encoding="utf-8").splitlines()))
    return re.split(r"(?<=[.:]) ", text)[0].rstrip(".:")


def tables(found: Needs) -> list[str]:
    """Gives the tables of files: those of the idea, then the rest by subjects."""
    rank = {crate: at for at, crate in enumerate(crates()[0])}
    order = sorted(found, key=lambda it: (rank[it.parts[1]], depth(it), str(it)))
    lines = lambda files, only=PROMISES: sum(size([found[it][p] for p in only if p in found[it]]) for it in files)
    idea = idea_files()
    rows = ["", f"**The idea**: {lines(idea):,} lines.", "", "| File | Says | Lines | For |", "|---|---|---:|---|"]
    for name, file in zip(IDEA, idea):
        marks = ",".join(it for it in PROMISES if it in found[file])
        rows.append(f"| [{name}](../{file}) | {says(file)} | {lines([file])} | {marks} |")
    so_far, done = lines(idea), set(idea)
    for subject, members in SUBJECTS:
        mine = {crate: [it for it in order if it.parts[1] == crate and it not in done] for crate in members.split()}
        done |= {it for files in mine.values() for it in files}
        here = sum(lines(files) for files in mine.values())
        so_far += here
        rows += ["", f"**{subject}**: {here:,} lines, {so_far:,} with those above.", ""]
        for crate, files in ((crate, files) for crate, files in mine.items() if files):
            names = ", ".join(it.stem if it.suffix == ".antt" else it.name for it in files)
            rows.append(f"- {crate} {lines(files)}: {names}")
    lost = sorted({it.parts[1] for it in order if it not in done})
    if lost:
        fail(f"SUBJECTS lacks {', '.join(lost)}")
    return rows


def main() -> int:
    words = Words(__doc__)
    words.add_argument("--check", action="store_true", help="compare the tables with the page, and write nothing")
    words.add_argument("--tally", action="store_true", help="print the totals alone")
    asked = words.parse_args()
    enter_top()
    found = needs()
    if asked.tally:
        print("\n".join(totals(found)))
        for promise, (_, places) in PROMISES.items():
            print(promise, "whole spec files: %d, %d lines" % whole_files(set().union(*map(clause, places))))
        return 0
    every, idea = sum(size(it.values()) for it in found.values()), sum(size(found[it].values()) for it in idea_files())
    said = f"{every:,} lines of definitions; {idea:,} of them are the idea"
    readme = Path("README.md").read_text(encoding="utf-8")
    if not asked.check:
        readme = re.sub(r"[\d,]+(\s+lines\s+of\s+definitions;\s+)[\d,]+", rf"{every:,}\g<1>{idea:,}", readme)
        Path("README.md").write_text(readme, encoding="utf-8")
    is_said = said in re.sub(r"\s+", " ", readme)
    print("" if is_said else f"README.md: it is '{said}'\n", end="")
    return settle(PAGE, "reading", "\n".join([*totals(found), *tables(found)]), asked.check) or not is_said


if __name__ == "__main__":
    sys.exit(main())
