#!/usr/bin/env bash
# Whether docs/messages.md has every line that the program prints, and no other.
# The lines of the document are those between backticks in the first column of its tables, and in the
# columns Found and Helps. The texts of the program are the string literals of the files below, outside
# of contracts, comments and tests, and those of the launcher. A file that is missing is an error.
# Each literal must be part of a line of the document, and each line must be made of literals, with
# numbers and names between them. The last line is 'docs/messages.md has every line'; the status is
# 1 where it has not.
set -eu
cd -- "$(dirname -- "$0")/.."
python3 - <<'END'
import glob
import os
import re
import sys

SOURCES = """
check_mode/checks height_mode/heights ledger_remarks/remark_lines ledger_runs/refusals ledger_runs/reply_lines
migrate_mode/report remarks/corner_lines remarks/file_lines remarks/flaw_lines remarks/layer_tables
remarks/refusal_tables remarks/remark_lines remarks/sights remarks/stray_lines remarks/tin_tables
report_text/field_texts report_text/report_texts report_text/side_texts run_notes/faulty_triangles run_notes/warnings
run_steps/lines run_steps/step_lines runs/layer_lines runs/lines runs/refusal tinledger/main tinledger/notes
verify_mode/verifications
""".split()
files = ["crates/{}/src/{}.rt".format(*it.split("/")) for it in SOURCES]
lost = [it for it in files if not os.path.exists(it)]
if lost:
    sys.exit(f"no file {', '.join(lost)}")

def literals_of(text):
    text = re.sub(r"\\\n\s*", "", text)  # a literal that goes on in the next line
    text = re.sub(r"(?m)^\s*(//.*|ghost .*|requires .*|ensures .*|#\[.*)$", "", text)
    text = re.sub(r'\bb"(?:[^"\\]|\\.)*"', "", text)
    for raw in re.findall(r'"((?:[^"\\]|\\.)*)"', text):
        # A part of a formatted text between its arguments is a literal of its own.
        # What clears a line of a terminal is no text.
        for part in re.split(r"\{[^}]*\}", raw.replace("\\n", "\n").replace("\\r\\u{1b}[K", "")):
            # What helps comes after the line on what was done.
            yield from re.sub(r"(no line was obeyed); ", r"\1\n", part.replace("\\\\", "\\")).split("\n")

# A reply that no command has: what is settled was decided before.
NEVER = {"settled undecided"}
literals, home = set(), {}
for file in files:
    for it in literals_of(open(file, encoding="utf-8").read()):
        if it and it not in NEVER:
            literals.add(it)
            home.setdefault(it, file)
for help_file in sorted(glob.glob("crates/*/src/help.rt")):
    for usage in re.findall(r'USAGE: &str =\s*"([^"]*)"', open(help_file, encoding="utf-8").read()):
        literals.add(usage)
        home[usage] = help_file
# the one line of standard output that is bytes in the source
output = "crates/fault_runs/src/output.rt"
for line in re.findall(r'b"([^"\\]*)\\n"', open(output, encoding="utf-8").read()):
    literals.add(line)
    home[line] = output

# the launcher, under its first name: what it fails with, says and shows, between the values that the
# shell puts in
launcher = "".join(open(name, encoding="utf-8").read() for name in ("tinmove", "tools/build"))
launcher = launcher.replace("\\\n", " ").replace("$program", "tinmove")
for verb, text in re.findall(r"""(?m)\b(fail|echo|say_step|taken=|printf)\s*(?:\|\|)?\s*("[^"\n]*"|'[^'\n]*')""", launcher):
    text = re.sub(r"\$\(\([^)]*\)\)|\$\{?\w+\}?|%s|\\\w(?:\d+\[K)?|\[K", "\0", text[1:-1])
    text = ("tinmove: " if verb in ("fail", "say_step") else "") + text
    for it in filter(str.strip, text.split("\0")):
        literals.add(it)
        home.setdefault(it, "tinmove")
literals.add("tinmove: ")

document, wide = [], 1
for line in open("docs/messages.md", encoding="utf-8"):
    if line.startswith("| Line |") or line.startswith("| Reply |"):
        wide = 1 + line.count("| Found") + line.count("| Helps")
    elif line.startswith("| ") and not line.startswith("|---"):
        cells = re.split(r"(?<!\\)\|", line)[1:1 + wide]
        document += [it.replace("\\|", "|") for cell in cells for it in re.findall(r"`([^`]*)`", cell)]

def fragments(line):
    """The parts of a line of the document between its numbers and names."""
    shown = line if line.startswith("usage:") else re.sub(r"\b(NAME|WAS|NOW|[A-Z])\b", "\0", line)
    return [it for it in shown.split("\0") if it]

WORDS = "apart touching crossing overlapping positive negative zero inside border outside".split()
parts = [it for line in document for it in fragments(line)] + WORDS

def is_made(part):
    """Whether the literals, one behind the other, make this part; ends may be cut off by blanks."""
    reach = {0}
    for at in range(len(part)):
        if at in reach:
            reach |= {at + len(it) for it in literals if part.startswith(it, at)}
            # 'tinmove: ' and blanks stand before what the lines on steps say
            reach |= {at + 1} if part[at] in " /" else set()
    return len(part) in reach

bad = 0
for it in sorted(literals):
    if it.strip() and not any(it.strip() in part or it in part for part in parts):
        print(f"{home[it]}: no line of docs/messages.md has {it!r}")
        bad = 1
for part in parts:
    if not is_made(part):
        print(f"docs/messages.md: the program has no text for {part!r}")
        bad = 1
if bad:
    sys.exit(1)
print(f"{len(document)} lines, {len(literals)} texts of the program")
print("docs/messages.md has every line")
END
