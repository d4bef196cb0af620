#!/usr/bin/python3
"""Types the commands of docs/guide.md, and compares what they print with what the guide says.

usage: recipes/try_guide.py [TINMOVE [TINPLACES [TINLEDGER]]]     the programs, else the launchers above

The commands are the lines of the chapters below that begin with four blanks and '$ '; below each stands
what it prints, on standard output and standard error. They run one after the other in one shell, in a copy of
examples/. Needs what the recipes need. No part of the gate. The last line is 'the guide prints what it
says'; the status is 1 where it does not.
"""
import os
import subprocess
import sys
import tempfile

TOP = os.path.dirname(os.path.dirname(os.path.abspath(__file__)))
CHAPTERS = ("Commands", "Certificates", "Decisions", "Recipes")
MARK = "@@@ the command ends"


def commands_of(name):
    """The commands, each with its line, what it is to print and its chapter."""
    found, is_open, chapter = [], False, None
    with open(name, encoding="utf-8") as file:
        for number, line in enumerate(file, 1):
            chapter = line[3:].strip() if line.startswith("## ") else chapter
            if line.startswith("    $ ") and chapter in CHAPTERS:
                found.append([number, line[6:].rstrip("\n"), [], chapter])
                is_open = True
            elif is_open and line.startswith("    "):
                found[-1][2].append(line[4:].rstrip("\n"))
            else:
                is_open = False
    return found


def main():
    names = ("tinmove", "tinplaces", "tinledger")
    programs = {it: os.path.join(TOP, it) for it in names}
    programs.update(zip(names, map(os.path.abspath, sys.argv[1:])))
    commands, bad = commands_of(os.path.join(TOP, "docs", "guide.md")), 0
    for chapter in CHAPTERS:
        if all(it[3] != chapter for it in commands):
            sys.exit(f"docs/guide.md has no command in a chapter {chapter!r}")
    with tempfile.TemporaryDirectory() as folder:
        os.makedirs(os.path.join(folder, "bin"))
        for name, program in programs.items():
            os.symlink(program, os.path.join(folder, "bin", name))
        checkout = os.path.join(folder, "checkout")
        os.makedirs(checkout)
        for name in ("examples", "recipes"):
            os.symlink(os.path.join(TOP, name), os.path.join(checkout, name))
        text = "".join(f"{command}\nprintf '%s\\n' '{MARK}'\n" for _, command, *_ in commands)
        path = os.path.join(folder, "bin") + os.pathsep + os.environ["PATH"]
        settings = {it: value for it, value in os.environ.items() if it not in ("TINMOVE", "TINPLACES", "TINLEDGER")}
        done = subprocess.run(
            ["bash", "-c", text], cwd=checkout, env={**settings, "PATH": path}, stdout=subprocess.PIPE,
            stderr=subprocess.STDOUT, stdin=subprocess.DEVNULL, check=False,
        )
    printed = done.stdout.decode(errors="replace").split(MARK + "\n")
    for (number, command, wanted, _), said in zip(commands, printed):
        if said.splitlines() != wanted:
            bad += 1
            print(f"docs/guide.md:{number}: $ {command}\nprints\n{said}in place of")
            print("\n".join(wanted))
    if len(printed) != len(commands) + 1:
        sys.exit("the shell ended too early")
    print(f"{len(commands)} commands, {bad} print something else")
    if bad:
        sys.exit(1)
    print("the guide prints what it says")


main()
