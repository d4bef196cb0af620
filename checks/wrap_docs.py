#!/usr/bin/env python3
"""Breaks the prose of Markdown files at 98 columns: each paragraph and item with a line of more than 100, and no other.

Code, tables, headings and what a script writes between two comments stay as they are.

usage: wrap_docs.py FILE..     each file is written again where it changes, and named
"""
import re
import sys
import textwrap

MOST = 100
ITEM = re.compile(r"(\s*(?:[-*]|\d+\.) +)(.*)")


def filled(text, first, rest):
    """The text in lines, where a code span is not broken."""
    text = re.sub(r"`[^`]*`", lambda span: span[0].replace(" ", "\x01"), text)
    lines = textwrap.fill(
        text, 98, initial_indent=first, subsequent_indent=rest, break_long_words=False, break_on_hyphens=False
    )
    return lines.replace("\x01", " ")


def wrapped(text):
    out, lines, at = [], text.split("\n"), 0
    while at < len(lines):
        line = lines[at]
        at += 1
        if line.startswith("```"):
            out.append(line)
            while at < len(lines):
                out.append(lines[at])
                at += 1
                if out[-1].startswith("```"):
                    break
            continue
        if line.startswith("<!-- begin "):
            out.append(line)
            while at < len(lines) and not out[-1].startswith("<!-- end "):
                out.append(lines[at])
                at += 1
            continue
        item = ITEM.match(line)
        is_plain = line.strip() and not line.startswith(("#", "|", "```")) and not (line.startswith("    ") and not item)
        if not is_plain:
            out.append(line)
            continue
        begin = at - 1
        first, prose = (item[1], item[2]) if item else ("", line)
        while at < len(lines):
            more = lines[at]
            if not more.strip() or more.startswith(("#", "|", "```")) or ITEM.match(more):
                break
            if not item and more.startswith("    "):
                break
            prose += " " + more.strip()
            at += 1
        is_long = any(len(it) > MOST for it in lines[begin:at])
        out += [filled(prose, first, " " * len(first))] if is_long else lines[begin:at]
    return "\n".join(out)


def main():
    if not sys.argv[1:]:
        sys.exit("usage: wrap_docs.py FILE..")
    for name in sys.argv[1:]:
        with open(name, encoding="utf-8") as file:
            before = file.read()
        after = wrapped(before)
        if after != before:
            with open(name, "w", encoding="utf-8") as file:
                file.write(after)
            print(name)


if __name__ == "__main__":
    main()
