#!/usr/bin/env python3
"""What one has to read to know what a clause says: the definitions that it cites, those that they cite, and so on.

usage: definitions.py [--check] [CRATE FILE FUNCTION CLAUSE ..]

Without words the clauses are those of CLAIMS, and docs/CHECK.md gets its tables anew; with --check nothing is written, and the last line
counts how many tables are as they are made. With words the definitions behind one clause are printed, each with its file and its lines.
A definition of the kit, and a type of the code, is named and not followed: a reader takes those from their own pages.
"""
import re
import sys

from modules import Names, closure
from rooms import CRATES, TOP

PAGE = f"{TOP}/docs/CHECK.md"
BEGIN, END = "<!-- definitions of {} -->\n", "<!-- as far as here -->\n"
# The name of a claim in docs/CHECK.md, and where its clause stands.
CLAIMS = {
    "a world": ("av_world", "src/world.rt", "step", ["promise"]),
    "a host": ("avscan", "src/opening.rt", "host_named", ["so_far", "hosted"]),
    "a scan": ("avscan", "src/scan.rt", "scan_named", []),
    "a filter": ("avscan", "src/opening.rt", "filter_named", []),
    "a guard": ("av_daemon", "src/daemon/telling.rt", "settle", []),
}


def cited(crate, path, function, clauses):
    """The (module, name) that the clauses of a function name, all of them without a list."""
    with open(f"{CRATES}/{crate}/{path}", encoding="utf-8") as file:
        text = file.read()
    uses = Names(crate, path, re.findall(r"^\s*ghost (use .*)$", text, re.M))
    match = re.search(rf"fn {function}\b.*?\n\{{\n", text, re.S) or re.search(rf"fn {function}\b.*?\n    \{{\n", text, re.S)
    if match is None:
        raise ValueError(f"crates/{crate}/{path}: there is no function {function}")
    begun = []
    for name, clause in re.findall(r"ensures (\w+ )?\{(.*)\}\s*$", match[0], re.M):
        if not clauses or name.strip() in clauses:
            begun += uses.all_found(clause)
    if not begun:
        raise ValueError(f"crates/{crate}/{path}: {function} has no such clause")
    return begun


def files(found):
    """How many definitions and lines of each file are among these, in the order in which the files are met."""
    counts = {}
    for (crate, path, _), (_, text) in found.items():
        count = counts.setdefault((crate, path), [0, 0])
        count[0] += 1
        count[1] += text.count("\n") + 1
    return counts


def table(claim):
    found, _ = closure(cited(*claim))
    counts = files(found)
    rows = [f"| [{crate}/{path}](../crates/{crate}/{path}) | {count} | {lines} |" for (crate, path), (count, lines) in counts.items()]
    rows.append(f"| {len(counts)} files | {len(found)} | {sum(lines for _, lines in counts.values())} |")
    return "\n".join(["| File | Definitions | Lines |", "|---|---:|---:|", *rows]) + "\n"


def pages(text):
    """The page with its tables made anew, and how many were as they are made."""
    same = 0
    for name, claim in CLAIMS.items():
        begin = BEGIN.format(name)
        before, _, rest = text.partition(begin)
        old, end, after = rest.partition(END)
        if not end:
            raise ValueError(f"docs/CHECK.md: there is no place for the definitions of {name}")
        new = "\n" + table(claim) + "\n"
        same += old == new
        text = before + begin + new + end + after
    return text, same


def main(words):
    if words and words[0] != "--check":
        crate, path, function, *clauses = words
        found, outside = closure(cited(crate, path, function, clauses))
        for (crate, path, _), (line, text) in found.items():
            print(f"crates/{crate}/{path}:{line}\n{text}\n")
        print(f"not followed: {', '.join(sorted({name for _, name in outside}))}")
        print(f"{len(found)} definitions, {sum(text.count(chr(10)) + 1 for _, text in found.values())} lines")
        return 0
    with open(PAGE, encoding="utf-8") as file:
        old = file.read()
    new, same = pages(old)
    if not words:
        with open(PAGE, "w", encoding="utf-8") as file:
            file.write(new)
        same = len(CLAIMS)
    print(f"{same} passed, {len(CLAIMS) - same} failed")
    return int(same != len(CLAIMS))


if __name__ == "__main__":
    try:
        sys.exit(main(sys.argv[1:]))
    except ValueError as error:
        print(f"definitions.py: {error}")
        sys.exit(1)
