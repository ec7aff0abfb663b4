#!/usr/bin/env python3
"""Looks that each public function has a must-fail edit, or a row of docs/EDITS.md that says why it has none.

usage: edited.py [--check] [CRATE ...]

A function is public if it is a `pub fn`, or the function of a trait that a type has under a contract of its own. Tests don't count, nor
does a law, which has no body. An edit changes the function in which its replaced text lies (gate/edits.py). A row may leave out the
module of a function. One that says "No clause" is of a function without `ensures`.

A line has the counts of each crate, but with --check. Further lines say which functions have neither an edit nor a row, and which rows
are of no such function. The last line counts the functions.
"""
import glob
import os
import re
import sys

import edits
import rooms
from rooms import CRATES, TOP

PAGE = "docs/EDITS.md"
# A row: the crate, functions of it, and the reason.
ROW = re.compile(r"^\| (av\w+) \| (`.*`) \| (.+) \|$", re.M)
PUBLIC = re.compile(r"\s*pub (?:const )?fn ")
CLAUSE = re.compile(r"\s*(ensures|requires)\b")


def functions(crate):
    """Each function of a crate's code but tests: its file, its type if any, its name, whether it is public, its clauses, and whether it
    has a body. Of a trait that a type has it is public if it has clauses of its own."""
    for path in sorted(glob.glob(f"{CRATES}/{crate}/src/**/*.rt", recursive=True)):
        file = os.path.relpath(path, f"{CRATES}/{crate}")
        if "tests" in edits.modules_of(file):
            continue
        with open(path, encoding="utf-8") as it:
            lines = it.read().split("\n")
        owner, of_trait, is_test = None, False, False
        for at, line in enumerate(lines):
            is_test = is_test and line != "}" or line == "mod tests {"
            if edits.OWNER.match(line):
                owner, of_trait = edits.OWNER.match(line)[1], " for " in line
            head = edits.HEAD.match(line)
            if head and not is_test and lines[at - 1].strip() != "#[cfg(test)]":
                clauses, has_body = contract(lines[at:])
                is_public = bool(PUBLIC.match(line) or head[1] and of_trait and clauses)
                yield file, owner if head[1] else None, head[2], is_public, clauses, has_body


def contract(lines):
    """The clauses of the function that begins these lines, and whether it has a body."""
    clauses, at = [], 0
    while at < len(lines):
        line = lines[at]
        if CLAUSE.match(line):
            while line.count("{") > line.count("}"):
                at += 1
                line += "\n" + lines[at]
            clauses.append(line.strip())
        elif line.strip() in ("{", "{}") or line.endswith(";") or not clauses and line.endswith(("{", "{}")):
            return clauses, line.strip() != "{}"
        at += 1
    return clauses, False


def public(crate):
    """The public functions of a crate but laws: by what names it, each as an edit has it, and whether it has an `ensures`."""
    return {
        "::".join([*edits.modules_of(file), *filter(None, (owner, name))]): ((file, owner, name), any(it.startswith("ensures") for it in clauses))
        for file, owner, name, is_public, clauses, has_body in functions(crate)
        if is_public and has_body
    }


def edited(crate):
    """The functions that a crate's edits change."""
    folder = f"{CRATES}/{crate}/must-fail"
    return {(it.file, *one) for it in (edits.edits_of(crate) if os.path.isdir(folder) else []) for one in it.functions - {None}}


def rows():
    """The crate of each function that the page lists, the function as it is named there, and the reason."""
    with open(f"{TOP}/{PAGE}", encoding="utf-8") as file:
        found = ROW.findall(file.read())
    return [(crate, name, why) for crate, names, why in found for name in re.findall(r"`([^`]+)`", names)]


def compared(crate, listed):
    """How many public functions a crate has, how many an edit changes, how many a row excuses, and what is wrong."""
    functions, changed, told, excused = public(crate), edited(crate), [], set()
    for name, why in listed:
        those = [it for it in functions if f"::{it}".endswith(f"::{name}")]
        if len(those) != 1 or those[0] in excused:
            told.append(f"{PAGE}: {crate} has {len(those)} public functions {name}, in one row each")
        elif functions[those[0]][0] in changed:
            told.append(f"{PAGE}: {crate} has an edit of {name}")
        elif why.startswith("No clause") and functions[those[0]][1]:
            told.append(f"{PAGE}: {crate}, {name} has a clause")
        excused.update(those)
    with_edit = {it for it, (function, _) in functions.items() if function in changed}
    told += [f"{crate}: no edit changes {it}, and {PAGE} has no row for it" for it in functions if it not in with_edit | excused]
    return len(functions), len(with_edit), len(excused - with_edit), told


def main(words):
    crates = [it for it in words if it != "--check"] or list(rooms.listed())
    listed = rows()
    passed, told = 0, [f"{PAGE}: there is no crate {it}" for it in sorted({it for it, _, _ in listed} - set(rooms.listed()))]
    for crate in crates:
        count, with_edit, excused, wrong = compared(crate, [(name, why) for at, name, why in listed if at == crate])
        if "--check" not in words:
            print(f"{crate}: {count} public functions, {with_edit} with an edit, {excused} with a row")
        passed, told = passed + with_edit + excused, told + wrong
    print("\n".join([*told, f"{passed} passed, {len(told)} failed"]))
    return 1 if told else 0


if __name__ == "__main__":
    sys.exit(main(sys.argv[1:]))
