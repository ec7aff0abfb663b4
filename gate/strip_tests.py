#!/usr/bin/env python3
"""Takes tests away from a copy of this repository: `strip_tests.py [--keep PREFIX [--of CRATES]] FOLDER`.

Every test is run without a proof (`rt try --test`, which looks for bad accesses meanwhile), and what `rt ci` proves is a copy without
them. With --keep the tests whose names begin with PREFIX stay, with what they name and the proofs of it: those of refused memory run
as they are built, over a `malloc` that refuses, and what is built is proved first. With --of they stay in these crates alone, names
with commas between.
"""
import argparse
import os
import re
import shutil
import sys

ITEM = re.compile(r"(?:pub(?:\(\w+\))? )?(?:const )?(fn|struct|enum|trait|type|const|static|impl)\b(?:<[^{]*?>(?= ))?(?:.*? for)? \W*(\w+)")
VALUE = re.compile(r"(?:pub(?:\(\w+\))? )?(?:const|static) (?!fn)")
WORD = re.compile(r"\w+")
# A function of the code itself that only tests call, with the blank line above it.
HELPER = re.compile(r"\n(?:^ *//[^\n]*\n)*^( *)#\[cfg\(test\)\]\n\1(?:pub(?:\(\w+\))? )?fn .*?^\1\}\n", re.M | re.S)
# A module of tests, in a file of its own or within a file.
DECLARED = re.compile(r"#\[cfg\(test\)\]\n(?:pub(?:\(\w+\))? )?mod (\w+)(?:;\n| \{\n.*?^\}\n)", re.M | re.S)


class Block:
    """The lines of one item, or of what stands between two."""

    def __init__(self, lines):
        self.text = "\n".join(lines)
        head = next((it for it in map(ITEM.match, lines) if it), None)
        self.kind, self.name = (head[1], head[2]) if head else (None, None)
        self.is_test = "#[test]" in lines
        self.words = set(WORD.findall(self.text)) if self.kind else set()


def blocks_of(path):
    """The items of a file, with the lines above each that belong to it, and what stands between them."""
    blocks, lines, is_within, is_value = [], [], False, None
    with open(path, encoding="utf-8") as file:
        for line in file.read().split("\n"):
            lines.append(line)
            if line and line[0] not in " \t#/":
                is_within = not line.endswith(("}", ";"))
                is_value = VALUE.match(line)
            # (a value's last line may be an indented one)
            if (not line or line[0] not in " \t#/") and not is_within or not line and is_value:
                blocks.append(Block(lines))
                lines, is_within, is_value = [], False, None
    return blocks + [Block(lines)] * bool(lines)


def reached(blocks, prefix):
    """The tests that stay and the blocks that they, or lines that import, name, through others too. What is written for a type is named
    with the type."""
    found = [it for it in blocks if it.is_test and prefix and it.name.startswith(prefix)]
    waiting, words = list(found), set()
    for block in blocks:
        if not block.kind and found:
            words |= set(WORD.findall(block.text))
    while waiting:
        words |= waiting.pop().words
        more = [it for it in blocks if it.kind and not it.is_test and it.name in words and it not in found]
        found += more
        waiting += more
    return found


class Module:
    """A module that only tests have: a file, those below it, and its declaration, or lines within a file."""

    def __init__(self, crate, parent, declared, name):
        folder = parent[: -len(".rt")] if os.path.basename(parent) not in ("lib.rt", "main.rt") else os.path.dirname(parent)
        self.parent, self.declared, self.path = parent, declared, f"{folder}/{name}"
        self.proofs = f"{crate}/proofs/{os.path.relpath(self.path, f'{crate}/src')}"
        paths = [f"{self.path}.rt"] + [f"{at}/{file}" for at, _, files in os.walk(self.path) for file in files]
        self.files = {path: blocks_of(path) for path in paths if os.path.isfile(path)}

    def blocks(self):
        return [it for blocks in self.files.values() for it in blocks]

    def take_away(self):
        with open(self.parent, encoding="utf-8") as file:
            text = file.read().replace(self.declared, "")
        with open(self.parent, "w", encoding="utf-8") as file:
            file.write(re.sub(r"\n{3,}", "\n\n", text).strip("\n") + "\n")
        for path in (self.path, self.proofs):
            shutil.rmtree(path, ignore_errors=True)
        for path in self.files:
            if os.path.isfile(path):
                os.remove(path)

    def keep(self, kept):
        for path, own in self.files.items():
            text = "\n".join(it.text for it in own if not it.kind or it in kept)
            with open(path, "w", encoding="utf-8") as file:
                file.write(re.sub(r"\n{3,}", "\n\n", text).strip("\n") + "\n")
        gone = {it.name for it in self.blocks() if it.kind == "fn" and it not in kept}
        for at, folders, _ in os.walk(self.proofs):
            for name in gone.intersection(folders):
                shutil.rmtree(f"{at}/{name}")


def modules_of(crate):
    """The modules of a crate that only tests have."""
    found = []
    for at, _, names in os.walk(f"{crate}/src"):
        for path in [f"{at}/{name}" for name in names]:
            with open(path, encoding="utf-8") as file:
                text = file.read()
            found += [Module(crate, path, it[0], it[1]) for it in DECLARED.finditer(text)]
    return found


def take_helpers(crate):
    """Takes away what only tests call: `rt ci` proves a crate twice that has a word of tests."""
    for at, _, names in os.walk(f"{crate}/src"):
        for path in [f"{at}/{name}" for name in names]:
            with open(path, encoding="utf-8") as file:
                text = file.read()
            if HELPER.search(text):
                with open(path, "w", encoding="utf-8") as file:
                    file.write(HELPER.sub("", text))


def left(crate, prefix):
    """Takes away the tests of a crate that do not stay, and says how many are left."""
    modules = modules_of(crate)
    kept = reached([it for module in modules for it in module.blocks()], prefix)
    for module in modules:
        if any(it in kept for it in module.blocks()):
            module.keep(kept)
        else:
            module.take_away()
    if not kept:
        take_helpers(crate)
    return sum(it.is_test for it in kept)


def main(words):
    asked = argparse.ArgumentParser(add_help=False)
    asked.add_argument("--keep", default="")
    asked.add_argument("--of")
    asked.add_argument("folder")
    asked = asked.parse_args(words)
    crates = sorted(os.listdir(f"{asked.folder}/crates"))
    linked = [it for it in crates if os.path.islink(f"{asked.folder}/crates/{it}")]
    if linked:
        sys.exit(f"strip_tests.py: crates/{linked[0]} is a link: tests would go from what it leads to")
    of = crates if asked.of is None else asked.of.split(",")
    print(sum(left(f"{asked.folder}/crates/{it}", asked.keep if it in of else "") for it in crates), flush=True)


main(sys.argv[1:])
