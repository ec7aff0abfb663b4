#!/usr/bin/env python3
"""Looks that each lemma is cited, and that no long proof stands twice. The last line counts the lemmas.

usage: lemmas.py

A lemma that nothing names but its own proof is told; worked rows, in files named RowLemmas, are proved for their own sake. So are two
lemmas that state the same of variables that may be named otherwise, where each takes more than four lines: one of them moves to the
lowest crate that both stand on (gate/lemmas_above.txt lists the files of lemmas that are named from above).
"""
import collections
import glob
import re
import sys

from rooms import CRATES

# What separates names; a lemma's name may hold dashes and primes.
BETWEEN = re.compile(r"[\s(){}\[\],;.`:λ]+")
STATED = re.compile(r"^(\s*)(?:pub )?([^\s:(){}=|]+) : (.*)$")
BOUND = re.compile(r"[({]([^(){}:]+?) : ")
TOKEN = re.compile(r"[\w'≢≡-]+|\S")
# A lemma of so many lines may stand twice: to move it would cost more than it gives.
SHORT = 4


def sources():
    """The lines of each file that may name a lemma."""
    for kind in ("antt", "rt"):
        for path in sorted(glob.glob(f"{CRATES}/*/[!o]*/**/*.{kind}", recursive=True)):
            with open(path, encoding="utf-8") as file:
                yield path, file.read().split("\n")


def names(lines):
    """How often each name stands in these lines, but for imports and comments."""
    told = (line for line in lines if not re.match(r"\s*(--|// |/// |(pub )?use )", line))
    return collections.Counter(name for line in told for name in BETWEEN.split(line) if name)


class Lemma:
    """A lemma as it stands in a file: its name, its statement, and the lines of both with its proof."""

    def __init__(self, path, lines, at, match):
        self.place, self.name, self.is_top = f"{path.removeprefix(CRATES + '/')}:{at + 1}", match[2], not match[1]
        end = at + 1
        while end < len(lines) and lines[end].strip() and not ends(lines[end], len(match[1])):
            end += 1
        self.lines = lines[at:end]
        own = re.compile(rf"\s*(unfolding\b|{re.escape(self.name)}(\s|$))")
        said = [match[3]]
        for line in self.lines[1:]:
            if own.match(line):
                break
            said.append(line.strip())
        self.said = alike(" ".join(said))


def ends(line, depth):
    """Whether another lemma begins here, no deeper than this one."""
    match = STATED.match(line)
    return bool(match) and len(match[1]) <= depth


def alike(said):
    """A statement with its variables counted in place of their names."""
    bound = {}
    for group in BOUND.findall(said):
        for name in group.split():
            bound.setdefault(name, f"v{len(bound)}")
    return " ".join(bound.get(token, token) for token in TOKEN.findall(said))


def lemmas(path, lines):
    for at, line in enumerate(lines):
        match = STATED.match(line)
        if match and "goal." not in line and not line.lstrip().startswith(("let ", "--", "use ", "|", "λ", "→")):
            yield Lemma(path, lines, at, match)


def main():
    cited, found = collections.Counter(), []
    for path, lines in sources():
        cited += names(lines)
        if "/proofs/" in path and path.endswith(".antt"):
            found += lemmas(path, lines)
    told = []
    for lemma in found:
        is_row = lemma.place.split(":")[0].endswith("RowLemmas.antt")
        if len(lemma.name) > 2 and not is_row and cited[lemma.name] <= names(lemma.lines)[lemma.name]:
            told.append(f"{lemma.place}: nothing cites {lemma.name}")
    stated = collections.defaultdict(list)
    for lemma in found:
        if lemma.is_top and "→" in lemma.said and len(lemma.lines) > SHORT:
            stated[lemma.said].append(lemma)
    for twice in stated.values():
        if len(twice) > 1:
            told.append(f"{twice[0].place}: {twice[0].name} is also proved at " + ", ".join(lemma.place for lemma in twice[1:]))
    print("\n".join(told + [f"{len(found) - len(told)} passed, {len(told)} failed"]))
    return 1 if told else 0


sys.exit(main())
