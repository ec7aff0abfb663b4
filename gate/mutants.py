#!/usr/bin/env python3
"""Builds mutants that meet their contracts, and looks that a test refuses each.

usage: mutants.py [MUTANT ..]

A mutant is a file of gate/mutants/: a line `file:` with the file that it changes, lines `old:` and `new:` with a text that occurs once
there and what takes its place, and a line `test:` with a crate and the name of one of its tests. The crate's tests are built in a copy,
without a proof, and run. That test must fail, or not end within its time. Each mutant takes one to three minutes, so no gate runs this.
The last line counts the mutants that were refused and those that were not.
"""
import glob
import os
import re
import subprocess
import sys
import tempfile

import rooms
from rooms import TOP

FOLDER = f"{TOP}/gate/mutants"
SECONDS = 900


def read(path):
    """A mutant's file, its two texts, and the crate and the name of its test."""
    with open(path, encoding="utf-8") as file:
        found = dict(line.split(": ", 1) for line in file.read().splitlines() if ": " in line)
    return found["file"], found["old"], found["new"], *found["test"].split()


def change(room, file, old, new):
    path = f"{room}/{file}"
    with open(path, encoding="utf-8") as it:
        text = it.read()
    if text.count(old) != 1:
        raise ValueError(f"{file}: the old text occurs {text.count(old)} times")
    with open(path, "w", encoding="utf-8") as it:
        it.write(text.replace(old, new))


def refused_by(path):
    """Why a mutant is not refused by its test, or None if it is."""
    file, old, new, crate, test = read(path)
    with tempfile.TemporaryDirectory(prefix="mutant-", dir=f"{TOP}/out", ignore_cleanup_errors=True) as room:
        rooms.put_up(room, crate, rooms.listed())
        change(room, file, old, new)
        words = ["rt", "try", "--test"]
        try:
            done = subprocess.run(words, cwd=f"{room}/crates/{crate}", capture_output=True, text=True, timeout=SECONDS, check=False)
        except subprocess.TimeoutExpired:
            return f"its tests did not end within {SECONDS} s"
    said = done.stdout + done.stderr
    verdicts = re.findall(rf"^test \S*\b{test} \.\.\. (\w+)", said, re.M)
    begun = re.findall(rf"^test \S*\b{test} \.\.\.", said, re.M)
    if verdicts == ["ok"]:
        return f"{test} passed"
    if not begun and "run=none" in said:
        return f"it was not built: {said[-600:]}"
    return None if begun or re.search(r"run=(hung|timeout|killed)|did not end", said) else f"{test} was not run: {said[-600:]}"


def main(names):
    os.makedirs(f"{TOP}/out", exist_ok=True)
    paths = [f"{FOLDER}/{name}.mutant" for name in names] or sorted(glob.glob(f"{FOLDER}/*.mutant"))
    failed = 0
    for path in paths:
        why = refused_by(path)
        failed += why is not None
        print(f"{os.path.basename(path)}: {'refused' if why is None else 'NOT REFUSED: ' + why}", flush=True)
    print(f"{len(paths) - failed} passed, {failed} failed")
    return 1 if failed else 0


sys.exit(main(sys.argv[1:]))
