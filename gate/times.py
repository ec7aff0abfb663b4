#!/usr/bin/env python3
"""Writes the tables of docs/GATE.md anew, from the times of the last gate (out/gate-times): `make gate-times` calls it.

A line of that file is what was done, the crate or part, of how many things, seconds, processor seconds and mebibytes of the largest
process. The tables stand between the two lines of the page that name this script.
"""
import os
import re
import subprocess
import sys
from datetime import date

from rooms import TOP, listed

PAGE = f"{TOP}/docs/GATE.md"
TIMES = f"{TOP}/out/gate-times"
BEGIN, END = "<!-- written by gate/times.py -->\n", "<!-- as far as here -->\n"


def read():
    """For each kind and name the sums of its lines, but for memory its greatest."""
    found = {}
    with open(TIMES, encoding="utf-8") as file:
        for line in file:
            kind, name, *numbers = line.split()
            count, seconds, used, mebibytes = map(int, numbers)
            old = found.get((kind, name), (0, 0, 0, 0))
            found[kind, name] = (old[0] + count, old[1] + seconds, old[2] + used, max(old[3], mebibytes))
    return found


def number(value):
    return f"{value:,}" if value else "-"


def tables(found):
    """Two tables: the parts of the gate, and the crates."""
    rows = ["| Part | Seconds | of a processor |", "|---|---|---|"]
    rows += [f"| {name} | {number(it[1])} | {number(it[2])} |" for (kind, name), it in found.items() if kind == "part"]
    rows += ["", "| Crate | Proof | MiB | Tests run | of these built | Edits | of them tried |", "|---|---|---|---|---|---|---|"]
    kinds = ("proof", "tests-run", "tests-built", "edits")
    sums = dict.fromkeys(kinds, 0)
    for crate in listed():
        proof, run, built, edits = (found.get((kind, crate), (0, 0, 0, 0)) for kind in kinds)
        for kind, it in zip(kinds, (proof, run, built, edits)):
            sums[kind] += it[2]
        cells = (number(proof[2]), number(proof[3]), number(run[2]), number(built[2]), number(edits[2]), number(edits[0]))
        rows.append(f"| {crate} | {' | '.join(cells)} |")
    tried = sum(it[0] for (kind, _), it in found.items() if kind == "edits")
    rows.append(f"| all | {sums['proof']:,} | - | {sums['tests-run']:,} | {sums['tests-built']:,} | {sums['edits']:,} | {tried:,} |")
    return "\n".join(rows)


def main():
    if not os.path.isfile(TIMES):
        print("times.py: there is no out/gate-times: run make test first", file=sys.stderr)
        return 1
    commit = subprocess.run(["git", "rev-parse", "--short", "HEAD"], cwd=TOP, capture_output=True, text=True).stdout.strip()
    with open(PAGE, encoding="utf-8") as file:
        page = file.read()
    said = f"Seen on {date.today()}, {os.cpu_count()} processors, at {commit}. Of the crates: processor seconds.\n\n"
    with open(PAGE, "w", encoding="utf-8") as file:
        file.write(re.sub(rf"{BEGIN}.*{END}", lambda _: f"{BEGIN}\n{said}{tables(read())}\n\n{END}", page, flags=re.S))
    return 0


sys.exit(main())
