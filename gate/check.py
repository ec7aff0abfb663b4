#!/usr/bin/env python3
"""Checks a crate, or a few functions of it, over the libraries that prove.py built, for work on a proof.

usage: check.py CRATE [FUNCTION ..] [-- FLAG ..]

A FUNCTION is named as the prover prints it, below the crate (`world::stage::Stage::publish`), and stands for what it calls too; without one the
whole crate is checked, and with '' its code alone, in seconds. Each FLAG goes to the prover as it is: --allow-holes and --short-goals print the
goals that are open, --test checks the tests too, --fix-imports takes away imports of proofs that nothing uses. What was checked is kept in the
crate's out/. Lines that say that all is well are left out; out/check.log of the crate has them.
"""
import os
import re
import subprocess
import sys

import rooms

WELL = re.compile(r": (proved|no holes)(, |$)|^(statements|library|logic) ")


def main(words):
    flags = words[words.index("--") + 1:] if "--" in words else []
    crate, *functions = words[:words.index("--")] if "--" in words else words or [None]
    crates = rooms.listed()
    if crate not in crates:
        sys.exit(__doc__.split("\n")[2])
    folder = f"{rooms.CRATES}/{crate}"
    os.makedirs(f"{folder}/out", exist_ok=True)
    command = rooms.prover_words("check", crate, crates)
    for name in functions:
        command += ["--only", name]
    done = subprocess.run(command + flags, cwd=folder, stdout=subprocess.PIPE, stderr=subprocess.STDOUT, text=True)
    with open(f"{folder}/out/check.log", "w", encoding="utf-8") as log:
        log.write(done.stdout)
    print("\n".join(line for line in done.stdout.split("\n") if line and not WELL.search(line)))
    return done.returncode


sys.exit(main(sys.argv[1:]))
