#!/usr/bin/env python3
"""A program of its own that opens files through gate, desk and pool by av_shared alone (examples/embed), built without proof and run.

usage: embed.py

The program stands in a copy of av_shared and the crates below it. The last line counts what passed.
"""
import os
import shutil
import subprocess
import sys
import tempfile

import rooms
from rooms import TOP

WANTED = ["letter granted version 1", "other denied cause 2"]


def main():
    os.makedirs(f"{TOP}/out", exist_ok=True)
    with tempfile.TemporaryDirectory(prefix="embed-", dir=f"{TOP}/out", ignore_cleanup_errors=True) as room:
        rooms.put_up(room, "av_shared", rooms.listed())
        with open(f"{room}/crates.txt", "a", encoding="utf-8") as file:
            file.write("embed: av_shared\n")
        os.makedirs(f"{room}/crates/embed/src")
        shutil.copy(f"{TOP}/examples/embed/main.rt", f"{room}/crates/embed/src")
        done = subprocess.run(["rt", "try"], cwd=f"{room}/crates/embed", capture_output=True, text=True, check=False)
    said = done.stdout + done.stderr
    passed = [line for line in WANTED if line in said.splitlines()]
    if passed != WANTED or done.returncode:
        print(f"embed: wanted {WANTED}, status 0: {done.returncode}\n{said[-3000:]}")
    failed = len(WANTED) + 1 - len(passed) - (done.returncode == 0)
    print(f"{len(WANTED) + 1 - failed} passed, {failed} failed")
    return 1 if failed else 0


sys.exit(main())
