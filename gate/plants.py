#!/usr/bin/env python3
"""Plants mutants in crates with the kit's `rt plant`, over libraries that are built, and says what of them was proved.

usage: plants.py FOLDER MINUTES CRATE ..

FOLDER is the top of a copy whose crates `rt ci` proved (gate/whole.sh). A crate is planted in a room of its own below FOLDER/plants,
with its sources and those libraries, so that none of them is proved again. MINUTES bound each crate, after its own check. What `rt
plant` printed stays in FOLDER/plants/CRATE.log. A check that takes more than an hour is cut off. For each crate its lines `proves` are printed, and then a row for docs/MUTANTS.md: how
many of the mutants that were tried are proved, and how many were not judged or not run. Each such line wants to be read: a clause may
refuse the mutant, a test may, or it may be right. The exit status is 1 where a crate's run gave no counts."""
import datetime
import importlib.util
import os
import re
import shutil
import subprocess
import sys

import rooms

# The seconds that a crate's own check may take.
CHECK = 3_600
TRIED = ("proves", "same", "refused", "elsewhere", "not-judged")


def kit_library():
    """The module by which `rt` tells whether a library is up to date."""
    spec = importlib.util.spec_from_file_location("rtlib", f"{rooms.kit()}/bin/rtlib.py")
    module = importlib.util.module_from_spec(spec)
    spec.loader.exec_module(module)
    return module


def put_up(folder, room, crate):
    """A room for a crate with the libraries below it, each with the stamp by which `rt` takes it as it is."""
    crates = rooms.listed()
    shutil.rmtree(room, ignore_errors=True)
    rooms.put_up(room, crate, crates)
    for name in rooms.below(crates, [crate]):
        if name != crate:
            built, own = f"{folder}/crates/{name}/out/rlib", f"{room}/crates/{name}/out/rlib"
            shutil.copytree(built, own, copy_function=os.link)
            if os.path.exists(f"{own}/stamp"):
                os.unlink(f"{own}/stamp")
    library = kit_library()
    for name in rooms.below(crates, [crate]):
        if name != crate:
            stamp = library.Crate(f"{room}/crates/{name}", room, {}, name=name).stamp()
            with open(f"{room}/crates/{name}/out/rlib/stamp", "w", encoding="utf-8") as file:
                file.write(stamp)


def planted(folder, minutes, crate):
    """Plants one crate: the lines of what was proved, and the counts, where the run gave some."""
    room, log = f"{folder}/plants/{crate}", f"{folder}/plants/{crate}.log"
    put_up(folder, room, crate)
    with open(log, "w", encoding="utf-8") as file:
        words = ["timeout", str(60 * int(minutes) + CHECK), "rt", "plant", "--minutes", minutes, "--max", "2000", "--jobs", "1"]
        subprocess.run(words, cwd=f"{room}/crates/{crate}", stdout=file, stderr=subprocess.STDOUT)
    with open(log, encoding="utf-8") as file:
        lines = file.read().splitlines()
    counts = re.findall(r"([a-z-]+)=(\d+)", lines[-1]) if lines and lines[-1].startswith("plants ") else []
    return [line for line in lines if line.startswith("proves ")], {name: int(count) for name, count in counts}


def main(words):
    if len(words) < 3:
        sys.exit(__doc__.split("\n")[2])
    folder, minutes, *crates = os.path.abspath(words[0]), *words[1:]
    bad = 0
    for crate in crates:
        lines, counts = planted(folder, minutes, crate)
        if not counts:
            print(f"{crate}: no counts: {folder}/plants/{crate}.log says why", flush=True)
            bad = 1
            continue
        print("\n".join(lines))
        left = "".join(f", {counts[name]} {name.replace('-', ' ')}" for name in ("not-judged", "not-run") if counts[name])
        print(f"| {crate} | {datetime.date.today()} | {counts['proves']} of {sum(counts[name] for name in TRIED)}{left} |", flush=True)
    return bad


sys.exit(main(sys.argv[1:]))
