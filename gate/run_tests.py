#!/usr/bin/env python3
"""Runs the tests of crates, side by side, and builds those of refused memory.

usage: run_tests.py [--times FILE] [--above] [--only run|built] [CRATE ...]

Each test of the named crates (all, without a name; with --above those that stand on them too) is run without a proof, compiled with
checks for bad accesses (`rt try --test`). Tests whose names begin with `refused_or_not_` run with each request for memory of their
calls refused in turn (tests/refuse_each.c, which is linked to them): in each crate that is named, and without a name in REFUSED. They
are proved too, where the libraries below their crate are built, built and run: gate/refused-memory.sh runs what is built,
crates/NAME/out/NAME_tests, over a `malloc` that refuses.
--only does one of the two. The last line counts the tests.
"""
import argparse
import os
import re
import shutil
import subprocess
import sys
import tempfile

import rooms
from rooms import CRATES, TOP

KEPT = "refused_or_not_"
# The crates whose tests of refused memory run with each request refused, where no crate is named: those of which it was seen.
REFUSED = {"av_cache", "av_context", "av_desk", "av_filter", "av_gate", "av_import", "av_pool", "av_script", "av_service", "av_store"}
COUNT = re.compile(r"^test result: \w+\. (\d+) passed; (\d+) failed", re.M)
FAILED = re.compile(r"^test \S+ \.\.\. (?!ok$)|FAILED|^rt: |: error|error\[|fault|proved=no$", re.M)


def named(crate, prefix=""):
    """How many tests of a crate have a name that begins so."""
    count = 0
    for at, _, names in os.walk(f"{CRATES}/{crate}/src"):
        for name in names:
            with open(f"{at}/{name}", encoding="utf-8") as file:
                count += len(re.findall(rf"^ *#\[test\]\n *(?:pub )?fn {prefix}", file.read(), re.M))
    return count


def put_refusals(folder, report):
    """Puts C code into a crate's copy by which its tests are run with each request for memory refused. It adds the counts to a file."""
    os.makedirs(f"{folder}/c")
    with open(f"{TOP}/tests/refuse_each.c", encoding="utf-8") as file:
        code = file.read()
    with open(f"{folder}/c/refuse_each.c", "w", encoding="utf-8") as file:
        file.write(f'#define REPORT "{report}"\n{code}')


def refused(report):
    """Of each test that has told so how many requests were refused to it, and the processor seconds which that took."""
    if not os.path.isfile(report):
        return []
    with open(report, encoding="utf-8") as file:
        return [(int(count), int(millis) / 1000) for _, count, millis in map(str.split, file)]


class Runs:
    """Two runs a crate: (NAME, "run") without a proof, in a copy of it and those below, and (NAME, "built") of what has to be built, in a
    copy that has those tests alone."""

    def __init__(self, crates, room, times, refused_in):
        self.crates, self.room, self.times, self.refused_in = crates, room, times, refused_in
        self.passed = self.failed = 0
        words = f"tar -c --exclude=must-fail --exclude=out HANDLES crates.txt crates | tar -x -C {room}"
        subprocess.run(["sh", "-c", words], cwd=TOP, check=True)
        subprocess.run([sys.executable, f"{TOP}/gate/strip_tests.py", "--keep", KEPT, room], check=True, stdout=subprocess.DEVNULL)

    def begin(self, key, jobs, ended):
        crate, kind = key
        os.makedirs(f"{CRATES}/{crate}/out", exist_ok=True)
        log = f"{CRATES}/{crate}/out/tests-{kind}.log"
        if kind == "run":
            folder = rooms.put_up(f"{self.room}/run/{crate}", crate, self.crates)
            if crate in self.refused_in:
                put_refusals(folder, f"{self.room}/run/{crate}/refused")
            return rooms.Job(["rt", "try", "--test", "--seconds", "300"], folder, log, ended)
        folder = f"{self.room}/crates/{crate}"
        os.makedirs(f"{folder}/out")
        if os.path.isdir(f"{CRATES}/{crate}/out/incremental"):
            shutil.copytree(f"{CRATES}/{crate}/out/incremental", f"{folder}/out/incremental")
        words = rooms.prover_words("build", crate, self.crates, jobs=jobs)
        words += ["--test", "--toolchain", f"{rooms.kit()}/toolchain", "-o", f"out/{crate}_tests.o"]
        return rooms.Job(words, folder, log, ended, jobs)

    def run_built(self, crate):
        """Links the tests that were built, runs them, and gives what they said."""
        made, to = f"{self.room}/crates/{crate}/out/{crate}_tests", f"{CRATES}/{crate}/out/{crate}_tests"
        if not rooms.linked(made):
            return "rt: the tests could not be linked\n"
        shutil.move(made, to)
        ran = subprocess.run([f"{rooms.kit()}/bin/rattle-test", "--seconds", "60", to], capture_output=True, text=True, errors="replace")
        return ran.stdout + ran.stderr

    def ended_with(self, key, job):
        crate, kind = key
        said = job.said() + (self.run_built(crate) if kind == "built" and job.status == 0 else "")
        count = COUNT.search(said)
        passed, wanted = int(count[1]) if count else 0, named(crate, KEPT if kind == "built" else "")
        how, is_well = "proved, built and run", job.status == 0 and passed == wanted
        if kind == "run":
            told = refused(f"{self.room}/run/{crate}/refused")
            counts, used = sum(count for count, _ in told), sum(seconds for _, seconds in told)
            how = f"run, {len(told)} of them with {counts} requests for memory refused in turn ({used:.1f} processor seconds)" if told else "run"
            is_well = is_well and len(told) == (named(crate, KEPT) if crate in self.refused_in else 0)
        self.passed += passed
        self.failed += max(wanted - passed, 0 if is_well else 1)
        print(f"{crate}: {passed} of {wanted} tests passed, {how}, {job.seconds:.0f} s, {job.used:.0f} processor seconds", flush=True)
        if not is_well:
            print("\n".join([line for line in said.split("\n") if FAILED.search(line)][-30:]), flush=True)
        rooms.note(self.times, f"tests-{kind}", crate, passed, job.seconds, job.used, job.mebibytes)
        return is_well


def main(words):
    asked = argparse.ArgumentParser(usage=__doc__.split("\n")[2].partition(": ")[2])
    asked.add_argument("--times")
    asked.add_argument("--above", action="store_true")
    asked.add_argument("--only", choices=("run", "built"))
    asked.add_argument("crates", nargs="*")
    asked = asked.parse_args(words)
    crates = rooms.listed()
    chosen = [it for name in asked.crates for it in (rooms.above(crates, name) if asked.above else [name])] or crates
    wanted = [it for it in crates if it in chosen and named(it)]
    has_libraries = {it: all(os.path.isdir(rooms.library(low)) for low in rooms.below(crates, [it]) if low != it) for it in wanted}
    built = [it for it in wanted if named(it, KEPT) and has_libraries[it]]
    os.makedirs(f"{TOP}/out", exist_ok=True)
    # (so that `rt try` links what put_refusals puts into a copy of a crate; no crate of the repository has C code)
    os.environ["RT_ALLOW_C"] = "1"
    with tempfile.TemporaryDirectory(prefix="tests-", dir=f"{TOP}/out", ignore_cleanup_errors=True) as room:
        runs = Runs(crates, room, asked.times, {it for it in wanted if named(it, KEPT) and (asked.crates or it in REFUSED)})
        tasks = {} if asked.only == "built" else {(it, "run"): (300, []) for it in wanted}
        if asked.only != "run":
            tasks.update({(it, "built"): (rooms.size(it), []) for it in built})
        rooms.in_lanes(tasks, runs.begin, runs.ended_with, rooms.processors())
    print(f"{runs.passed} passed, {runs.failed} failed", flush=True)
    return 1 if runs.failed else 0


sys.exit(main(sys.argv[1:]))
