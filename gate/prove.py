#!/usr/bin/env python3
"""Proves crates side by side, each over what earlier runs kept, and says what each took.

usage: prove.py [--jobs N] [--times FILE] [--until SECONDS] [--libraries] [--above] [CRATE ...]

Proves the named crates (all, without a name; all libraries, with --libraries; those that stand on the named ones too, with --above)
and what they stand on, as far as what their proofs make is not there as an earlier run made it: a library for the crates above, or a
program. As many are proved at once as there are processors and memory for them, those with the longest chain of crates above them first.
--jobs says how many processors to use, else all; --times adds a line a crate to a file. No crate is begun once the clock (seconds since
1970) is past --until.

As each crate ends, a line says how many are left and how long they may take, by the lines of their files and the pace so far; on a
terminal it is one line that moves.

Each crate is proved in one process, which keeps in out/ what it proves, so that the next run proves what has changed. Several processes
for one crate would each load all that it stands on, and take longer together.
"""
import argparse
import fcntl
import os
import re
import sys
import time

import rooms
from rooms import CRATES

# What is worth reading of a check that failed.
TOLD = re.compile(r"^error|: error|error\[|no proof|not proved")


class Pace:
    """How long the crates that are left may take, by their lines and those that were proved in a second so far."""

    def __init__(self, tasks, lanes):
        self.left, self.lanes, self.lines, self.seconds = dict(tasks), lanes, 0, 0

    def passed_over(self, crate):
        self.left.pop(crate)

    def proved(self, crate, seconds):
        self.lines += self.left.pop(crate)[0]
        self.seconds += seconds

    def told(self):
        """How many are left, and about how many minutes: those of the longest chain, or of all on so many processors."""
        tasks = {it: (size, [below for below in waits if below in self.left]) for it, (size, waits) in self.left.items()}
        if not tasks:
            return "none left"
        lines = max(sum(size for size, _ in tasks.values()) / self.lanes, *rooms.behind(tasks).values())
        minutes = -(-lines * self.seconds / max(self.lines, 1) // 60)
        return f"{len(tasks)} left, about {minutes:.0f} min"


class Proof:
    """Each crate is proved in its own folder, unless what its proof makes is there already."""

    def __init__(self, crates, times, pace):
        self.crates, self.times, self.keys, self.pace = crates, times, {}, pace
        self.proved, self.kept, self.failed, self.used = 0, 0, 0, 0

    def begin(self, crate, _jobs, ended):
        folder = f"{CRATES}/{crate}"
        os.makedirs(f"{folder}/out/rlib", exist_ok=True)
        self.keys[crate] = rooms.key(crate, self.crates)
        if rooms.is_made(crate, self.crates):
            return rooms.Job(["true"], folder, f"{folder}/out/prove.log", ended)
        words = rooms.prover_words("build", crate, self.crates)
        words += ["--toolchain", f"{rooms.kit()}/toolchain", "-o", f"out/{crate}.o"] if rooms.is_program(crate) else ["-o", rooms.library(crate)]
        return rooms.Job(words, folder, f"{folder}/out/prove.log", ended)

    def ended_with(self, crate, job):
        self.used += job.used
        if job.words == ["true"]:
            self.kept += 1
            self.pace.passed_over(crate)
            return True
        is_well = not job.status and (not rooms.is_program(crate) or rooms.linked(rooms.made(crate)))
        self.pace.proved(crate, job.seconds)
        word = "proved" if is_well else "NOT PROVED"
        moves = is_well and sys.stdout.isatty()
        line = f"{crate}: {word}, {job.seconds:.0f} s, {job.used:.0f} processor seconds, {job.mebibytes} MiB; {self.pace.told()}"
        print(f"\r\x1b[K{line}" if sys.stdout.isatty() else line, end="" if moves else "\n", flush=True)
        rooms.note(self.times, "proof", crate, 1, job.seconds, job.used, job.mebibytes)
        if not is_well:
            self.failed += 1
            print("\n".join([line for line in job.said().split("\n") if TOLD.search(line)][-40:]), flush=True)
            return False
        self.proved += 1
        # (a source that was changed meanwhile gives the crate another key, so that it is proved again)
        rooms.note_made(crate, self.keys[crate])
        return True


def main(words):
    asked = argparse.ArgumentParser(usage=__doc__.split("\n")[2].partition(": ")[2])
    asked.add_argument("--jobs", type=int, default=rooms.processors())
    asked.add_argument("--times")
    asked.add_argument("--until", type=float, default=float("inf"))
    asked.add_argument("--libraries", action="store_true")
    asked.add_argument("--above", action="store_true")
    asked.add_argument("crates", nargs="*")
    asked = asked.parse_args(words)
    crates, begun = rooms.listed(), time.time()
    unknown = [it for it in asked.crates if it not in crates]
    if unknown:
        print(f"prove.py: crates.txt has no crate {unknown[0]}", file=sys.stderr)
        return 2
    named = [it for name in asked.crates for it in (rooms.above(crates, name) if asked.above else [name])]
    wanted = rooms.below(crates, named or [it for it in crates if not (asked.libraries and rooms.is_program(it))])
    os.makedirs(f"{rooms.TOP}/out", exist_ok=True)
    with open(f"{rooms.TOP}/out/prove-lock", "w", encoding="utf-8") as lock:
        try:
            fcntl.flock(lock, fcntl.LOCK_EX | fcntl.LOCK_NB)
        except BlockingIOError:
            print("prove.py: waiting for another run to end", file=sys.stderr)
            fcntl.flock(lock, fcntl.LOCK_EX)
        tasks = {it: (rooms.size(it), crates[it]) for it in wanted}
        proof = Proof(crates, asked.times and os.path.abspath(asked.times), Pace(tasks, asked.jobs))
        left = rooms.in_lanes(tasks, proof.begin, proof.ended_with, asked.jobs, asked.until)
    if left:
        print(f"not tried, for want of time or of what they stand on: {' '.join(left)}", flush=True)
    seconds = time.time() - begun
    print("\n" * (sys.stdout.isatty() and proof.proved > 0), end="")
    print(f"proved {proof.proved} of {len(wanted)} crates, {proof.kept} stood as they were, {seconds:.0f} s, {proof.used:.0f} processor seconds", flush=True)
    return 0 if not proof.failed and (not left or time.time() > asked.until) else 1


sys.exit(main(sys.argv[1:]))
