#!/usr/bin/env python3
"""Times cold opens through two builds of `avscan host`, whose runs take turns: what a change costs an open.

usage: compare.py PROGRAM OTHER [ROUNDS]

The files, the signatures and what a time is are those of run.py, with one opener and one worker; of each build the least of the rounds
(9) counts."""
import os, random, sys, tempfile

from run import SIZES, build_spawn, host, write_files, write_rules


def times(spawn, programs, rules, names, rounds):
    """The least seconds of an open, by each program."""
    alone, whole = ([float("inf")] * len(programs) for _ in range(2))
    for _ in range(rounds):
        for i, program in enumerate(programs):
            alone[i] = min(alone[i], host(spawn, program, rules, names[:1], 1)[0])
            whole[i] = min(whole[i], host(spawn, program, rules, names, 1)[0])
    return [(many - one) / (len(names) - 1) for one, many in zip(alone, whole)]


def main():
    programs, rounds = [os.path.abspath(it) for it in sys.argv[1:3]], int(sys.argv[3]) if len(sys.argv) > 3 else 9
    chance = random.Random(3)
    with tempfile.TemporaryDirectory() as folder:
        spawn = build_spawn(folder)
        rules = write_rules(folder, [chance.randbytes(16) for _ in range(1000)])
        print(f"load {os.getloadavg()[0]:.2f} on {os.cpu_count()} processors; the least of {rounds} rounds")
        for size, count, _ in SIZES:
            names = write_files(folder, size, count, chance)
            one, other = times(spawn, programs, rules, names, rounds)
            print(f"{size:>9,} bytes: {one * 1e6:9.1f} us an open, {other * 1e6:9.1f} us by the other build, {one / other - 1:+.1%}", flush=True)
            for name in names:
                os.unlink(name)
        print(f"load {os.getloadavg()[0]:.2f} at the end")


main()
