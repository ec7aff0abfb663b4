#!/usr/bin/env python3
"""Times the start of a scan: `avscan scan` of a file of one byte, so that almost all of it is the reading of the set and the build of its
automaton, and `clamscan` with the same signatures where it is installed, in one run.

usage: start.py PROGRAM

The sets are of random patterns of one length each; in the last each pattern is bound to a span. Of each the least of ROUNDS runs counts,
for clamscan the least of 3: the time gone by, the processor's time, and the peak of memory. A line for each set says whether avscan took
at most GOAL milliseconds. The exit status is 1 where a scan did not find the file clean, else 0."""
import os, random, shutil, subprocess, sys, tempfile

ROUNDS = 25
GOAL = 20
# How many patterns of how many bytes, and whether they are bound.
SETS = ((10, 16, False), (1024, 16, False), (256, 64, False), (1024, 16, True))
HERE = os.path.dirname(os.path.abspath(__file__))


def put(folder, name, text):
    path = os.path.join(folder, name)
    with open(path, "wb") as file:
        file.write(text)
    return path


def cost(spawn, out, command, rounds):
    """The least time gone by and processor time in milliseconds, the peak in KiB, and what the last run printed."""
    runs = [subprocess.run([spawn, out, *command], stdout=subprocess.PIPE, stderr=subprocess.DEVNULL, check=True).stdout.split() for _ in range(rounds)]
    with open(out, "rb") as file:
        return min(float(run[0]) for run in runs) / 1e6, min(float(run[1]) for run in runs) / 1e6, max(int(run[2]) for run in runs), file.read()


def main():
    program = os.path.abspath(sys.argv[1])
    rng = random.Random("start")
    wrong = 0
    print(f"load {os.getloadavg()[0]:.2f} on {os.cpu_count()} processors; the least of {ROUNDS} runs")
    with tempfile.TemporaryDirectory() as folder:
        spawn, out = os.path.join(folder, "spawn"), os.path.join(folder, "out")
        subprocess.run(["cc", "-O2", "-o", spawn, os.path.join(HERE, os.pardir, "spawn.c")], check=True)
        file = put(folder, "file", b"A")
        for count, length, is_bound in SETS:
            patterns = [rng.randbytes(length).hex() for _ in range(count)]
            name, format, span = (f"{count:,} of {length} bytes" + ", bound" * is_bound, 1 + is_bound, " 1 999" * is_bound)
            signatures = put(folder, "set.avsig", f"avsig {format}\nversion 1\n".encode() + b"".join(f"s{i} {p}{span}\n".encode() for i, p in enumerate(patterns)))
            gone, used, peak, printed = cost(spawn, out, [program, "scan", signatures, file], ROUNDS)
            if printed != f"{file} clean\n".encode():
                print(f"wrong: {printed[:200]}")
                wrong = 1
            line = f"{name:24} {gone:6.1f} ms, of the processor's {used:6.1f}, peak {peak:7,} KiB"
            if shutil.which("clamscan") and not is_bound:
                database = put(folder, "set.ndb", b"".join(f"s{i}:0:*:{p}\n".encode() for i, p in enumerate(patterns)))
                other = cost(spawn, out, ["clamscan", "--no-summary", f"--database={database}", file], 3)
                line += f"; clamscan {other[0]:6.1f} ms, peak {other[2]:7,} KiB"
            print(f"{line}; goal {GOAL} ms: {'met' if gone <= GOAL else 'missed'}", flush=True)
    print(f"load {os.getloadavg()[0]:.2f} at the end")
    return wrong


sys.exit(main())
