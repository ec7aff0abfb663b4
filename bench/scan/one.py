#!/usr/bin/env python3
"""Times a scan of one large file: `avscan scan` with 1, 2 and 4 threads, and in the same run `rg -uuu -a -F` for the same strings with as
many threads, `grep -F` and `yara`, where they are installed.

usage: one.py PROGRAM

The file has GIB GiB of program code, over and over, and lies in memory. The sets are of random patterns of 16 bytes, for rg and grep as
hexadecimal words, and of patterns that are cut from other code, for avscan alone. Nothing is found. Each command is run once, so that
the file is in memory, and then ROUNDS times; the least time gone by counts. A line for each set says whether avscan with 4 threads is GOAL
times as fast as with one. The exit status is 1 where avscan did not find the file clean, else 0."""
import os, random, shutil, subprocess, sys, tempfile

ROUNDS = 5
THREADS = (1, 2, 4)
GOAL = 3
GIB = 1
HERE = os.path.dirname(os.path.abspath(__file__))


def put(folder, name, text):
    path = os.path.join(folder, name)
    with open(path, "wb") as file:
        file.write(text)
    return path


def code(path):
    with open(path, "rb") as file:
        return file.read()


def seconds(spawn, out, command, fine):
    """The least time gone by, and the peak in KiB."""
    runs = []
    for _ in range(1 + ROUNDS):
        run = subprocess.run([spawn, out, *command], stdout=subprocess.PIPE, stderr=subprocess.DEVNULL, check=True).stdout.split()
        if int(run[3]) not in fine:
            return None
        runs.append(run)
    return min(float(run[0]) for run in runs[1:]) / 1e9, max(int(run[2]) for run in runs)


def peers(folder, patterns, file):
    words = put(folder, "words", b"".join(pattern.hex().encode() + b"\n" for pattern in patterns))
    yield "grep -F", ["grep", "-c", "-F", "-f", words, file]
    if shutil.which("rg"):
        for threads in THREADS:
            yield f"rg -uuu -a -F -j {threads}", ["rg", "-uuu", "-a", "-c", "-F", "-j", str(threads), "-f", words, file]
    if shutil.which("yara"):
        rules = put(folder, "rules.yar", b"".join(b"rule s%d { strings: $a = { %s } condition: $a }\n" % (i, p.hex().encode()) for i, p in enumerate(patterns)))
        yield "yara -p 4", ["yara", "-p", "4", rules, file]


def main():
    program = os.path.abspath(sys.argv[1])
    rng = random.Random("one")
    wrong = 0
    print(f"load {os.getloadavg()[0]:.2f} on {os.cpu_count()} processors; the least of {ROUNDS} runs")
    with tempfile.TemporaryDirectory() as folder:
        spawn, out = os.path.join(folder, "spawn"), os.path.join(folder, "out")
        subprocess.run(["cc", "-O2", "-o", spawn, os.path.join(HERE, os.pardir, "spawn.c")], check=True)
        of, other = code(shutil.which("python3.11") or sys.executable), code(os.path.realpath("/usr/bin/perl"))
        file = os.path.join(folder, "file")
        with open(file, "wb") as made:
            while made.tell() < GIB << 30:
                made.write(of)
            made.truncate(GIB << 30)
        sets = [(f"{count:,} random patterns", [rng.randbytes(16) for _ in range(count)], True) for count in (1, 10, 1000)]
        cut = []
        while len(cut) < 100:
            begin, length = rng.randrange(len(other) - 64), rng.randrange(8, 65)
            pattern = other[begin : begin + length]
            if len(set(pattern)) > 4 and pattern not in of:
                cut.append(pattern)
        sets.append(("100 patterns cut from other code", cut, False))
        for name, patterns, is_plain in sets:
            print(f"{name}, a file of {GIB << 30:,} bytes")
            signatures = put(folder, "set.avsig", b"avsig 1\nversion 1\n" + b"".join(b"s%d %s\n" % (i, p.hex().encode()) for i, p in enumerate(patterns)))
            took = {}
            for threads in THREADS:
                took[threads], peak = seconds(spawn, out, [program, "scan", "-j", str(threads), "--max-size", "2G", signatures, file], (0,))
                print(f"{f'avscan scan -j {threads}':22} {took[threads]:7.3f} s, {(GIB << 30) / took[threads] / 1e9:6.2f} GB/s, peak {peak:7,} KiB", flush=True)
                with open(out, "rb") as printed:
                    if printed.read() != f"{file} clean\n".encode():
                        print(f"wrong: avscan with {threads} threads")
                        wrong = 1
            for peer, command in peers(folder, patterns, file) if is_plain else ():
                cost = seconds(spawn, out, command, (0, 1))
                print(f"{peer:22} {cost[0]:7.3f} s, {(GIB << 30) / cost[0] / 1e9:6.2f} GB/s, peak {cost[1]:7,} KiB" if cost else f"{peer}: failed", flush=True)
            times = took[1] / took[4]
            print(f"{'met   ' if times >= GOAL else 'MISSED'} four threads: {times:.2f} times as fast as one, goal at least {GOAL}")
    print(f"load {os.getloadavg()[0]:.2f} at the end")
    return wrong


sys.exit(main())
