#!/usr/bin/env python3
"""Times `avscan run` on a script of 1 MiB, on half of it and on a quarter, in one run.

The script creates 65,536 streams and then spreads writes and cuts over them. Twice the work may cost at most 2.3 times as
much: the look-ups by name may grow by a logarithm and nothing else. Prints the least time of some rounds for each size, their
ratios, and the peak of the process's memory beside the bytes that the script makes the volume hold."""
import os, subprocess, sys, tempfile

CREATES = 65_536
SIZE = 1_048_576
ROUNDS = 5
GOAL = 2.3


def name(i):
    digits = "0123456789abcdefghijklmnopqrstuvwxyz"
    return "".join(digits[i // 36**k % 36] for k in (3, 2, 1, 0))


def script(parts):
    """The script for 1/parts of the whole, and how many bytes its names and contents come to."""
    creates, size = CREATES // parts, SIZE // parts
    lines = ["volume 1 closed"] + [f"create {name(i)}" for i in range(creates)]
    held = 4 * creates
    length = sum(len(line) + 1 for line in lines)
    at = 0
    while True:
        stream = at * 40_503 % creates
        line = f"cut {name(stream)} 0" if at % 4 == 3 else f"write {name(stream)} 0 41"
        if length + len(line) + 1 > size:
            return "\n".join(lines) + "\n", held + 3 * at // 4
        lines.append(line)
        length += len(line) + 1
        at += 1


def measure(spawn, program, path):
    """Seconds gone by, and the peak of the process's memory in KiB."""
    done = subprocess.run([spawn, os.devnull, program, "run", path], stdout=subprocess.PIPE, check=True)
    gone, _, peak, status = done.stdout.split()
    if int(status) != 0:
        sys.exit(f"avscan ended with status {int(status)}")
    return float(gone) * 1e-9, int(peak)


def main():
    program = os.path.abspath(sys.argv[1])
    print(f"load {os.getloadavg()[0]:.2f} on {os.cpu_count()} processors; the least of {ROUNDS} rounds")
    times = []
    with tempfile.TemporaryDirectory() as folder:
        spawn = os.path.join(folder, "spawn")
        source = os.path.join(os.path.dirname(os.path.abspath(__file__)), os.pardir, "spawn.c")
        subprocess.run(["cc", "-O2", "-o", spawn, source], check=True)
        for parts in (4, 2, 1):
            text, held = script(parts)
            path = os.path.join(folder, f"{parts}.avs")
            with open(path, "w") as file:
                file.write(text)
            rounds = [measure(spawn, program, path) for _ in range(ROUNDS)]
            least, peak = min(r[0] for r in rounds), max(r[1] for r in rounds)
            times.append(least)
            print(f"1/{parts}: {len(text):>9,} bytes, {text.count(chr(10)):>7,} lines: {least * 1000:7.1f} ms, "
                  f"peak {peak:>7,} KiB, names and contents {held:>9,} bytes")
    ratios = [later / earlier for earlier, later in zip(times, times[1:])]
    print("ratios " + ", ".join(f"{r:.2f}" for r in ratios) + f" (goal: at most {GOAL})")
    sys.exit(0 if max(ratios) <= GOAL else 1)


main()
