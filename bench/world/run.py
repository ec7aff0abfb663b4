#!/usr/bin/env python3
"""Times `avscan run` on scripts of opens, deliveries, works, replies and writes, over 1,000 and over 65,536 streams.

One round opens a stream, scans it whole through both cores, takes the reply and writes the stream again: seven steps. Each script comes
whole (1 MiB), as a half and as a quarter. Twice the steps may cost at most 2.3 times as much: the look-ups grow by a logarithm, and no
step's cost grows with the history. Prints the least time of some rounds for each size, the ratios, the time of 10,000 steps, and the peak
of the process's memory, for each step and beside what history, answers and frames hold (goal: twice that)."""
import os, subprocess, sys, tempfile

SIZE = 1_048_576
# bytes of an event, an answer and a message in a world's lists (their `size_of`), and of the least block that a list of bytes takes
EVENT, ANSWER, MESSAGE, BLOCK = 64, 56, 56, 32
ROUNDS = 5
GOAL = 2.3
STEPS_GOAL = 0.2


def name(i):
    digits = "0123456789abcdefghijklmnopqrstuvwxyz"
    return "".join(digits[i // 36**k % 36] for k in (3, 2, 1, 0))


def script(streams, size):
    """A script of at most so many bytes, and its count of steps."""
    lines = ["volume 1 closed", "publish 1 58585858", "connect", "up 1"] + [f"create {name(i)}" for i in range(streams)]
    lines += [f"write {name(i)} 0 41424344" for i in range(min(streams, 1_000))]
    length = sum(len(line) + 1 for line in lines)
    at = 0
    while True:
        stream = name(at * 7 % min(streams, 1_000) if streams <= 1_000 else at * 40_503 % streams)
        down, up = 2 * at + 1, 2 * at + 2
        cycle = [f"write {stream} 0 41424344", f"open {stream}", f"down {down}", f"up {up}", f"down {down + 1}", f"work {at + 1}", f"up {up + 1}"]
        more = sum(len(line) + 1 for line in cycle)
        if length + more > size:
            return "\n".join(lines) + "\n", len(lines) - 1
        lines += cycle
        length += more
        at += 1


def held(text):
    """Bytes that history, answers and frames hold at the end: an open's round has four frames, one of them with bytes, and an answer."""
    words = [line.split()[0] for line in text.splitlines()[1:]]
    opens = words.count("open")
    named = opens + words.count("create") + 2 * words.count("write") + words.count("publish")
    return len(words) * EVENT + named * BLOCK + opens * (4 * MESSAGE + BLOCK + ANSWER)


def measure(spawn, program, path):
    """Seconds gone by, and the peak of the process's memory in KiB."""
    done = subprocess.run([spawn, os.devnull, program, "run", path], stdout=subprocess.PIPE, check=True)
    gone, _, peak, status = done.stdout.split()
    if int(status) != 0:
        sys.exit(f"avscan ended with status {int(status)}")
    return float(gone) * 1e-9, int(peak)


def sizes(spawn, program, folder, streams):
    """Times the whole, half and quarter of a script; the streams shrink with it where they take most of it."""
    times, rates = [], []
    for parts in (4, 2, 1):
        text, steps = script(streams if streams <= 1_000 else streams // parts, SIZE // parts)
        path = os.path.join(folder, f"{streams}-{parts}.avs")
        with open(path, "w") as file:
            file.write(text)
        rounds = [measure(spawn, program, path) for _ in range(ROUNDS)]
        least, peak = min(r[0] for r in rounds), max(r[1] for r in rounds)
        times.append((least, steps))
        rates.append(least / steps * 10_000)
        print(f"{streams:>6,} streams, 1/{parts}: {len(text):>9,} bytes, {steps:>7,} steps: {least * 1000:7.1f} ms, "
              f"{rates[-1] * 1000:6.1f} ms for 10,000 steps, peak {peak:>7,} KiB, {peak * 1024 // steps:>5,} bytes a step, {peak * 1024 / held(text):.1f} times what the lists hold")
    ratios = [(later[0] / earlier[0]) / (later[1] / earlier[1]) * 2 for earlier, later in zip(times, times[1:])]
    print(f"{streams:>6,} streams: twice the steps cost " + ", ".join(f"{r:.2f}" for r in ratios) + f" times the time (goal: at most {GOAL})")
    return max(ratios) <= GOAL and max(rates) <= STEPS_GOAL


def main():
    program = os.path.abspath(sys.argv[1])
    print(f"load {os.getloadavg()[0]:.2f} on {os.cpu_count()} processors; the least of {ROUNDS} rounds")
    with tempfile.TemporaryDirectory() as folder:
        spawn = os.path.join(folder, "spawn")
        source = os.path.join(os.path.dirname(os.path.abspath(__file__)), os.pardir, "spawn.c")
        subprocess.run(["cc", "-O2", "-o", spawn, source], check=True)
        met = [sizes(spawn, program, folder, streams) for streams in (1_000, 65_536)]
    sys.exit(0 if all(met) else 1)


main()
