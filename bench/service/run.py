#!/usr/bin/env python3
"""Times the scanning service in one thread, against one scan of the same bytes at once in the same run.

A content of 1 byte, 4 KiB, 64 KiB and 1 MiB is judged through a Scan, Chunks of 4,096 bytes and works; and 256 contents of 64 KiB
are judged with 1, 16 and 256 jobs at a time that get their chunks in turn. The messages are made beforehand: what is timed is the
service's calls with the copy of each chunk into its work, and the scan. servicetime.txt is the program that is timed. It is built
in a copy of the repository, so that the gate need not prove it; the copy takes along what the crates' checks keep in out/."""
import os, subprocess, sys, tempfile

ROUNDS = 9
USED = ("av_base", "av_sigset", "av_match", "av_frame", "av_cache", "av_service", "anyhow")
MOST_TIMES, MOST_NANOSECONDS, MOST_RISE = 1.5, 2000, 1.25
HERE = os.path.dirname(os.path.abspath(__file__))
sys.path.insert(0, os.path.dirname(HERE))
import timed


def build(folder):
    timed.check("av_service")
    return timed.build(os.path.join(folder, "copy"), os.path.join(HERE, "servicetime.txt"), USED, ["1"])


def goal(what, value, most, unit):
    print(f"{'met   ' if value <= most else 'MISSED'} {what}: {value:.2f}{unit}, goal at most {most}{unit}")


def main():
    with tempfile.TemporaryDirectory() as folder:
        program = build(folder)
        print(f"load {os.getloadavg()[0]:.2f} on {os.cpu_count()} processors; the least of {ROUNDS} rounds")
        out = subprocess.run([program, str(ROUNDS)], stdout=subprocess.PIPE, check=True, text=True).stdout
        print(f"load {os.getloadavg()[0]:.2f} at the end")
    rows = [[word if i == 0 else int(word) for i, word in enumerate(line.split())] for line in out.splitlines()]
    served, chunk = {}, {}
    for kind, size, count, *times in rows:
        if kind == "length":
            whole, through = (t / count for t in times)
            served[size] = through, through / whole
            print(f"{size:>9,} bytes: at once {whole / 1000:9.2f} us, through the service {through / 1000:9.2f} us, {through / whole:6.2f} times")
        else:
            chunk[size] = times[0] / count
            print(f"{size:>9} jobs in turn: {chunk[size] / 1000:.3f} us a chunk")
    for size in (65_536, 1_048_576):
        goal(f"{size:,} bytes, times the scan at once", served[size][1], MOST_TIMES, "")
    goal("1 byte", served[1][0], MOST_NANOSECONDS, " ns")
    for jobs in (16, 256):
        goal(f"a chunk with {jobs} jobs, times that with 1", chunk[jobs] / chunk[1], MOST_RISE, "")


main()
