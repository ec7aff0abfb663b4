#!/usr/bin/env python3
"""Times opens that are answered from their contexts through a gate, with 1, 2 and 4 openers; looks at a ticket and at the floor; and
`close`. Requests for memory and wake-ups of other threads are counted in separate runs.

gatetime.txt is the program that is timed. It is built in a copy of the repository, with what proofs.txt has, so that the gate need
not prove it; the copy takes along what the crates' checks keep in out/. Requests for memory are counted by tests/fail_nth.c between two marks, wake-ups by strace,
where it is installed."""
import os, subprocess, sys, tempfile

ROUNDS = 5
PASSES = 5
OPENS = 100_000
LOOKS = 10_000_000
OPENERS = (1, 2, 4)
# Events, and receipts among them.
CLOSES = ((100_000, 0), (100_000, 50_000), (1_048_576, 0), (1_048_576, 500_000))
USED = ("av_base", "av_store", "av_frame", "av_pend", "av_filter", "av_ends", "av_gate", "anyhow")
MOST_OPEN, MOST_LOOK, MOST_CLOSE = 1_000, 50, 10
HERE = os.path.dirname(os.path.abspath(__file__))
sys.path.insert(0, os.path.dirname(HERE))
import timed


def build(folder):
    timed.check("av_gate")
    return timed.build(os.path.join(folder, "copy"), os.path.join(HERE, "gatetime.txt"), USED, ["open", "1", "10", "1", "0"])


def run(*words, **more):
    """The nanoseconds that the program prints."""
    return int(subprocess.run([str(word) for word in words], stdout=subprocess.PIPE, check=True, text=True, **more).stdout)


def requests(folder, library, program, opens):
    """Requests for memory that an open makes, as the mean of so many."""
    report = os.path.join(folder, "report")
    environment = dict(os.environ, LD_PRELOAD=library, FAIL_MARKED="1", FAIL_REPORT=report)
    run(program, "open", 1, opens, 1, 1, env=environment)
    with open(report) as file:
        return int(file.read().split()[1]) / opens


def wakes(folder, program, opens):
    """How often a thread is woken or waits in so many opens of one opener, or None where there is no strace."""
    report = os.path.join(folder, "trace")
    try:
        run("strace", "-f", "-e", "trace=futex", "-o", report, program, "open", 1, opens, 1, 0)
    except (OSError, subprocess.CalledProcessError):
        print("no strace: wake-ups are not counted")
        return None
    with open(report) as file:
        return sum("futex(" in line for line in file)


def goal(what, holds, value, wanted):
    print(f"{'met   ' if holds else 'MISSED'} {what}: {value}, goal {wanted}")


def main():
    with tempfile.TemporaryDirectory() as folder:
        program, library = build(folder), timed.counter(folder)
        print(f"load {os.getloadavg()[0]:.2f} on {os.cpu_count()} processors; the least of {PASSES} passes of {ROUNDS} rounds")
        took = {}
        for _ in range(PASSES):
            for openers in OPENERS:
                least = run(program, "open", openers, OPENS, ROUNDS, 0)
                took[openers] = min(least, took.get(openers, least))
        looks = {look: min(run(program, look, LOOKS, ROUNDS) for _ in range(PASSES)) / LOOKS for look in ("poll", "floor")}
        asked = None if library is None else requests(folder, library, program, OPENS)
        woken = wakes(folder, program, OPENS)
        closes = {close: run(program, "close", *close) / 1e9 for close in CLOSES}
        print(f"load {os.getloadavg()[0]:.2f} at the end")
    for openers in OPENERS:
        print(f"{openers} openers, {OPENS:,} warm opens each: {took[openers] / OPENS:,.0f} ns an open of each, {openers * OPENS / took[openers] * 1e3:.2f} million a second together")
    if asked is not None:
        print(f"a warm open makes {asked:.2f} requests for memory")
    for look, nanoseconds in looks.items():
        print(f"{look}: {nanoseconds:.1f} ns")
    for (events, receipts), seconds in closes.items():
        print(f"close of {events:,} events of 4 seats with {receipts:,} receipts: {seconds:.3f} s")
    goal("a warm open, one opener", took[1] / OPENS <= MOST_OPEN, f"{took[1] / OPENS:.0f} ns", f"at most {MOST_OPEN} ns")
    if woken is not None:
        goal(f"wake-ups and waits in {OPENS:,} warm opens of one opener", woken == 0, woken, "none")
    for look, nanoseconds in looks.items():
        goal(look, nanoseconds <= MOST_LOOK, f"{nanoseconds:.1f} ns", f"at most {MOST_LOOK} ns")
    goal("four openers together, times the opens a second of one", 4 * took[1] >= took[4], f"{4 * took[1] / took[4]:.2f}", "at least 1")
    for (events, receipts), seconds in closes.items():
        goal(f"close of {events:,} events with {receipts:,} receipts", seconds <= MOST_CLOSE, f"{seconds:.3f} s", f"at most {MOST_CLOSE} s")


main()
