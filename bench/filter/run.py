#!/usr/bin/env python3
"""Times the filter's events at 64, 1,024 and 65,536 streams, and counts their requests for memory in separate runs.

filtertime.txt is the program that is timed: it fills a volume, lets the filter hold questions and opens near its limits, brings
streams to where an event finds them, and times a batch of that event; then each question of the batch is ended. Streams are taken in
an order that goes all over the volume, and in a second table the same 16 streams have all events. It is built in a copy of the repository, so that the gate need not prove it; the copy takes
along what the crates' checks keep in out/. Requests for memory are counted by tests/fail_nth.c between the marks of each batch."""
import os, subprocess, sys, tempfile

ROUNDS = 9
PASSES = 7
COUNTED = 2
STREAMS = (64, 1_024, 65_536)
USED = ("av_base", "av_store", "av_frame", "av_cache", "av_pend", "av_context", "av_filter_table", "av_filter", "anyhow")
# What each event is called, and the answers and messages that one gives out.
EVENTS = {
    "context": ("open from its context", 1, 0),
    "asked": ("open pended anew, cache full", 0, 1),
    "asked-empty": ("open pended anew, cache empty", 0, 1),
    "joined": ("open pended under a question", 0, 0),
    "write": ("write under a question", 0, 2),
    "read": ("read of 4,096 bytes", 0, 1),
    "reply": ("reply with 1 open", 1, 0),
    "reply-100": ("reply with 100 opens", 100, 0),
    "timeout": ("timeout with 1 open", 1, 1),
    "disconnect": ("disconnect, 1,000 opens of 50 questions", 1_000, 0),
    "disconnect-each": ("disconnect, 1,000 opens, each its question", 1_000, 0),
}
MOST_CONTEXT, MOST_TIMES, MOST_DISCONNECT = 300, 2, 0.3
HERE = os.path.dirname(os.path.abspath(__file__))
sys.path.insert(0, os.path.dirname(HERE))
import timed


def build(folder):
    timed.check("av_filter")
    words = ["context", "64", "1", "0", "0"]
    return timed.build(os.path.join(folder, "copy"), os.path.join(HERE, "filtertime.txt"), USED, words)


def run(program, event, streams, rounds, few, marked, **more):
    """Nanoseconds of the best round, the events of a round, and the answers and messages of all rounds; and what was held."""
    words = [program, event, str(streams), str(rounds), str(int(few)), str(int(marked))]
    lines = subprocess.run(words, stdout=subprocess.PIPE, check=True, text=True, **more).stdout.splitlines()
    return [int(word) for word in lines[-1].split()], lines[:-1]


def nanoseconds(program, event, streams, few):
    """Nanoseconds an event, and what was held. What the events gave out is looked at."""
    (least, events, gave, sent), held = run(program, event, streams, ROUNDS, few, False)
    _, answers, messages = EVENTS[event]
    if (gave, sent) != (answers * events * ROUNDS, messages * events * ROUNDS):
        sys.exit(f"{event} at {streams} streams gave {gave} answers and {sent} messages")
    return least / events, held


def requests(folder, library, program, event, streams, few):
    """Requests for memory that an event makes, as the mean of some rounds."""
    report = os.path.join(folder, "report")
    environment = dict(os.environ, LD_PRELOAD=library, FAIL_MARKED="1", FAIL_REPORT=report)
    (_, events, _, _), _ = run(program, event, streams, COUNTED, few, True, env=environment)
    with open(report) as file:
        return int(file.read().split()[1]) / (events * COUNTED)


def cells(few):
    """The event and the count of streams of each cell of a table."""
    for event in EVENTS:
        for streams in STREAMS:
            if not (few and event.startswith("disconnect")) and (event != "disconnect-each" or streams >= 1_000):
                yield event, streams


def measured(folder, library, program):
    """For each cell, by whether the streams are few: nanoseconds, the least of all passes, requests, and what was held."""
    took, asked, held = {}, {}, {}
    for number in range(PASSES):
        for few in (False, True):
            for cell in cells(few):
                least, held[few, cell] = nanoseconds(program, *cell, few)
                took[few, cell] = min(least, took.get((few, cell), least))
                if number == 0 and library is not None:
                    asked[few, cell] = requests(folder, library, program, *cell, few)
    return took, asked, held


def table(took, asked, few):
    print(f"{'the same 16 streams' if few else 'streams all over the volume':42}" + "".join(f"{streams:>12,} streams" for streams in STREAMS))
    for event, (name, _, _) in EVENTS.items():
        line = ""
        for streams in STREAMS:
            cell = few, (event, streams)
            requests = f" ({asked[cell]:5.2f})" if cell in asked else " " * 8
            line += f"{took[cell]:>12,.0f}{requests}" if cell in took else f"{'-':>20}"
        if any((few, (event, streams)) in took for streams in STREAMS):
            print(f"{name:42}{line}")


def goal(what, value, most, unit):
    print(f"{'met   ' if value <= most else 'MISSED'} {what}: {value:.2f}{unit}, goal at most {most}{unit}")


def goals(took, asked, few):
    which = ", the same 16" if few else ""
    for streams in STREAMS:
        cell = few, ("context", streams)
        goal(f"open from its context{which}, {streams:,} streams", took[cell], MOST_CONTEXT, " ns")
        if cell in asked:
            goal(f"its requests for memory{which}, {streams:,} streams", asked[cell], 1, "")
    for event, (name, _, _) in EVENTS.items():
        if (few, (event, 64)) in took:
            times = took[few, (event, 65_536)] / took[few, (event, 64)]
            goal(f"{name}{which}, 65,536 streams, times that with 64", times, MOST_TIMES, "")
    for event, streams in cells(few):
        if event.startswith("disconnect"):
            goal(f"{EVENTS[event][0]}, {streams:,} streams", took[few, (event, streams)] / 1e6, MOST_DISCONNECT, " ms")


def main():
    with tempfile.TemporaryDirectory() as folder:
        program, library = build(folder), timed.counter(folder)
        print(f"load {os.getloadavg()[0]:.2f} on {os.cpu_count()} processors; the least of {PASSES} passes of {ROUNDS} rounds")
        took, asked, held = measured(folder, library, program)
        least, events = min(run(program, "look", 0, ROUNDS, False, False)[0][:2] for _ in range(PASSES))
        print(f"load {os.getloadavg()[0]:.2f} at the end")
    print("nanoseconds (requests for memory) an event")
    table(took, asked, False)
    table(took, asked, True)
    print(f"a look of a full cache that hits, alone: {least / events:.0f} nanoseconds")
    for event in ("asked", "asked-empty", "reply-100"):
        for streams in STREAMS:
            print("".join(f"{EVENTS[event][0]}, held: {line[2:]}" for line in held[False, (event, streams)]))
    goals(took, asked, False)
    goals(took, asked, True)


main()
