#!/usr/bin/env python3
"""Times scanning: av_match alone beside other scanners (alone.py), and `avscan scan` whole beside grep, yara and clamscan, all in one run
on the same sets and files (cases.py).

The whole program's scan is timed by difference: `avscan scan` is given one file 256 times and 8 times, and the processor time of the 248
files between is divided by 56. That takes away the start of the process and the build of the automaton; the reading of the file
stays in. What reading costs is timed in the same way on a file that has a pattern in its first KiB, which is read whole and scanned
no further. The others are timed by difference too, with their reading in.

Everything is the least of some rounds of processor time, not of time gone by, since the machine may be shared; the goals in
milliseconds and those of scanning alone are of time gone by. Prints whether each goal was met. The exit status is 1 where an
answer was wrong, else 0. With the word `alone` after the program only scanning alone is timed."""
import os, random, re, shutil, subprocess, sys, tempfile

import alone, ranged
from cases import KINDS, MIB, Case, ordinary_files, put, sets_of

ROUNDS = 9
MANY, FEW = 256, 8
WHOLE = ("r16-1", "r16-10", "r16-100", "r16-1000")
HERE = os.path.dirname(os.path.abspath(__file__))


# Running a command.

def told(answer):
    """How the program prints an answer: it names the signature too."""
    words = answer.split()
    return answer if len(words) == 1 else " ".join(words[:2] + [f"s{words[1]}"] + words[2:])


class Runner:
    def __init__(self, folder, program):
        self.folder, self.program = folder, program
        self.spawn = self.compiled(os.path.join(os.pardir, "spawn"))
        self.out = os.path.join(folder, "out")

    def compiled(self, name):
        made = os.path.join(self.folder, os.path.basename(name))
        subprocess.run(["cc", "-O2", "-o", made, os.path.join(HERE, name + ".c")], check=True)
        return made

    def cost(self, *command):
        """Time gone by and processor time in seconds, the peak in KiB, and what was printed."""
        done = subprocess.run([self.spawn, self.out, *command], stdout=subprocess.PIPE, stderr=subprocess.DEVNULL, check=True)
        gone, used, peak, status = done.stdout.split()
        with open(self.out, "rb") as file:
            return float(gone) * 1e-9, float(used) * 1e-9, int(peak), int(status), file.read().decode("utf-8", "replace")

    def avscan(self, set_path, files, answers):
        """A scan whose lines are checked."""
        gone, used, peak, status, printed = self.cost(self.program, "scan", set_path, *files)
        wanted = "".join(f"{file} {told(answer)}\n" for file, answer in zip(files, answers))
        if status != 0 or printed != wanted:
            lines = [line for line in printed.splitlines() if line not in wanted][:1] or printed.splitlines()[:1]
            print(f"wrong: scan of {files[0]} under {set_path}: status {status}, printed {str(lines)[:200]}, wanted {answers[0]}")
            sys.exit(1)
        return gone, used, peak


# The peers: programs of their own, whose figures have their reading in.

class Command:
    """A program of its own, timed by the difference of two counts of files."""
    rounds, many, few = 2, 16, 4

    def __init__(self, runner):
        if not shutil.which(self.program):
            raise OSError(f"{self.program} is not installed")

    def seconds(self, case, kind, runner):
        many, few = (runner.cost(*self.command(case, [case.files[kind]] * n))[1] for n in (self.many, self.few))
        return max((many - few) / (self.many - self.few), 1e-9)


class Grep(Command):
    program = "grep"

    def command(self, case, files):
        put(case.base + ".patterns", b"\n".join(case.patterns) + b"\n")
        return ["env", "LC_ALL=C", "grep", "-a", "-c", "-F", "-f", case.base + ".patterns", *files]


class Yara(Command):
    program = "yara"

    def command(self, case, files):
        rules = "".join(f"rule s{i} {{ strings: $a = {{ {p.hex(' ')} }} condition: $a }}\n" for i, p in enumerate(case.patterns))
        put(case.base + ".yar", rules.encode())
        put(case.base + ".list", "".join(file + "\n" for file in files).encode())
        return ["yara", "-f", "-p", "1", "--scan-list", case.base + ".yar", case.base + ".list"]


class Clam(Command):
    program = "clamscan"
    rounds, many, few = 2, 6, 2

    def command(self, case, files):
        put(case.base + ".ndb", "".join(f"Test.S{i}:0:*:{p.hex()}\n" for i, p in enumerate(case.patterns)).encode())
        return ["clamscan", "--no-summary", "--disable-cache", "-d", case.base + ".ndb", *files]


def peers_here(runner):
    here = []
    for kind in (Grep, Yara, Clam):
        try:
            here.append(kind(runner))
        except (OSError, subprocess.CalledProcessError) as why:
            print(f"left out: {kind.program}: {why}")
    return here


# The goals.

class Goals:
    def __init__(self):
        self.lines = []

    def judge(self, what, figure, goal, at_least, unit="", digits=2):
        met = figure >= goal if at_least else figure <= goal
        missed = "" if met else f", missed by {abs(figure - goal) / goal * 100:.0f} %"
        self.lines.append(f"{'met   ' if met else 'MISSED'} {what}: {figure:.{digits}f}{unit}, goal "
                          f"{'at least' if at_least else 'at most'} {goal}{unit}{missed}")

    def unknown(self, what, why):
        self.lines.append(f"open   {what}: {why}")


# The measurements.

def sampled(runner, case, peers):
    """Seconds of a scan by kind, and by kind and peer, all kinds and all programs in each round."""
    counted, others = {}, {}
    for turn in range(ROUNDS):
        for kind in case.answers:
            for count in (MANY, FEW):
                used = runner.avscan(case.set, [case.files[kind]] * count, [case.answers[kind]] * count)[1]
                counted.setdefault((kind, count), []).append(used)
        for kind in KINDS:
            for peer in peers:
                if turn < peer.rounds:
                    others.setdefault((kind, peer.program), []).append(peer.seconds(case, kind, runner))
    ours = {kind: max((min(counted[kind, MANY]) - min(counted[kind, FEW])) / (MANY - FEW), 1e-9) for kind in case.answers}
    return ours, {key: min(seconds) for key, seconds in others.items()}


def throughput(runner, cases, peers, goals):
    """A row for each set and file; returns the seconds of a scan with its reading by set and kind."""
    whole, by_grep = {}, []
    print("\nGB/s of whole programs, with their reading; x: how many times the peer's speed avscan's is")
    print(f"{'set':10}{'file':7}{'avscan':>8} |" + "".join(f"{peer.program:>9}{'x':>6}" for peer in peers))
    for case in cases:
        ours, others = sampled(runner, case, peers)
        whole.update({(case.name, kind): seconds for kind, seconds in ours.items()})
        for kind in KINDS:
            row = "".join(f"{MIB / others[kind, p.program] * 1e-9:9.2f}{others[kind, p.program] / ours[kind]:6.1f}" for p in peers)
            print(f"{case.name:10}{kind:7}{MIB / ours[kind] * 1e-9:8.2f} |{row}", flush=True)
            if (kind, "grep") in others:
                by_grep.append((others[kind, "grep"] / ours[kind], f"{case.name} {kind}"))
    print("reading a MiB costs " + ", ".join(f"{whole[c.name, 'early'] * 1e6:.0f}" for c in cases) + " us, by the files with a "
          "pattern in their first KiB")
    if by_grep:
        figure, where = min(by_grep)
        goals.judge(f"avscan, times grep, reading in, least ({where})", figure, 1, True)
        goals.lines.append("       below the goal: " + (", ".join(f"{place} {one:.2f}" for one, place in sorted(by_grep) if one < 1) or "none"))
    speed, name, kind = min((MIB / seconds * 1e-9, *key) for key, seconds in whole.items())
    goals.judge(f"speed of the slowest file with its reading ({name} {kind})", speed, 0.25, True, " GB/s")
    return whole


def instructions(runner, cases, goals):
    print("\ninstructions a byte, of 6 files less those of 2 (what the kernel does to read them is not counted)")
    if not shutil.which("valgrind"):
        print("left out: valgrind is not installed")
        goals.unknown("instructions a byte", "valgrind is not here")
        return

    def counted(case, kind, count):
        done = subprocess.run(["valgrind", "--tool=cachegrind", "--cache-sim=no", "--cachegrind-out-file=/dev/null",
                               runner.program, "scan", case.set, *[case.files[kind]] * count], capture_output=True, text=True)
        found = re.search(r"I +refs: +([\d,]+)", done.stderr)
        return int(found[1].replace(",", "")) if found else None

    most = []
    for kind in ("code", "deep", "late", "early"):
        row = []
        for case in cases:
            counts = counted(case, kind, 6), counted(case, kind, 2)
            row.append("       -" if None in counts else f"{(counts[0] - counts[1]) / (4 * MIB):8.2f}")
            if None not in counts and kind != "early":
                most.append((counts[0] - counts[1]) / (4 * MIB))
        print(f"{kind:7}" + "".join(row) + f"   sets of {', '.join(c.name for c in cases)}", flush=True)
    if most:
        goals.judge("instructions a byte, the most", max(most), 6, False)
    else:
        goals.unknown("instructions a byte", "valgrind could not run the program")


def whole_processes(runner, case, one, ordinary, peers, goals):
    print("\nwhole processes with 1,000 patterns, build included: ms gone by (processor time)")

    def timed(what, files, goal):
        turns = [runner.avscan(case.set, files, ["clean"] * len(files)) for _ in range(2 * ROUNDS)]
        gone, used = (min(t[k] for t in turns) * 1e3 for k in (0, 1))
        others = ""
        for peer in peers:
            runs = [runner.cost(*peer.command(case, files)) for _ in range(peer.rounds)]
            others += f"; {peer.program} {min(r[0] for r in runs) * 1e3:.0f} ({min(r[1] for r in runs) * 1e3:.0f})"
        print(f"{what}: avscan {gone:.1f} ({used:.1f}){others}", flush=True)
        goals.judge(what, gone, goal, False, " ms", 1)
        return max(t[2] for t in turns)

    source = ordinary["code"] + ordinary["text"]
    rng = random.Random("small files")
    made = {}
    for count, size in ((1, 1), (400, 1024), (200, 65536)):
        made[size] = []
        while len(made[size]) < count:
            at = rng.randrange(len(source) - size)
            made[size].append(f"{case.base}-small-{size}-{len(made[size])}")
            put(made[size][-1], source[at:at + size])
    peak = timed("one file of 1 byte", made[1], 40)
    none = max(runner.avscan(one, made[1], ["clean"])[2] for _ in range(ROUNDS))
    print(f"peak of memory: {peak:,} KiB; with one signature {none:,} KiB")
    goals.judge("memory above that with one signature", (peak - none) / 1024, 9.2, False, " MiB")
    timed("400 files of 1 KiB", made[1024], 50)
    timed("200 files of 64 KiB", made[65536], 60)


def scanning_alone(folder, cases, goals):
    ours, scanners = alone.scanners_of(folder)
    speed = alone.measured(cases, scanners)
    print()
    alone.table(cases, scanners, speed)
    alone.goals(cases, speed, goals)
    bound = ranged.ranged_cases(folder, ordinary_files())
    speed = ranged.measured(bound, ours[:2], alone.ROUNDS)
    ranged.table(bound, ours[:2], speed)
    ranged.goals(bound, speed, goals)
    took = min(nanoseconds for name, nanoseconds in ours[0].build + ours[1].build if name == "r16-1000")
    goals.judge("build of 1,000 patterns", took / 1e6, 45, False, " ms", 1)


def main():
    program = os.path.abspath(sys.argv[1])
    print(f"load {os.getloadavg()[0]:.2f} on {os.cpu_count()} processors; the least of {ROUNDS} rounds, scanning alone of {alone.ROUNDS}")
    goals = Goals()
    with tempfile.TemporaryDirectory() as folder:
        ordinary = ordinary_files()
        cases = [Case(folder, name, made, ordinary) for name, made in sets_of(ordinary).items()]
        scanning_alone(folder, cases, goals)
        print(f"load {os.getloadavg()[0]:.2f} after scanning alone")
        if "alone" not in sys.argv[2:]:
            runner = Runner(folder, program)
            peers = peers_here(runner)
            plain = [case for case in cases if case.name in WHOLE]
            one = os.path.join(folder, "one.avsig")
            put(one, b"avsig 1\nversion 1\none 00112233445566778899aabbccddeeff\n")
            throughput(runner, plain, peers, goals)
            instructions(runner, plain, goals)
            whole_processes(runner, plain[-1], one, ordinary, peers, goals)
    print(f"\ngoals (load {os.getloadavg()[0]:.2f} at the end)")
    print("\n".join(goals.lines))


main()
