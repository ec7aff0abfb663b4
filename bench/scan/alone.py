"""Scanning alone: av_match over texts that are in memory, beside C, aho-corasick and Hyperscan.

scantime.txt is the program that is timed. It is built in a copy of the repository, so that the gate need not prove it, and once more in
a copy in which no set has windows: that is the column `lanes`, what the six parts without windows come to. Each column
is the least of some rounds; in a round every program scans each file of a set a few times."""
import glob, os, shutil, subprocess, sys

from cases import KINDS, MIB, put

HERE = os.path.dirname(os.path.abspath(__file__))
sys.path.insert(0, os.path.dirname(HERE))
import timed
USED = ("av_base", "av_sigset", "av_match", "anyhow")
NARROW = "if shorts.len() > MOST_SHORT {"
ROUNDS, REPEATS = 7, 4
CHUNK = 4096


def built(folder, windows):
    """The timing program over the crate as it is, or without windows."""
    shifts = os.path.join("crates", "av_match", "src", "shifts.rt")
    with open(os.path.join(timed.ROOT, shifts)) as file:
        text = file.read()
    if text.count(NARROW) != 1:
        sys.exit("the test whether a set has windows is not where it was")
    without = text.replace(NARROW, "if shorts.len() <= MOST_SHORT || shorts.len() > MOST_SHORT {")
    changed = [] if windows else [(shifts, without)]
    words = [os.devnull, "1", "1"]
    return timed.build(folder, os.path.join(HERE, "scantime.txt"), USED, words, changed)


class Ours:
    """A build of the timing program, a file in one chunk or in chunks of 4,096 bytes."""
    rounds = ROUNDS

    def __init__(self, column, program, chunk):
        self.columns, self.program, self.chunk, self.build = [column], program, chunk, []

    def times(self, case, kinds):
        words = [self.program, case.set, str(REPEATS), str(self.chunk), *(case.files[kind] for kind in kinds)]
        build, *lines = subprocess.run(words, stdout=subprocess.PIPE, text=True, check=True).stdout.splitlines()
        self.build.append((case.name, int(build)))
        told = {}
        for kind, line in zip(kinds, lines):
            time, answer = line.split(" ", 1)
            if answer != case.answers[kind]:
                sys.exit(f"wrong: {self.columns[0]} says of {kind} under {case.name} {answer}, wanted {case.answers[kind]}")
            told[kind] = [int(time)]
        return told


class Peer:
    """A program SET REPEATS FILE.. that prints a line for each file: its times, and clean or infected."""
    rounds, repeats = ROUNDS, REPEATS

    def __init__(self, folder):
        self.program = os.path.join(folder, self.name)

    def times(self, case, kinds):
        words = [self.program, case.set, str(self.repeats), *(case.files[kind] for kind in kinds)]
        lines = subprocess.run(words, stdout=subprocess.PIPE, text=True, check=True).stdout.splitlines()
        told = {}
        for kind, line in zip(kinds, lines):
            *times, answer = line.split()[:len(self.columns) + 1]
            if answer != case.answers[kind].split()[0]:
                sys.exit(f"{self.name} says of {kind} under {case.name} {answer}")
            told[kind] = [float(time) for time in times]
        return told


class Dense(Peer):
    name, columns, rounds, repeats = "dense", ["C 1", "C 6"], 3, 2

    def __init__(self, folder):
        super().__init__(folder)
        subprocess.run(["cc", "-O2", "-o", self.program, os.path.join(HERE, "dense.c")], check=True)


class Hyperscan(Peer):
    name, columns = "hyperscan", ["HS", "HS 4k"]

    def __init__(self, folder):
        super().__init__(folder)
        done = subprocess.run(["cc", "-O2", "-o", self.program, os.path.join(HERE, "hyperscan.c"), "-lhs", "-lm"], capture_output=True)
        if done.returncode != 0:
            raise OSError("Debian's libhyperscan-dev is not installed")


class AhoCorasick(Peer):
    name, columns, rounds, repeats = "ahocorasick", ["a-c DFA", "a-c own"], 3, 2

    def __init__(self, folder):
        super().__init__(folder)
        crates = "/usr/share/cargo/registry"
        if not glob.glob(f"{crates}/aho-corasick-0.7.*"):
            raise OSError("Debian's librust-aho-corasick-dev, version 0.7, is not installed")
        if not shutil.which("cargo"):
            raise OSError("cargo is not installed")
        own = os.path.join(folder, "cargo")
        os.makedirs(f"{own}/src")
        os.makedirs(f"{own}/.cargo")
        shutil.copy(os.path.join(HERE, "ahocorasick.rs"), f"{own}/src/main.rs")
        put(f"{own}/.cargo/config.toml", b'[source.crates-io]\nreplace-with = "debian"\n[source.debian]\ndirectory = "%s"\n' % crates.encode())
        put(f"{own}/Cargo.toml", b'[package]\nname = "ahocorasick"\nversion = "0.0.0"\nedition = "2021"\n[dependencies]\n'
            b'aho-corasick = "0.7"\nlibc = "0.2"\n[profile.release]\nopt-level = 3\nlto = "fat"\ncodegen-units = 1\n')
        done = subprocess.run(["cargo", "build", "--release", "--offline", "--quiet"], cwd=own, capture_output=True, text=True)
        if done.returncode != 0:
            raise OSError("cargo could not build it: " + (done.stderr.strip().splitlines() or ["no reason"])[0])
        shutil.copy(f"{own}/target/release/ahocorasick", self.program)


def peers_here(folder):
    here = []
    for kind in (Dense, AhoCorasick, Hyperscan):
        try:
            here.append(kind(folder))
        except (OSError, subprocess.CalledProcessError) as why:
            print(f"left out: {kind.columns[0]}: {why}")
    return here


def measured(cases, scanners):
    """Gigabytes a second by set, file and column, the best of all rounds."""
    best = {}
    for case in cases:
        for turn in range(ROUNDS):
            for scanner in scanners:
                if turn < scanner.rounds:
                    kinds = list(KINDS) + (["late", "early"] if isinstance(scanner, Ours) else [])
                    for kind, times in scanner.times(case, kinds).items():
                        for column, time in zip(scanner.columns, times):
                            speed = MIB / max(time, 1)
                            best[case.name, kind, column] = max(speed, best.get((case.name, kind, column), 0))
    return best


def scanners_of(folder):
    """Ours with windows and without, and the peers that are here."""
    new = built(os.path.join(folder, "windows"), True)
    old = built(os.path.join(folder, "lanes"), False)
    ours = [Ours("ours", new, MIB), Ours("ours 4k", new, CHUNK), Ours("lanes", old, MIB), Ours("lanes 4k", old, CHUNK)]
    return ours, ours + peers_here(folder)


def table(cases, scanners, speed):
    columns = [column for scanner in scanners for column in scanner.columns]
    print("GB/s, scanning alone; ours: with windows; lanes: the six parts alone; 4k: in chunks of 4,096 bytes; worst: the slowest file")
    print(f"{'set':10}{'file':8}" + "".join(f"{column:>9}" for column in columns))
    for case in cases:
        for kind in KINDS:
            print(f"{case.name:10}{kind:8}" + "".join(f"{speed[case.name, kind, column]:9.2f}" for column in columns))
        worst = (min(speed[case.name, kind, column] for kind in KINDS) for column in columns)
        print(f"{case.name:10}{'worst':8}" + "".join(f"{figure:9.2f}" for figure in worst))
    print("microseconds a file with a pattern at its very end, or in its first KiB, and times the clean one (ours; lanes)")
    for case in cases:
        line = f"{case.name:10}"
        for column in ("ours", "lanes"):
            clean, late, early = (MIB / speed[case.name, kind, column] / 1000 for kind in ("code", "late", "early"))
            line += f"{late:9.1f} {late / clean:5.2f} {early:8.2f}"
        print(line, flush=True)


def goals(cases, speed, judge):
    """The goals of scanning alone; a peer that is not here has no goal."""
    sets = {case.name for case in cases}
    has = {column for _, _, column in speed}

    def ratio(name, kind, one, other):
        return speed[name, kind, one] / speed[name, kind, other]

    def least(what, cells, goal):
        if cells:
            figure, where = min(cells)
            judge.judge(f"{what}, least ({where})", figure, goal, True)
            below = [f"{place} {one:.2f}" for one, place in sorted(cells) if one < goal]
            if below:
                judge.lines.append("       below the goal: " + ", ".join(below))
        else:
            judge.unknown(what, "the peer is not here")

    def over(column, names, kinds, goal, one="ours"):
        least(f"{one}, times {column}, {', '.join(names)}; {', '.join(kinds)}",
              [(ratio(name, kind, one, column), f"{name} {kind}") for name in names for kind in kinds if column in has], goal)

    plain = ("code", "random", "text")
    over("HS", ("r16-10", "r16-100", "r16-1000"), plain, 2)
    over("HS", ("r16-10", "r16-100", "r16-1000"), ("zeros",), 0.7)
    over("a-c own", ("r16-10",), plain, 1.3)
    over("a-c own", ("r16-100",), plain, 18)
    over("a-c own", ("r16-1000",), plain, 25)
    peers = [column for column in ("C 6", "a-c DFA", "a-c own", "HS") if column in has]
    for kinds, goal in ((("code", "random"), 0.5), (("text", "zeros"), 0.4)):
        least(f"one pattern, times the best peer on {' and '.join(kinds)}",
              [(speed["r16-1", kind, "ours"] / max(speed["r16-1", kind, peer] for peer in peers), kind) for kind in kinds if peers], goal)
    least("chunks of 4,096 bytes, times the whole file, where windows pay",
          [(ratio(name, kind, "ours 4k", "ours"), f"{name} {kind}") for name in sorted(sets) for kind in KINDS if ratio(name, kind, "ours", "lanes") > 1.15], 0.75)
    over("lanes", ("code-100",), ("code",), 1.5)
    over("lanes", ("short-2", "short-4"), plain, 1.5)
    for ours, lanes in (("ours", "lanes"), ("ours 4k", "lanes 4k")):
        cells = [(ratio(name, kind, lanes, ours), f"{name} {kind}") for name in sorted(sets) for kind in KINDS]
        figure, where = max(cells)
        judge.judge(f"{ours}, what is given up, time over that of {lanes}, most ({where})", figure, 1.15, False)
        judge.lines.append("       above the goal: " + (", ".join(f"{place} {one:.2f}" for one, place in sorted(cells, reverse=True) if one > 1.15) or "none"))
    late = [(ratio(case.name, "code", "ours", "ours") * speed[case.name, "code", "ours"] / speed[case.name, "late", "ours"], case.name) for case in cases]
    figure, where = max(late)
    judge.judge(f"a pattern at the very end, time over the clean file's, most ({where})", figure, 1.1, False)
    early = [(ratio(case.name, "early", "lanes", "ours"), case.name) for case in cases]
    figure, where = max(early)
    judge.judge(f"a pattern in the first KiB, time over that of lanes, most ({where})", figure, 1, False)
