#!/usr/bin/env python3
"""Files with a line for each signature that occurs in them, by the built program.

Worked lines in each form, under one set and under three, the counts and statuses, contents that come through pipes, files of exactly
--max-size and of one byte more, sizes that are refused, and memory that is refused. Then random sets and files, beside a model: each
signature with the least place at which it ends. The last line says how many passed and how many failed."""
import json, os, random, shutil, subprocess, sys, tempfile

from cases import Cases

SECONDS = 120
RANDOM = 80
PIECE = 65536
LARGEST = 64 * 1024 * 1024
A = b"avsig 1\nversion 7\na.one 4141\na.two 42\na.three 4142\n"
B = b"avsig 1\nversion 9\nb.one 4343\n"
C = b"avsig 2\nversion 3\nc.first 41 0 0\nc.any 41\n"
SETS = ["A.avsig", "B.avsig", "C.avsig"]
MORE = ["--set", "B.avsig", "--set", "C.avsig"]
# What each file has under A, B and C.
FILES = {
    "none": (b"xyz", ["clean"], ["clean"], ["clean"]),
    "all": (b"xBAAB", ["infected 0 a.one end 4", "infected 1 a.two end 2", "infected 2 a.three end 5"], ["clean"], ["infected 1 c.any end 3"]),
    "b": (b"CCC", ["clean"], ["infected 0 b.one end 2"], ["clean"]),
    "c": (b"A", ["clean"], ["clean"], ["infected 0 c.first end 1", "infected 1 c.any end 1"]),
    "empty": (b"", ["clean"], ["clean"], ["clean"]),
    "last": (b"xA", ["clean"], ["clean"], ["infected 1 c.any end 2"]),
}
NAMES = list(FILES)


def run(words, folder, given=None, **options):
    done = subprocess.run(words, input=given, stdout=options.pop("stdout", subprocess.PIPE), stderr=subprocess.PIPE, timeout=SECONDS, cwd=folder, **options)
    return done.returncode, done.stdout, done.stderr


def write(folder, name, content):
    with open(os.path.join(folder, name), "wb") as file:
        file.write(content)
    return name


def text(lines, end="\n"):
    return "".join(line + end for line in lines).encode()


def lines_of(names, sets):
    """Each line as a file, what is told of it, and the set's name."""
    return [(name, told, made) for name in names for made in sets for told in FILES[name][1 + SETS.index(made)]]


def shown(lines, sets):
    return [f"{name} {told} set {made}" if len(sets) > 1 else f"{name} {told}" for name, told, made in lines]


def forms(cases, program, folder):
    """The lines in each form, those that -i leaves, and the counts."""
    for sets, more in ((SETS[:1], []), (SETS, MORE)):
        lines = lines_of(NAMES, sets)
        found = [line for line in lines if line[1] != "clean"]
        infected = list(dict.fromkeys(name for name, _, _ in found))
        counts = f"avscan: {len(NAMES)} files scanned, {len(infected)} infected, 0 not scanned\n".encode()
        for jobs in ("1", "2", "8"):
            for keep in ([], ["-k"]):
                words = [program, "scan", "--all-matches", "A.avsig", *more, "-j", jobs, *keep]
                name = f"{len(sets)} sets, -j {jobs} {keep}"
                cases.same(f"{name}: lines", run([*words, *NAMES], folder), (0, text(shown(lines, sets)), b""))
                cases.same(f"{name}: -i", run([*words, "-i", *NAMES], folder), (0, text(shown(found, sets)), b""))
                cases.same(f"{name}: --print0", run([*words, "--print0", *NAMES], folder), (0, text(shown(lines, sets), "\0"), b""))
                cases.same(f"{name}: -i --print0", run([*words, "-i", "--print0", *NAMES], folder), (0, text(infected, "\0"), b""))
                cases.same(f"{name}: --summary --found-status", run([*words, "--summary", "--found-status", *NAMES], folder), (5, text(shown(lines, sets)), counts))
        cases.same(f"{len(sets)} sets: a file twice", run([*words, "all", "all"], folder), (0, text(shown(lines_of(["all"], sets) * 2, sets)), b""))
    got = run([program, "scan", "A.avsig", "all"], folder)
    cases.same("without it the verdict alone", got, (0, b"all infected 1 a.two end 2\n", b""))


def objects(cases, program, folder):
    versions = dict(zip(SETS, (7, 9, 3)))
    for sets, more in ((SETS[:1], []), (SETS, MORE)):
        wanted = []
        for name, told, made in lines_of(NAMES, sets):
            words = told.split()
            one = {"file": name, "verdict": words[0], "version": versions[made]}
            if words[0] == "infected":
                one.update({"index": int(words[1]), "name": words[2], "end": int(words[4])})
            wanted.append(one | ({"set": made} if len(sets) > 1 else {}))
        status, out, err = run([program, "scan", "--all-matches", "--json", "--summary", "A.avsig", *more, *NAMES], folder)
        got = [json.loads(line) for line in out.splitlines()]
        infected = len({one["file"] for one in wanted if one["verdict"] == "infected"})
        wanted.append({"scanned": len(NAMES), "infected": infected, "not_scanned": 0})
        cases.check(f"{len(sets)} sets: --json", (status, got) == (0, wanted), f"{status} {got} {err}")
    got = run([program, "scan", "--all-matches", "--json", "-k", "A.avsig", *MORE, "gone", "all"], folder)
    faults = [json.loads(line).get("fault") for line in got[1].splitlines()]
    cases.check("--json of a file that isn't there", got[0] == 4 and faults == ["cannot read"] + [None] * 5, f"{got}")


def streams(cases, program, folder):
    """What comes through a pipe, in whatever pieces: each signature of it, across the ends of pieces too."""
    content = b"x" * (PIECE - 1) + b"AA" + b"x" * (PIECE - 3) + b"CC" + b"x" * 300000 + b"B"
    told = [(f"infected 0 a.one end {PIECE + 1}", "A.avsig"), (f"infected 1 a.two end {len(content)}", "A.avsig"), (f"infected 0 b.one end {2 * PIECE}", "B.avsig"), (f"infected 1 c.any end {PIECE}", "C.avsig")]
    lines = lambda name: text(f"{name} {one} set {made}" for one, made in told)
    write(folder, "in", content)
    for jobs in ("1", "4"):
        words = [program, "scan", "--all-matches", "-j", jobs, "A.avsig", *MORE]
        cases.same(f"-j {jobs}: standard input", run([*words, "-"], folder, content), (0, lines("-"), b""))
        cases.same(f"-j {jobs}: /dev/stdin", run([*words, "/dev/stdin"], folder, content), (0, lines("/dev/stdin"), b""))
        got = run(["sh", "-c", 'cat in | "$@" 3<&0', "sh", *words, "/dev/fd/3", "in"], folder)
        cases.same(f"-j {jobs}: a descriptor", got, (0, lines("/dev/fd/3") + lines("in"), b""))
        slow = 'for piece in A A x C C; do printf "$piece"; sleep 0.1; done | "$@"'
        wanted = text(["- infected 0 a.one end 2 set A.avsig", "- infected 0 b.one end 5 set B.avsig", "- infected 0 c.first end 1 set C.avsig", "- infected 1 c.any end 1 set C.avsig"])
        cases.same(f"-j {jobs}: bytes that come one by one", run(["sh", "-c", slow, "sh", *words, "-"], folder), (0, wanted, b""))
    os.remove(os.path.join(folder, "in"))


def sizes(cases, program, folder):
    """A file of exactly --max-size bytes is scanned to its last one, and a longer one is too large."""
    for size, asked in ((1, ["--max-size", "1"]), (8, ["--max-size", "8"]), (PIECE, ["--max-size", "64K"]), (1048576, []), (5 * 1048576, ["--max-size", "5M"]), (LARGEST, ["--max-size", "64M"])):
        for jobs in ("1", "2") if size < LARGEST else ("1",):
            words = [program, "scan", "--all-matches", "-j", jobs, *asked, "A.avsig"]
            write(folder, "fits", b"x" * (size - 1) + b"B")
            write(folder, "large", b"B" + b"x" * size)
            fits = text([f"fits infected 1 a.two end {size}"])
            cases.same(f"-j {jobs}: {size} bytes", run([*words, "fits"], folder), (0, fits, b""))
            cases.same(f"-j {jobs}: {size} bytes and one", run([*words, "fits", "large"], folder), (1, b"", b"avscan: large: TooLarge\n"))
            got = run([*words, "-k", "--summary", "--found-status", "large", "fits", "gone"], folder)
            told = b"avscan: large: TooLarge\navscan: gone: cannot read\navscan: 1 files scanned, 1 infected, 2 not scanned\n"
            cases.same(f"-j {jobs}: {size} bytes, passed over", got, (6, fits, told))
            if size < LARGEST:
                with open(os.path.join(folder, "large"), "rb") as content:
                    cases.same(f"-j {jobs}: {size} bytes and one on standard input", run([*words, "-"], folder, content.read()), (1, b"", b"avscan: -: TooLarge\n"))
    os.remove(os.path.join(folder, "fits"))
    os.remove(os.path.join(folder, "large"))


def faults(cases, program, folder):
    """Sizes that are not taken, and commands that have no such option: before anything is read, `gone` too."""
    line = b"avscan: --all-matches takes files of at most 64M (67108864 bytes): give it a smaller --max-size (avscan --help tells more)\n"
    for size in ("67108865", "65M", "1G", "9223372036854775807"):
        for words in (["--all-matches", "--max-size", size], ["--max-size", size, "--all-matches"]):
            cases.same(f"{words}", run([program, "scan", *words, "gone", "none"], folder), (2, b"", line))
        cases.same(f"--max-size {size} alone", run([program, "scan", "--max-size", size, "A.avsig", "all"], folder), (0, b"all infected 1 a.two end 2\n", b""))
    for words in (["scan", "--all-matches", "--all-matches", "A.avsig", "none"], ["scan", "--all-matches=1", "A.avsig", "none"], ["host", "--all-matches", "A.avsig", "none"]):
        got = run([program, *words], folder)
        cases.check(f"{words}", got[0] == 2 and got[1] == b"", f"{got}")
    for words in ([], ["--json"], ["--print0"], ["-i", "--print0"], ["-k"]):
        with open("/dev/full", "wb") as device:
            got = run([program, "scan", "--all-matches", *words, "A.avsig", *MORE, *NAMES], folder, stdout=device)
        cases.check(f"a full device, {words}", got[0] == 4 and got[2] == b"avscan: device\n", f"{got}")


def memory(cases, program, folder):
    """Each request for memory refused in turn: all lines, or a front of them and the fault. No file is told clean that isn't."""
    library = os.path.join(folder, "fail_nth.so")
    source = os.path.join(os.path.dirname(os.path.abspath(__file__)), "fail_nth.c")
    subprocess.run(["cc", "-shared", "-fPIC", "-O2", "-o", library, source], check=True)
    for keep in ([], ["-k"]):
        for jobs in ("1", "3"):
            words = [program, "scan", "--all-matches", "-j", jobs, *keep, "A.avsig", *MORE, *NAMES]
            whole, in_a_row, number, refused = run(words, folder), 0, 0, 0
            while in_a_row < 20 and number < 900:
                number += 1
                done = run(words, folder, env=dict(os.environ, LD_PRELOAD=library, FAIL_NTH=str(number)))
                lines = set(whole[1].splitlines(True))
                told = done[0] == 3 and b"no memory" in done[2] and all(line in lines for line in done[1].splitlines(True))
                in_a_row = in_a_row + 1 if done == whole else 0
                refused += told
                if not told and done != whole:
                    cases.check(f"{keep} -j {jobs} without memory", False, f"request {number} refused: {done}")
                    break
            cases.check(f"{keep} -j {jobs} without memory", refused > 10, f"{refused} of {number}")


def drawn(chance):
    """Signatures of few different bytes: the name, the bytes, and from where to where they may begin."""
    seen, kept = set(), []
    for place in range(chance.randint(1, 7)):
        pattern = bytes(chance.choice(b"ABC") for _ in range(chance.randint(1, 4)))
        low = chance.randint(0, 3)
        span = chance.choice([None, None, (low, low + chance.randint(0, 4)), (0, 0)])
        if (pattern, span) not in seen:
            seen.add((pattern, span))
            kept.append((f"s{place}", pattern, span))
    return kept


def spelt(version, signatures):
    lines = [f"{name} {pattern.hex()}" + (f" {span[0]} {span[1]}" if span else "") for name, pattern, span in signatures]
    return text(["avsig 2", f"version {version}", *lines])


def told_of(signatures, content):
    """What is told of a content: each signature that occurs, with the least place at which it ends."""
    found = []
    for index, (name, pattern, span) in enumerate(signatures):
        low, high = span or (0, len(content))
        starts = [at for at in range(low, min(high, len(content) - len(pattern)) + 1) if content[at : at + len(pattern)] == pattern]
        if starts:
            found.append(f"infected {index} {name} end {starts[0] + len(pattern)}")
    return found or ["clean"]


def random_sets(cases, program, folder):
    chance = random.Random(2026)
    for number in range(RANDOM):
        sets = [drawn(chance) for _ in range(chance.randint(1, 5))]
        made = [write(folder, f"r{place}.avsig", spelt(chance.randint(1, 99), one)) for place, one in enumerate(sets)]
        contents = [bytes(chance.choice(b"ABCx") for _ in range(chance.randint(0, 14))) for _ in range(chance.randint(1, 7))]
        files = [write(folder, f"f{place}", content) for place, content in enumerate(contents)]
        lines = [(name, told, one) for name, content in zip(files, contents) for one, signatures in zip(made, sets) for told in told_of(signatures, content)]
        infected = list(dict.fromkeys(name for name, told, _ in lines if told != "clean"))
        more = [word for name in made[1:] for word in ("--set", name)]
        jobs, only = chance.choice(["1", "2", "5"]), chance.choice([[], ["-i"]])
        got = run([program, "scan", "--all-matches", "-j", jobs, *only, "--summary", made[0], *more, *files], folder)
        wanted = [line for line in lines if not only or line[1] != "clean"]
        counts = f"avscan: {len(files)} files scanned, {len(infected)} infected, 0 not scanned\n".encode()
        cases.same(f"random sets {number}", got, (0, text(shown(wanted, made)), counts))
        got = run([program, "scan", "--all-matches", "-i", "--print0", made[0], *more, *files], folder)
        cases.same(f"random sets {number}: names", got, (0, text(infected, "\0"), b""))


def main():
    cases = Cases()
    with tempfile.TemporaryDirectory() as folder:
        program = shutil.copy(os.path.abspath(sys.argv[1]), folder)
        for name, content in zip(SETS, (A, B, C)):
            write(folder, name, content)
        for name, (content, *_) in FILES.items():
            write(folder, name, content)
        for part in (forms, objects, streams, sizes, faults, memory, random_sets):
            part(cases, program, folder)
    print(f"{cases.passed} passed, {cases.failed} failed")
    return cases.failed


if __name__ == "__main__":
    sys.exit(bool(main()))
