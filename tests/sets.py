#!/usr/bin/env python3
"""Files under several signature sets in one pass, by the built program.

Worked lines in each form, the counts and statuses, sets that are missing, bad, empty or signed, 16 and 17 of them, contents that come
through pipes, files without a verdict, and a standard output that is full. A file is opened once, which strace would count: here a pipe
shows it, since what was read of it is gone. Then random sets and files, beside a run for each set. The last line says how many passed
and how many failed."""
import json, os, random, subprocess, sys, tempfile

from cases import Cases
from names import quoted
from programs import program_beside

SECONDS = 60
RANDOM = 60
PIECE = 1048576 + 2
A = b"avsig 1\nversion 7\na.one 4141\na.two 42\n"
B = b"avsig 1\nversion 9\nb.one 4343\n"
C = b"avsig 2\nversion 3\nc.first 41 0 0\n"
# Each file with what it has under A, B and C.
FILES = {
    "none": (b"xyz", "clean", "clean", "clean"), "a": (b"xAA", "infected 0 a.one end 3", "clean", "clean"),
    "b": (b"CC", "clean", "infected 0 b.one end 2", "clean"), "all": (b"AACC", "infected 0 a.one end 2", "infected 0 b.one end 4", "infected 0 c.first end 1"),
    "c": (b"A", "clean", "clean", "infected 0 c.first end 1"), "empty": (b"", "clean", "clean", "clean"),
}
SETS = ["A.avsig", "B.avsig", "C.avsig"]
MORE = ["--set", "B.avsig", "--set", "C.avsig"]
NAMES = list(FILES)
LINES = [(f"{name} {told}", told, made) for name in NAMES for told, made in zip(FILES[name][1:], SETS)]
INFECTED = [name for name in NAMES if any("infected" in told for told in FILES[name][1:])]
COUNTS = f"avscan: {len(NAMES)} files scanned, {len(INFECTED)} infected, 0 not scanned\n".encode()


def run(words, folder, given=None, **options):
    done = subprocess.run(words, input=given, stdout=options.pop("stdout", subprocess.PIPE), stderr=subprocess.PIPE, timeout=SECONDS, cwd=folder, **options)
    return done.returncode, done.stdout, done.stderr


def write(folder, name, content):
    with open(os.path.join(folder, name), "wb") as file:
        file.write(content)
    return name


def text(lines, end="\n"):
    return "".join(line + end for line in lines).encode()


def forms(cases, program, folder):
    """The lines in each form, those that -i leaves, and the counts."""
    scan = [program, "scan", "A.avsig", *MORE]
    lines = [f"{line} set {made}" for line, _, made in LINES]
    found = [f"{line} set {made}" for line, told, made in LINES if told != "clean"]
    for jobs in ("1", "2", "8"):
        for keep in ([], ["-k"]):
            words = [*scan, "-j", jobs, *keep]
            name = f"-j {jobs} {keep}"
            cases.same(f"{name}: lines", run([*words, *NAMES], folder), (0, text(lines), b""))
            cases.same(f"{name}: -i", run([*words, "-i", *NAMES], folder), (0, text(found), b""))
            cases.same(f"{name}: --print0", run([*words, "--print0", *NAMES], folder), (0, text(lines, "\0"), b""))
            cases.same(f"{name}: -i --print0", run([*words, "-i", "--print0", *NAMES], folder), (0, text(INFECTED, "\0"), b""))
            cases.same(f"{name}: --summary --found-status", run([*words, "--summary", "--found-status", *NAMES], folder), (5, text(lines), COUNTS))
    words = [program, "scan", "--set", "B.avsig", "A.avsig", "none", "--set", "C.avsig"]
    cases.same("--set before and behind", run(words, folder), (0, text(f"none clean set {made}" for made in SETS), b""))
    cases.same("one set", run([program, "scan", "A.avsig", "all"], folder), (0, b"all infected 0 a.one end 2\n", b""))
    cases.same("a set twice", run([program, "scan", "A.avsig", "--set", "A.avsig", "a"], folder), (0, text(["a infected 0 a.one end 3 set A.avsig"] * 2), b""))
    for name, status in (("b", 5), ("none", 0)):
        got = run([program, "scan", "A.avsig", "--set", "B.avsig", "--found-status", "-i", name], folder)
        wanted = text(["b infected 0 b.one end 2 set B.avsig"] if status else [])
        cases.same(f"{name}: infected under the second set alone", got, (status, wanted, b""))


def objects(cases, program, folder):
    status, out, err = run([program, "scan", "--json", "--summary", "A.avsig", *MORE, *NAMES], folder)
    versions = dict(zip(SETS, (7, 9, 3)))
    wanted = []
    for name in NAMES:
        for told, made in zip(FILES[name][1:], SETS):
            words = told.split()
            if words[0] == "clean":
                wanted.append({"file": name, "verdict": "clean", "version": versions[made], "set": made})
            else:
                wanted.append({"file": name, "verdict": "infected", "version": versions[made], "index": int(words[1]), "name": words[2], "end": int(words[4]), "set": made})
    wanted.append({"scanned": len(NAMES), "infected": len(INFECTED), "not_scanned": 0})
    got = [json.loads(line) for line in out.splitlines()]
    cases.check("--json", (status, got) == (0, wanted), f"{status} {got} {err}")
    cases.check("--json: the set is the last member", all(list(one)[-1] == "set" for one in got[:-1]), f"{got}")
    got = run([program, "scan", "--json", "-i", "A.avsig", *MORE, "b"], folder)
    cases.same("--json -i", got, (0, b'{"file":"b","verdict":"infected","version":9,"index":0,"name":"b.one","end":2,"set":"B.avsig"}\n', b""))
    got = run([program, "scan", "--json", "-k", "A.avsig", *MORE, "gone", "none"], folder)
    cases.check("--json of a file that isn't there", got[0] == 4 and [json.loads(line).get("fault") for line in got[1].splitlines()] == ["cannot read", None, None, None], f"{got}")


def names(cases, program, folder):
    """Sets under names that would forge a line, or end one early."""
    for name in ("with space", "x\nother clean", '"q', "\u009b2K", "b\\n"):
        write(folder, name, B)
        shown = quoted(name.encode()).decode()
        cases.same(f"a set {name!r}", run([program, "scan", "A.avsig", "--set", name, "b"], folder), (0, text(["b clean set A.avsig", f"b infected 0 b.one end 2 set {shown}"]), b""))
        cases.same(f"a set {name!r}, raw", run([program, "scan", "--print0", "A.avsig", "--set", name, "b"], folder), (0, text(["b clean set A.avsig", f"b infected 0 b.one end 2 set {name}"], "\0"), b""))
        got = run([program, "scan", "--json", "A.avsig", "--set", name, "b"], folder)
        cases.check(f"a set {name!r}, as JSON", [json.loads(line)["set"] for line in got[1].splitlines()] == ["A.avsig", name], f"{got}")
        os.remove(os.path.join(folder, name))


def bad_sets(cases, program, folder):
    """The first set that can't be taken ends the run, before a file is opened: `gone` isn't told."""
    write(folder, "bad", b"avsig 1\nversion 1\na zz\n")
    write(folder, "void", b"avsig 1\nversion 4\n")
    write(folder, "key", b"k" * 32)
    os.chmod(os.path.join(folder, "key"), 0o600)
    tool = program_beside(program, "avtool")
    for name in ("A.avsig", "B.avsig"):
        write(folder, f"{name}.signed", run([tool, "sign", "--key", "key", name], folder)[1])
    faults = {"bad": (1, b"avscan: set line 3: kind 4\n"), "void": (1, b"avscan: void: version 4 has no signatures\n"), "away": (4, b"avscan: away: cannot read\n"),
              "B.avsig.signed": (1, b"avscan: B.avsig.signed: is signed (--trust KEY verifies it)\n")}
    for name, (status, line) in faults.items():
        for words in (["A.avsig", "--set", name], [name, "--set", "A.avsig"], ["A.avsig", "--set", "B.avsig", "--set", name], ["A.avsig", "--set", name, "--set", "bad"]):
            got = run([program, "scan", *words, "gone", "none"], folder)
            cases.same(f"scan {words}", got, (status, b"", line))
    got = run([program, "scan", "--allow-empty", "A.avsig", "--set", "void", "a"], folder)
    cases.same("--allow-empty", got, (0, text(["a infected 0 a.one end 3 set A.avsig", "a clean set void"]), faults["void"][1]))
    got = run([program, "scan", "--trust", "key", "A.avsig.signed", "--set", "B.avsig.signed", "all"], folder)
    cases.same("--trust", got, (0, text(["all infected 0 a.one end 2 set A.avsig.signed", "all infected 0 b.one end 4 set B.avsig.signed"]), b""))
    got = run([program, "scan", "--trust", "key", "A.avsig.signed", "--set", "B.avsig", "all"], folder)
    cases.same("--trust, and a set that isn't signed", got, (1, b"", b"avscan: B.avsig: is not signed (--trust takes signed files alone)\n"))
    for name in ("bad", "void", "key", "A.avsig.signed", "B.avsig.signed"):
        os.remove(os.path.join(folder, name))


def many(cases, program, folder):
    for count in (2, 15, 16, 17, 40):
        words = [word for _ in range(count - 1) for word in ("--set", "B.avsig")]
        got = run([program, "scan", "A.avsig", *words, "b"], folder)
        if count <= 16:
            cases.same(f"{count} sets", got, (0, text(["b clean set A.avsig", *["b infected 0 b.one end 2 set B.avsig"] * (count - 1)]), b""))
        else:
            cases.check(f"{count} sets", got[0] == 2 and got[1] == b"" and b"--set may be given 15 times at most" in got[2], f"{got}")
    for words in (["--set"], ["A.avsig", "none", "--set"]):
        got = run([program, "scan", *words], folder)
        cases.check(f"scan {words}", got[0] == 2 and got[1] == b"", f"{got}")


def once(cases, program, folder):
    """What comes through a pipe is there once: each set gets all of it, in whatever pieces it comes."""
    content = b"x" * (PIECE - 1) + b"AA" + b"x" * 70000 + b"CC" + b"x" * 9
    lines = lambda name, signed: text([f"{name} infected 0 a.one end {PIECE + 1} set A.avsig", f"{name} infected 0 b.one end {PIECE + 70003} set B.avsig", f"{name} {signed} set C.avsig"])
    for jobs in ("1", "4"):
        words = [program, "scan", "-j", jobs, "--max-size", "4M", "A.avsig", *MORE]
        cases.same(f"-j {jobs}: standard input", run([*words, "-"], folder, content), (0, lines("-", "clean"), b""))
        cases.same(f"-j {jobs}: standard input, that begins otherwise", run([*words, "-"], folder, b"A" + content[1:]), (0, lines("-", "infected 0 c.first end 1"), b""))
        cases.same(f"-j {jobs}: /dev/stdin", run([*words, "/dev/stdin"], folder, content), (0, lines("/dev/stdin", "clean"), b""))
        got = run(["sh", "-c", 'cat in | "$@" 3<&0', "sh", *words, "/dev/fd/3", "none"], folder) if write(folder, "in", content) else None
        cases.same(f"-j {jobs}: a descriptor", got, (0, lines("/dev/fd/3", "clean") + text(f"none clean set {made}" for made in SETS), b""))
        got = run([*words, "in", "none", "in"], folder)
        cases.same(f"-j {jobs}: files of several pieces", got, (0, lines("in", "clean") + text(f"none clean set {made}" for made in SETS) + lines("in", "clean"), b""))
    os.remove(os.path.join(folder, "in"))


def not_scanned(cases, program, folder):
    """A file without a verdict is told once, under no set."""
    write(folder, "large", b"A" * 9)
    for jobs in ("1", "4"):
        words = [program, "scan", "-j", jobs, "--max-size", "8", "A.avsig", *MORE]
        cases.same(f"-j {jobs}: a file too large", run([*words, "none", "large"], folder), (1, b"", b"avscan: large: TooLarge\n"))
        got = run([*words, "-k", "--summary", "--found-status", "large", "b", "gone"], folder)
        lines = text(["b clean set A.avsig", "b infected 0 b.one end 2 set B.avsig", "b clean set C.avsig"])
        told = b"avscan: large: TooLarge\navscan: gone: cannot read\navscan: 1 files scanned, 1 infected, 2 not scanned\n"
        cases.same(f"-j {jobs}: passed over", got, (6, lines, told))
    os.remove(os.path.join(folder, "large"))


def full(cases, program, folder):
    for words in ([], ["--json"], ["--print0"], ["-i", "--print0"], ["-k"]):
        with open("/dev/full", "wb") as device:
            got = run([program, "scan", *words, "A.avsig", *MORE, *NAMES], folder, stdout=device)
        cases.check(f"a full device, {words}", got[0] == 4 and got[2] == b"avscan: device\n", f"{got}")


def drawn(chance):
    """A set and files of few different bytes."""
    pattern = lambda: bytes(chance.choice(b"ABC") for _ in range(chance.randint(1, 4)))
    lines = []
    for place in range(chance.randint(1, 6)):
        low = chance.randint(0, 3)
        span = chance.choice(["", "", f" {low} {low + chance.randint(0, 4)}", " 0 0"])
        lines.append(f"s{place} {pattern().hex()}{span}")
    seen, kept = set(), []
    for line in lines:
        if line.split(" ", 1)[1] not in seen:
            seen.add(line.split(" ", 1)[1])
            kept.append(line)
    return ("avsig 2\nversion %d\n" % chance.randint(1, 99) + "\n".join(kept) + "\n").encode()


def random_sets(cases, program, folder):
    """Random sets and files: what is told is what a run for each set tells, line by line."""
    chance = random.Random(20261129)
    for number in range(RANDOM):
        sets = [write(folder, f"r{place}.avsig", drawn(chance)) for place in range(chance.randint(1, 6))]
        files = [write(folder, f"f{place}", bytes(chance.choice(b"ABCx") for _ in range(chance.randint(0, 14)))) for place in range(chance.randint(1, 7))]
        more = [word for name in sets[1:] for word in ("--set", name)]
        jobs, shown = chance.choice(["1", "2", "5"]), chance.choice([[], ["-i"]])
        got = run([program, "scan", "-j", jobs, *shown, "--summary", sets[0], *more, *files], folder)
        apart = {name: run([program, "scan", name, *files], folder)[1].decode().splitlines() for name in sets}
        if len(sets) == 1:
            lines = apart[sets[0]]
        else:
            lines = [f"{apart[name][place]} set {name}" for place in range(len(files)) for name in sets]
        infected = sum(any(" infected " in apart[name][place] for name in sets) for place in range(len(files)))
        wanted = [line for line in lines if not shown or " infected " in line]
        counts = f"avscan: {len(files)} files scanned, {infected} infected, 0 not scanned\n".encode()
        cases.same(f"random sets {number}", got, (0, text(wanted), counts))
        names0 = run([program, "scan", "-i", "--print0", sets[0], *more, *files], folder)[1]
        cases.same(f"random sets {number}: names", names0, text((file for place, file in enumerate(files) if any(" infected " in apart[name][place] for name in sets)), "\0"))


def main():
    cases, program = Cases(), os.path.abspath(sys.argv[1])
    with tempfile.TemporaryDirectory() as folder:
        for name, content in zip(SETS, (A, B, C)):
            write(folder, name, content)
        for name, (content, *_) in FILES.items():
            write(folder, name, content)
        for part in (forms, objects, names, bad_sets, many, once, not_scanned, full, random_sets):
            part(cases, program, folder)
    print(f"{cases.passed} passed, {cases.failed} failed")
    return cases.failed


if __name__ == "__main__":
    sys.exit(bool(main()))
