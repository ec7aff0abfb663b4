#!/usr/bin/env python3
"""Signature files made into one, by the built program.

Worked files with their merges, each fault with its line and status, the limits, and the file of --output: whole or not there, also while
calls that open, write or rename fail. Then random sets: what is written is what a plain model says, and a content is clean under the
merge exactly if it is clean under each of the sets. The last line says how many passed and how many failed."""
import os, random, subprocess, sys, tempfile

from cases import Cases
from programs import program_beside

SECONDS = 60
RANDOM = 150
# In every fifth of these so many contents are scanned under the merge and under each set.
EVERY, CONTENTS = 5, 20
LAST = 1048575
# More calls that open, read or write, and more requests for memory, than a merge of two sets makes.
CALLS, REQUESTS = range(1, 30), range(1, 200)
HERE = os.path.dirname(os.path.abspath(__file__))
A = b"avsig 1\nversion 7\na 41\nb 4242\n"
B = b"avsig 1\nversion 9\nc 43\nb 4242\nd 42\n"
RANGED = b"avsig 2\nversion 1\nb 4242 0 1048575\ne 45 3 9\n"
# The sets by name, more words, and the file that is written.
GOOD = [
    ("one set", [A], [], A), ("a set twice", [A, A], [], A),
    ("two sets", [A, B], [], b"avsig 1\nversion 9\na 41\nb 4242\nc 43\nd 42\n"), ("the other way round", [B, A], [], b"avsig 1\nversion 9\nc 43\nb 4242\nd 42\na 41\n"),
    ("format 2 if one is bound", [A, RANGED], [], b"avsig 2\nversion 7\na 41\nb 4242\ne 45 3 9\n"), ("format 1 if none is", [b"avsig 2\nversion 2\na 41 0 1048575\n"], [], b"avsig 1\nversion 2\na 41\n"),
    ("digits in lower case", [b"avsig 1\nversion 2\na 4A4b\n", b"avsig 1\nversion 2\na 4a4B\n"], [], b"avsig 1\nversion 2\na 4a4b\n"),
    ("equal bytes under two names", [A, b"avsig 1\nversion 2\nx 41\n"], [], b"avsig 1\nversion 7\na 41\nb 4242\nx 41\n"),
    ("a version that is asked for", [A, B], ["--set-version", "3"], b"avsig 1\nversion 3\na 41\nb 4242\nc 43\nd 42\n"),
    ("the greatest version", [A, b"avsig 1\nversion 18446744073709551615\na 41\n"], [], b"avsig 1\nversion 18446744073709551615\na 41\nb 4242\n"),
]
# The sets by name, the status, and the line.
BAD = [
    ("another pattern", [A, b"avsig 1\nversion 1\nx 58\nb 4243\n"], 1, "1.avsig: b has another pattern in 0.avsig"), ("a longer one", [A, b"avsig 1\nversion 1\nb 424242\n"], 1, "1.avsig: b has another pattern in 0.avsig"),
    ("the file that the name came from", [A, B, b"avsig 1\nversion 1\na 41\nd 43\na.2 44\n"], 1, "2.avsig: d has another pattern in 1.avsig"),
    ("the first that clashes", [A, B, b"avsig 1\nversion 1\nd 43\na 42\n"], 1, "2.avsig: d has another pattern in 1.avsig"),
    ("another last place", [RANGED, b"avsig 2\nversion 1\ne 45 3 8\n"], 1, "1.avsig: e has another pattern in 0.avsig"), ("another first place", [RANGED, b"avsig 2\nversion 1\ne 45 2 9\n"], 1, "1.avsig: e has another pattern in 0.avsig"),
    ("no places", [RANGED, b"avsig 1\nversion 1\ne 45\n"], 1, "1.avsig: e has another pattern in 0.avsig"),
    ("a set without signatures", [A, b"avsig 1\nversion 3\n"], 1, "1.avsig: version 3 has no signatures"), ("a bad set", [A, b"avsig 1\nversion 3\na zz\n"], 1, "1.avsig:3: not pairs of hexadecimal digits"),
    ("a bad set before one that clashes", [b"avsig 3\n", A, b"avsig 1\nversion 1\na 42\n"], 1, "0.avsig:1: not `avsig 1` or `avsig 2`"), ("a clash before a bad set", [A, b"avsig 1\nversion 1\na 42\n", b"avsig 3\n"], 1, "1.avsig: a has another pattern in 0.avsig"),
    ("a set that is too large", [A, bytes(1048577)], 1, "1.avsig: TooLarge"), ("a set that isn't there", [A, None], 4, "1.avsig: cannot read"),
]


def run(words, folder, **options):
    done = subprocess.run(words, stdout=options.pop("stdout", subprocess.PIPE), stderr=subprocess.PIPE, timeout=SECONDS, cwd=folder, **options)
    return done.returncode, done.stdout, done.stderr


def write(folder, name, content):
    with open(os.path.join(folder, name), "wb") as file:
        file.write(content)
    return name


def read(folder, name):
    path = os.path.join(folder, name)
    if not os.path.exists(path):
        return None
    with open(path, "rb") as file:
        return file.read()


def put(folder, sets):
    """The names of these sets, of which one may not be there."""
    names = [f"{place}.avsig" for place in range(len(sets))]
    for name, content in zip(names, sets):
        if content is None:
            os.path.exists(os.path.join(folder, name)) and os.remove(os.path.join(folder, name))
        else:
            write(folder, name, content)
    return names


def worked(cases, tool, folder):
    for name, sets, words, wanted in GOOD:
        names = put(folder, sets)
        cases.same(name, run([tool, "merge", *words, *names], folder), (0, wanted, b""))
        cases.same(f"{name}, into a file", run([tool, "merge", "--output", "out", *words, *names], folder), (0, b"", b""))
        cases.same(f"{name}, the file", (read(folder, "out"), read(folder, "out.new")), (wanted, None))
        os.remove(os.path.join(folder, "out"))


def faults(cases, tool, folder):
    for name, sets, status, line in BAD:
        names = put(folder, sets)
        wanted = (status, b"", f"avtool: {line}\n".encode())
        cases.same(name, run([tool, "merge", *names], folder), wanted)
        write(folder, "out", b"old")
        cases.same(f"{name}, into a file", run([tool, "merge", "--output", "out", *names], folder), wanted)
        cases.same(f"{name}, the file", (read(folder, "out"), read(folder, "out.new")), (b"old", None))
    names = [write(folder, "two\nlines", A), write(folder, "o\x1b[1m", b"avsig 1\nversion 1\na 42\n")]
    cases.same("names with control characters", run([tool, "merge", *names], folder), (1, b"", b"avtool: o\\x1b[1m: a has another pattern in \"two\\nlines\"\n"))
    cases.same("the others are not read", run([tool, "merge", *names, "missing"], folder)[0], 1)
    for words in ([], ["--output", "out"], ["--set-version", "0", "two\nlines"], ["--nothing", "two\nlines"]):
        status, out, err = run([tool, "merge", *words], folder)
        cases.check(f"words {words}", (status, out) == (2, b"") and err.startswith(b"avtool: ") and err.endswith(b" (avtool --help tells more)\n") and err.count(b"\n") == 1, err)


def of(letter, count, size):
    return b"avsig 1\nversion 1\n" + b"".join(b"%s%d %s\n" % (letter, number, b"41" * size) for number in range(count))


def limits(cases, tool, folder):
    first = of(b"a", 1000, 16)
    many, bytes_ = b"avtool: 1.avsig: with it there are more than 1,024 signatures\n", b"avtool: 1.avsig: with it there are more than 16,384 bytes in all\n"
    for count, size, line in ((24, 16, None), (25, 1, many), (25, 16, many), (6, 64, None), (7, 64, bytes_), (24, 17, bytes_)):
        names = put(folder, [first, of(b"b", count, size)])
        status, out, err = run([tool, "merge", *names], folder)
        wanted = (1, b"", line) if line else (0, first + of(b"b", count, size).partition(b"version 1\n")[2], b"")
        cases.same(f"{count} of {size} bytes more", (status, out, err), wanted)
    names = put(folder, [first, of(b"b", 30, 64) + b"a7 42\n"])
    cases.same("a clash before a limit", run([tool, "merge", *names], folder), (1, b"", b"avtool: 1.avsig: a7 has another pattern in 0.avsig\n"))
    names = put(folder, [first, first, of(b"a", 1000, 16), of(b"a", 24, 16)])
    cases.same("what is there already counts once", run([tool, "merge", *names], folder), (0, first, b""))


def files(cases, tool, folder):
    """The file of --output is the old one, or whole."""
    names = put(folder, [A, B])
    wanted = GOOD[2][3]
    write(folder, "out", b"old")
    cases.same("a file that is there is replaced", (run([tool, "merge", "--output", "out", *names], folder), read(folder, "out")), ((0, b"", b""), wanted))
    cases.same("a set may be replaced", (run([tool, "merge", "--output", names[0], *names], folder), read(folder, names[0])), ((0, b"", b""), wanted))
    names = put(folder, [A, B])
    os.mkdir(os.path.join(folder, "folder"))
    for path in ("folder", "missing/out"):
        cases.same(f"no file can be at {path}", run([tool, "merge", "--output", path, *names], folder), (4, b"", f"avtool: {path}: cannot write\n".encode()))
        cases.same(f"nothing is left of {path}", read(folder, path + ".new"), None)
    os.mkdir(os.path.join(folder, "out.new"))
    write(folder, "out", b"old")
    cases.same("no file can be beside it", (run([tool, "merge", "--output", "out", *names], folder), read(folder, "out")), ((4, b"", b"avtool: out: cannot write\n"), b"old"))
    os.rmdir(os.path.join(folder, "out.new"))
    with open("/dev/full", "wb") as full:
        cases.same("a full device", run([tool, "merge", *names], folder, stdout=full), (4, None, b"avtool: device\n"))
    for is_forever in ("0", "1"):
        failing(cases, folder, "fail_io", [tool, "merge", "--output", "out", *names], wanted, FAIL_IO=CALLS, FAIL_FOREVER=is_forever)
    failing(cases, folder, "fail_nth", [tool, "merge", "--output", "out", *names], wanted, FAIL_NTH=REQUESTS)


def failing(cases, folder, name, words, wanted, **how):
    """A run of which each call fails in turn, or each request for memory: the file is the old one, or whole."""
    library = os.path.join(folder, name + ".so")
    subprocess.run(["cc", "-shared", "-fPIC", "-O1", "-o", library, os.path.join(HERE, name + ".c"), "-ldl"], check=True)
    numbers, well = next(value for value in how.values() if isinstance(value, range)), 0
    for number in numbers:
        write(folder, "out", b"old")
        environment = {key: str(number) if value is numbers else value for key, value in how.items()}
        status, out, err = run(words, folder, env=dict(os.environ, LD_PRELOAD=library, **environment))
        got = read(folder, "out")
        well += status == 0
        holds = out == b"" and (got == wanted if status == 0 else status in (3, 4) and got == b"old" and err.count(b"\n") <= 1)
        cases.check(f"{name} {environment}", holds, (status, out, err, got))
        os.path.exists(os.path.join(folder, "out.new")) and os.remove(os.path.join(folder, "out.new"))
    cases.check(f"{name} {how}: some runs fail, and some don't", 0 < well < len(numbers), well)


def drawn(chance):
    """A set of names and patterns that often meet those of another one."""
    signatures = {}
    for _ in range(chance.randrange(1, 6)):
        name = chance.choice("abcdefgh")
        span = chance.choice([(0, LAST)] * 6 + [(0, 3), (2, 5), (1, LAST)])
        usual = bytes([ord(name) - 32] * (1 + ord(name) % 3)), (0, LAST)
        pattern = usual if chance.random() < 0.8 else (bytes(chance.choice(b"AB") for _ in range(chance.randrange(1, 4))), span)
        signatures.setdefault(name, pattern)
    return chance.randrange(1, 20), list(signatures.items())


def spelled(version, signatures):
    bound = any(span != (0, LAST) for _, (_, span) in signatures)
    lines = [f"{name} {pattern.hex()}" + (" %d %d" % span if span != (0, LAST) else "") for name, (pattern, span) in signatures]
    return "\n".join([f"avsig {2 if bound else 1}", f"version {version}", *lines, ""]).encode()


def modelled(sets):
    """The merge of sets, or the line of what doesn't fit."""
    known = {}
    for place, (_, signatures) in enumerate(sets):
        for name, pattern in signatures:
            if name in known and known[name][0] != pattern:
                return None, f"avtool: {place}.avsig: {name} has another pattern in {known[name][1]}.avsig\n".encode()
        for name, pattern in signatures:
            known.setdefault(name, (pattern, place))
    return spelled(max(version for version, _ in sets), [(name, pattern) for name, (pattern, _) in known.items()]), None


def clean(program, folder, name, contents):
    """Which of these files are clean under a set."""
    status, out, err = run([program, "scan", name, *contents], folder)
    return [line.endswith(b" clean") for line in out.splitlines()]


def random_sets(cases, program, tool, folder):
    chance = random.Random(11)
    merged = 0
    for turn in range(RANDOM):
        sets = [drawn(chance) for _ in range(chance.randrange(1, 5))]
        names = put(folder, [spelled(*one) for one in sets])
        wanted, line = modelled(sets)
        got = run([tool, "merge", *names], folder)
        cases.same(f"random sets {turn}", got, (0, wanted, b"") if wanted else (1, b"", line))
        if wanted is None or got[0] != 0:
            continue
        merged += 1
        if turn % EVERY:
            continue
        write(folder, "all.avsig", got[1])
        contents = [write(folder, f"content{number}", bytes(chance.choice(b"ABCDEFGHxy") for _ in range(chance.randrange(0, 9)))) for number in range(CONTENTS)]
        each = [clean(program, folder, name, contents) for name in names]
        cases.same(f"clean under the merge as under each, {turn}", clean(program, folder, "all.avsig", contents), [len(of_all) == len(names) and all(of_all) for of_all in zip(*each)])
    cases.check("random sets fit and clash", RANDOM // 10 < merged < RANDOM - RANDOM // 10, merged)


def main():
    program = os.path.abspath(sys.argv[1])
    tool = program_beside(program, "avtool")
    cases = Cases()
    for part in (worked, faults, limits, files):
        with tempfile.TemporaryDirectory() as folder:
            part(cases, tool, folder)
    with tempfile.TemporaryDirectory() as folder:
        random_sets(cases, program, tool, folder)
    print(f"{cases.passed} passed, {cases.failed} failed")
    return 1 if cases.failed else 0


if __name__ == "__main__":
    sys.exit(main())
