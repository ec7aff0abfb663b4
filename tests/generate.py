#!/usr/bin/env python3
"""Scripts that the program generates: those of tests/generate to the byte, each seed the same twice, each script good, run as the plain model
runs it, and together they reach most rows of rows.py.

tests/generate/PROFILE.SEED.COMMANDS.avs are scripts that another program drew by what docs/FORMATS.md says of random scripts. The last line
says how many passed and how many failed."""
import collections, os, re, subprocess, sys
import plain_world, rows
from cases import Cases
from programs import program_beside

SECONDS = 60
HERE = os.path.dirname(os.path.abspath(__file__))
SEEDS = 30
COMMANDS = 1000
# Of the rows of the conduct so many are reached by the profile deep in so many commands.
ROWS = 95


def generate(program, *words, **how):
    done = subprocess.run([program_beside(program, "avtool"), "generate", *map(str, words)], stdout=how.get("stdout", subprocess.PIPE), stderr=subprocess.PIPE, timeout=SECONDS)
    return done.returncode, done.stdout, done.stderr


def stored(cases, program):
    for name in sorted(os.listdir(f"{HERE}/generate")):
        profile, seed, commands, _ = name.split(".")
        with open(f"{HERE}/generate/{name}", "rb") as file:
            wanted = file.read()
        cases.same(name, generate(program, "--seed", seed, "--commands", commands, "--profile", profile), (0, wanted, b""))
        if profile == "deep":
            cases.same(f"{name}, without a profile", generate(program, "--seed", seed, "--commands", commands), (0, wanted, b""))


def world_of(head):
    """The plain model's world of a script's first lines."""
    limits = dict(plain_world.MAXIMA)
    limits.update((line.split()[1], int(line.split()[2])) for line in head[:-1])
    _, number, mode = head[-1].split()
    return plain_world.World(int(number), mode == "open", limits)


def drawn(cases, program, seed, profile, reached):
    """A script of many commands: it has so many, is run without a fault, and prints what the plain model does."""
    name = f"seed {seed}, {profile}"
    status, text, err = generate(program, "--seed", seed, "--commands", COMMANDS, "--profile", profile)
    lines = text.decode().splitlines()
    volume = next((at for at, line in enumerate(lines) if re.fullmatch("volume 1 (open|closed)", line)), 0)
    head, commands = lines[: volume + 1], lines[volume + 1 :]
    cases.same(name, (status, err, len(commands)), (0, b"", COMMANDS))
    cases.same(f"{name}, again", generate(program, "--seed", seed, "--commands", COMMANDS, "--profile", profile)[1], text)
    shorter = generate(program, "--seed", seed, "--commands", COMMANDS // 2, "--profile", profile)[1]
    cases.same(f"{name}, half of it", shorter.decode().splitlines(), lines[: volume + 1 + COMMANDS // 2])
    world = world_of(head)
    for command in commands:
        reached[rows.row_of(world, command)] += 1
        plain_world.lines_of_command(world, command)
    done = subprocess.run([program, "run", "-"], input=text, stdout=subprocess.PIPE, stderr=subprocess.PIPE, timeout=SECONDS)
    cases.same(f"{name}, run", (done.returncode, done.stderr, done.stdout.decode().splitlines()), (0, b"", world.lines))


def ends(cases, program):
    """The least and the greatest numbers, a hundred thousand commands, and a full device."""
    most = str(2**64 - 1)
    cases.check("the least", re.fullmatch(rb"(limit \w+ \d+\n)*volume 1 \w+\n.+\n", generate(program, "--seed", 0, "--commands", 1)[1]))
    cases.check("the greatest seed", generate(program, "--seed", most, "--commands", 1)[0] == 0)
    status, text, _ = generate(program, "--seed", 3, "--commands", 100_000)
    cases.check("a hundred thousand", status == 0 and 100_001 <= text.count(b"\n") <= 100_009, f"{status}, {text.count(10)} lines")
    for words in (("--seed", "-1", "--commands", "1"), ("--seed", str(2**64), "--commands", "1"), ("--seed", "1", "--commands", "0"),
                  ("--seed", "1", "--commands", "100001"), ("--seed", "1"), ("--commands", "1"), ("--seed", "1", "--commands", "1", "--profile", "odd")):
        status, out, err = generate(program, *words)
        cases.check(" ".join(words), (status, out) == (2, b"") and re.fullmatch(rb"avtool: [^\n]+\n", err), f"{status}, {out[:50]!r}, {err!r}")
    with open("/dev/full", "wb") as full:
        cases.same("a full device", generate(program, "--seed", 1, "--commands", 100, stdout=full), (4, None, b"avtool: device\n"))


def main():
    if len(sys.argv) != 2:
        sys.exit("usage: tests/generate.py PROGRAM")
    cases, program, reached = Cases(), os.path.abspath(sys.argv[1]), collections.Counter()
    stored(cases, program)
    for seed in range(1, SEEDS + 1):
        drawn(cases, program, seed, "deep", reached)
    count = sum(1 for row in rows.ROWS if reached[row])
    cases.check("rows of the conduct", count >= ROWS, f"{count} of {len(rows.ROWS)} were reached")
    for seed in range(1, 6):
        drawn(cases, program, seed, "uniform", collections.Counter())
    ends(cases, program)
    print(f"{cases.passed} passed, {cases.failed} failed")
    sys.exit(1 if cases.failed else 0)


if __name__ == "__main__":
    main()
