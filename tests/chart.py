#!/usr/bin/env python3
"""Pictures of scripts' runs by the built program.

Those of tests/chart/*.svg are given byte for byte. Of every other script the picture is well-formed XML and printable ASCII, is the same
twice, and tells what the plain model does: a head of an arrow for each delivery, a cross for each message that never arrives, a bar for each
open that waits, question, job and piece of work, and a line for each answer, also where only some lines are drawn. Then scripts that can't
be drawn. The last line says how many passed and how many failed."""
import os, re, subprocess, sys, tempfile
import xml.etree.ElementTree as tree
import plain_world, random_scripts
from cases import Cases
from programs import program_beside

SECONDS = 60
SCRIPTS = 60
STEPS = 300
TOP = os.path.dirname(os.path.dirname(os.path.abspath(__file__)))
FOLDER = os.path.join(TOP, "tests", "chart")
SVG = "{http://www.w3.org/2000/svg}"
# each picture that is given, its script, and the lines that are drawn
GIVEN = [
    ("judge.svg", "examples/judge.avs", []), ("late_reply.svg", "examples/late_reply.avs", []),
    ("service_restarts.svg", "examples/service_restarts.avs", []), ("odd.svg", "tests/chart/odd.avs", []),
    ("random17.svg", "tests/chart/random17.avs", []), ("random17.from60to100.svg", "tests/chart/random17.avs", ["--from", "60", "--to", "100"]),
    ("write_all_spent_closed.svg", "tests/chart/write_all_spent_closed.avs", []),
]
# a name with each sign of XML, bytes that are no text, and names and contents that are cut
ODD = (b"volume 1 closed\npublish 1 41\ncreate <&\">'\nwrite <&\">' 0 42\nconnect\nup 1\nopen <&\">'\ncreate \xff\x80\ncreate " + b"n" * 255 + b"\nwrite " + b"n" * 255
       + b" 0 " + b"41" * 300 + b"\nopen " + b"n" * 255 + b" 18446744073709551615\n")


def run(program, words, **more):
    return subprocess.run([program_beside(program, "avtool"), "chart", *words], stderr=subprocess.PIPE, timeout=SECONDS, **{"stdout": subprocess.PIPE, **more})


def steps_of(script):
    """The number and the words of each command beside the lines that the model prints for it, the volume line first."""
    steps, world, limits = [], None, dict(plain_world.MAXIMA)
    for number, line in enumerate(script.splitlines(), 1):
        if line == "" or line.startswith("#"):
            continue
        words = line.split(" ")
        if world is not None:
            steps.append((number, words, plain_world.lines_of_command(world, line)))
        elif words[0] == "limit":
            limits[words[1]] = int(words[2])
        else:
            world = plain_world.World(int(words[1]), words[2] == "open", limits)
            steps.append((number, words, ["boot 1"]))
    return steps


class Wanted:
    """How many marks of each kind a picture of these steps has, where its first and last are counted from 0."""

    def __init__(self, steps, first, last):
        shows = lambda at: first <= at <= last
        sent, self.heads, self.answers, arrived = {}, 0, 0, set()
        for at, (_, words, lines) in enumerate(steps):
            taken = not (lines and lines[0].startswith("refused "))
            if words[0] in ("down", "up") and taken:
                arrived.add((words[0], words[1]))
                self.heads += shows(at)
            for line in lines:
                told = line.split(" ")
                if told[0] in ("down", "up"):
                    sent[told[0], told[1]] = at
                self.answers += shows(at) and told[0] == "open" and told[2] in ("granted", "denied", "unscanned")
        self.crosses = sum(1 for message, at in sent.items() if shows(at) and message not in arrived)
        lives = [line.split(" ") for _, _, lines in steps for line in lines]
        self.lives = {"bo": sum(1 for w in lives if w[0] == "open" and w[2] == "pended"), "bq": sum(1 for w in lives if w[0] == "down" and w[2] == "scan"),
                      "bw": sum(1 for w in lives if w[0] == "work")}


def check_whole(cases, name, steps, picture, first, last):
    """A picture tells what the model does."""
    try:
        root = tree.fromstring(picture)
    except tree.ParseError as wrong:
        cases.check(f"{name}: its XML", False, wrong)
        return
    cases.check(f"{name}: its bytes", all(byte == 10 or 32 <= byte <= 126 for byte in picture), "a byte that is no printable ASCII")
    wanted, paths = Wanted(steps, first, last), [path.get("class") for path in root.iter(SVG + "path")]
    cases.same(f"{name}: heads of arrows", paths.count("hd") + paths.count("hu"), wanted.heads)
    cases.same(f"{name}: answers", sum(paths.count(kind) for kind in ("granted", "denied", "unscanned")), wanted.answers)
    cases.same(f"{name}: crosses", paths.count("x"), 2 * (wanted.crosses + 1))
    if (first, last) == (0, len(steps) - 1):
        blocks = [block.get("class") for block in root.iter(SVG + "rect")]
        cases.same(f"{name}: bars", {kind: blocks.count(kind) - 1 for kind in wanted.lives}, wanted.lives)


def check(cases, program, work, name, script):
    path = os.path.join(work, "script.avs")
    with open(path, "wb") as file:
        file.write(script)
    done = run(program, [path])
    cases.same(name, (done.returncode, done.stderr), (0, b""))
    cases.same(f"{name}: once more", run(program, [path]).stdout, done.stdout)
    steps = steps_of(script.decode("latin-1"))
    check_whole(cases, name, steps, done.stdout, 0, len(steps) - 1)
    first, last = len(steps) // 3, 2 * len(steps) // 3
    part = run(program, [path, "--from", str(steps[first][0]), "--to", str(steps[last][0])])
    cases.same(f"{name}, in part", (part.returncode, part.stderr), (0, b""))
    check_whole(cases, f"{name}, in part", steps, part.stdout, first, last)


def given(cases, program):
    for picture, script, lines in GIVEN:
        done = run(program, [os.path.join(TOP, script), *lines])
        with open(os.path.join(FOLDER, picture), "rb") as wanted:
            cases.check(picture, (done.returncode, done.stderr, done.stdout) == (0, b"", wanted.read()), f"another picture, status {done.returncode}, {done.stderr!r}")


def faults(cases, program, work):
    path = os.path.join(work, "script.avs")
    with open(path, "wb") as file:
        file.write(b"volume 1 closed\nconnect\n")
    done = run(program, [path, "--from", "3", "--to", "9"])
    cases.same("no command in the lines", (done.returncode, done.stdout, done.stderr), (1, b"", b"avtool: no command from line 3 to line 9\n"))
    with open("/dev/full", "wb") as full:
        done = run(program, [path], stdout=full)
    cases.same("a full device", (done.returncode, done.stderr), (4, b"avtool: device\n"))
    with open(path, "wb") as file:
        file.write(b"volume 1 closed\nbogus\n")
    done = run(program, [path])
    asked = subprocess.run([program, "run", path], stdout=subprocess.PIPE, stderr=subprocess.PIPE, timeout=SECONDS)
    cases.same("a bad script", (done.returncode, done.stdout, done.stderr), (asked.returncode, b"", asked.stderr.replace(b"avscan: ", b"avtool: ", 1)))
    missing = os.path.join(work, "nobody.avs")
    done = run(program, [missing])
    asked = subprocess.run([program, "run", missing], stdout=subprocess.PIPE, stderr=subprocess.PIPE, timeout=SECONDS)
    cases.same("a script that isn't there", (done.returncode, done.stdout, done.stderr), (asked.returncode, b"", asked.stderr.replace(b"avscan: ", b"avtool: ", 1)))


def main():
    if len(sys.argv) != 2:
        sys.exit("usage: tests/chart.py PROGRAM")
    program, cases = os.path.abspath(sys.argv[1]), Cases()
    given(cases, program)
    with tempfile.TemporaryDirectory() as work:
        for number in range(SCRIPTS):
            first, commands, _ = random_scripts.played(number, STEPS)
            check(cases, program, work, f"script {number}", "".join(line + "\n" for line in first + [line for line, _ in commands]).encode())
        folder = os.path.join(TOP, "tests", "conduct")
        for file in sorted(os.listdir(folder)):
            with open(os.path.join(folder, file)) as text:
                script, _, _ = text.read().partition("--- out\n")
            check(cases, program, work, file, script.encode())
        path = os.path.join(work, "odd.avs")
        with open(path, "wb") as file:
            file.write(ODD)
        done = run(program, [path])
        cases.same("odd bytes", (done.returncode, done.stderr), (0, b""))
        cases.check("odd bytes: their XML", tree.fromstring(done.stdout) is not None)
        faults(cases, program, work)
    print(f"{cases.passed} passed, {cases.failed} failed")
    sys.exit(1 if cases.failed else 0)


if __name__ == "__main__":
    main()
