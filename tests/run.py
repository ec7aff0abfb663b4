#!/usr/bin/env python3
"""Runs the built program on every case of tests/ and compares what it writes, byte by byte.

A case is one file, NAME.case: what stands on standard input, and then parts that begin with a line of their own:
  --- made by   a shell command that prints standard input, where it is too large to keep
  --- args      the words of the command line, one a line
  --- out       what is to be written to standard output
  --- err       what is to be written to standard error
  --- status    the exit status
What is missing is empty, or 0 for the status. A part whose last line has no line feed has the line `\\ no line feed` behind it.
Each case runs in tests/data. The last line says how many passed and how many failed."""
import os, re, subprocess, sys

SECONDS = 60
DATA = os.path.join(os.path.dirname(os.path.abspath(__file__)), "data")
HEADING = re.compile(rb"^--- (made by|args|out|err|status)\n", re.M)
UNENDED = b"\n\\ no line feed\n"


def parts_of(path):
    with open(path, "rb") as file:
        pieces = HEADING.split(file.read())
    parts = {"in": pieces[0], **{name.decode(): text for name, text in zip(pieces[1::2], pieces[2::2])}}
    return {name: text.removesuffix(UNENDED) for name, text in parts.items()}


def standard_input(parts):
    if "made by" in parts:
        return subprocess.run(["sh", "-c", parts["made by"]], stdout=subprocess.PIPE, check=True).stdout
    return parts["in"]


def first_difference(wanted, got):
    at = next((i for i, (w, g) in enumerate(zip(wanted, got)) if w != g), min(len(wanted), len(got)))
    line = wanted[:at].count(b"\n") + 1
    start = wanted.rfind(b"\n", 0, at) + 1
    return f"line {line}: wanted {wanted[start:start + 100]!r}, got {got[start:start + 100]!r}"


def complaints(program, path):
    parts = parts_of(path)
    words = parts.get("args", b"").decode().splitlines()
    run = subprocess.run([program] + words, input=standard_input(parts), stdout=subprocess.PIPE,
                         stderr=subprocess.PIPE, timeout=SECONDS, cwd=DATA)
    found = []
    for what, got in (("out", run.stdout), ("err", run.stderr)):
        wanted = parts.get(what, b"")
        if wanted != got:
            found.append(f"{what} differs at {first_difference(wanted, got)}")
    status = int(parts.get("status", b"0"))
    if status != run.returncode:
        found.append(f"status {run.returncode}, wanted {status}")
    return found


def attempt(program, path):
    try:
        return complaints(program, path)
    except Exception as fault:
        return [f"{type(fault).__name__}: {fault}"]


def cases(folder):
    files = os.listdir(folder) if os.path.isdir(folder) else []
    return sorted(os.path.join(folder, file) for file in files if file.endswith(".case"))


def main():
    if len(sys.argv) < 3:
        sys.exit("usage: tests/run.py PROGRAM FOLDER..")
    program = os.path.abspath(sys.argv[1])
    passed = failed = 0
    for folder in sys.argv[2:]:
        paths = cases(folder)
        if not paths:
            failed += 1
            print(f"{folder}: no case is there")
        for path in paths:
            found = attempt(program, path)
            if found:
                failed += 1
                for line in found:
                    print(f"{path}: {line}")
            else:
                passed += 1
    print(f"{passed} passed, {failed} failed")
    sys.exit(1 if failed else 0)


if __name__ == "__main__":
    main()
