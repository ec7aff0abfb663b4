#!/usr/bin/env python3
"""Makes the rows of av_script's tests of refused memory from the cases of tests/scripts: `row_tables.py [--check]`.

A row is the script and the lines of the case of its name, less what the case that is its head begins with. Which cases are rows, and in
which order, is said by the names that stand in the two files. With --check nothing is written: the last line says how many rows are as
they are made, and how many are not."""
import os
import re
import sys

from cases import Cases
from run import parts_of

TOP = os.path.dirname(os.path.dirname(os.path.abspath(__file__)))
CASES, ROWS = f"{TOP}/tests/scripts", f"{TOP}/crates/av_script/src/tests"
# The longest first.
HEADS = (("Scanned", "an_open_waits_while_its_content_is_scanned"), ("Connected", "a_service_connects_and_is_welcome"))
ROW = re.compile(r'    Row \{\n        name: "(\w+)",\n.*?\n    \},\n', re.S)
CONSTANT = re.compile(r'pub const (\w+): &\[u8\] = b".*?";\n', re.S)
PART = re.compile(r'    Row \{\n.*?\n    \},\n|pub const \w+: &\[u8\] = b".*?";\n', re.S)


def case(name):
    """The script and the lines of a case."""
    parts = parts_of(f"{CASES}/{name}.case")
    return parts["in"].decode(), parts.get("out", b"").decode()


def literal(text, indent=12):
    """A text as bytes of a Rust file."""
    lines = [line.replace('"', '\\"') + "\\n" for line in text.splitlines()]
    if len(lines) < 2:
        return f'b"{"".join(lines)}"'
    return 'b"\\\n' + "\\\n".join(" " * indent + line for line in lines) + '"'


def constants():
    """The heads' scripts and lines, the longer one less the other."""
    (_, scanned), (_, connected) = HEADS
    (script, told), (first, lines) = case(scanned), case(connected)
    texts = {"CONNECTED": first, "CONNECTED_LINES": lines, "SCANNED": script.removeprefix(first), "SCANNED_LINES": told.removeprefix(lines)}
    return {name: f'pub const {name}: &[u8] = {literal(text, 4)};\n' for name, text in texts.items()}


def row(name):
    script, told = case(name)
    for head, of in HEADS:
        first, lines = case(of)
        if script.startswith(first):
            break
    else:
        head, first, lines = "Nothing", "", ""
    commands, behind = literal(script.removeprefix(first)), literal(told.removeprefix(lines))
    return f'    Row {{\n        name: "{name}",\n        head: Head::{head},\n        commands: {commands},\n        lines: {behind},\n    }},\n'


def main(words):
    cases = Cases()
    for file in ("rows.rt", "port_rows.rt"):
        path = f"{ROWS}/{file}"
        with open(path, encoding="utf-8") as old:
            text = old.read()
        made = CONSTANT.sub(lambda found: constants()[found.group(1)], ROW.sub(lambda found: row(found.group(1)), text))
        for found, wanted in zip(PART.findall(text), PART.findall(made)):
            cases.same(file, found, wanted)
        if words != ["--check"]:
            with open(path, "w", encoding="utf-8") as new:
                new.write(made)
    print(f"{cases.passed} passed, {cases.failed} failed")
    return int(words == ["--check"] and cases.failed > 0)


if __name__ == "__main__":
    sys.exit(main(sys.argv[1:]))
