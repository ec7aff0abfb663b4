#!/usr/bin/env python3
"""Writes README.md's table of figures from what the pages of bench/ keep of the benches' output: `figures.py [--check]`.

A row of FIGURES is what was measured, the page and heading under which the output stands, a pattern for it, and how the figures that the
pattern finds are told. With --check nothing is written: the last line says how many rows are as they are made, and how many are not."""
import os
import re
import sys

TOP = os.path.dirname(os.path.dirname(os.path.abspath(__file__)))
BEGIN, END = "<!-- written by bench/figures.py -->\n", "<!-- as far as here -->\n"
TABLES, PAGE = "SCAN-TABLES.md", "README.md"
# A set and a file of bench/scan, with the columns of avscan and Hyperscan.
SCANNED = r"^{0} +{1} +(?P<{2}>[\d.]+)(?: +[\d.]+){{7}} +(?P<{2}_hs>[\d.]+) "
COLD = r"^ *([\d,]+) bytes: +(?P<{0}>[\d.]+) us an open, .* ratio (?P<{0}_part>[\d.]+)$"
APART = r"^ *{1} bytes: .*\n +(?P<{0}>[\d.]+) us an open of filter and service"
FIGURES = (
    ("scanning code in memory for 10, 100 and 1,000 random patterns of 16 bytes", TABLES, "Everything",
     [SCANNED.format(f"r16-{count}", "code", f"n{count}") for count in (10, 100, 1000)],
     "{n10}, {n100} and {n1000} GB/s; Hyperscan {n10_hs}, {n100_hs} and {n1000_hs}"),
    ("scanning code for 100 patterns that are cut from other code", TABLES, "Everything", [SCANNED.format("code-100", "code", "n")],
     "{n} GB/s; Hyperscan {n_hs}"),
    ("scanning code and random bytes for one pattern", TABLES, "Everything",
     [SCANNED.format("r16-1", "code", "code"), SCANNED.format("r16-1", "random", "random")],
     "{code} and {random} GB/s; Hyperscan {code_hs} and {random_hs}"),
    ("`avscan scan -r -i /usr`, {files} files of {bytes} bytes in memory, ten patterns", PAGE, "bench/scan: a whole tree",
     [r"/usr: (?P<files>[\d,]+) files, (?P<bytes>[\d,]+) bytes", r"^avscan scan -r -i +(?P<ours>[\d.]+) s,.* peak +(?P<peak>[\d,]+) KiB",
      r"^cat +(?P<cat>[\d.]+) s", r"^grep -rF +(?P<grep>[\d.]+) s"],
     "{ours} s in {peak} KiB; `cat` {cat} s, `grep -rF` {grep} s"),
    ("`avscan scan` of one file of 1 GiB in memory, ten patterns, with one thread and with four", PAGE, "bench/scan: one large file",
     [r"^10 random patterns(?:.*\n)avscan scan -j 1 +(?P<one>[\d.]+) s(?:.*\n){2}avscan scan -j 4 +(?P<four>[\d.]+) s(?:.*\n){2}rg -uuu -a -F -j 1 +(?P<rg>[\d.]+) s"],
     "{one} and {four} s; `rg` {rg} s"),
    ("`avscan scan` of one file of one byte, with 1,024 patterns of 16 bytes and with 256 of 64, the build of the set included", PAGE, "bench/scan: the start of a scan",
     [r"^1,024 of 16 bytes +(?P<many>[\d.]+) ms.* clamscan +(?P<many_c>[\d.]+) ms", r"^256 of 64 bytes +(?P<long>[\d.]+) ms.* clamscan +(?P<long_c>[\d.]+) ms"],
     "{many} and {long} ms; `clamscan` {many_c} and {long_c} ms"),
    ("an open that the filter answers from what it knows", PAGE, "bench/filter",
     [r"^open from its context +(?P<few>[\d,]+) \( 1.00\) +[\d,]+ \( 1.00\) +(?P<many>[\d,]+) \("],
     "{few} ns among 64 streams, {many} ns among 65,536 far apart"),
    ("a file that nobody has judged, opened through `avscan host`, of 1 KiB, 64 KiB and 1 MiB", PAGE, "bench/host",
     [COLD.format(name).replace("([\\d,]+)", size) for name, size in (("small", "1,024"), ("middle", "65,536"), ("large", "1,048,576"))],
     "{small}, {middle} and {large} us: {small_part}, {middle_part} and {large_part} of clamd's time"),
    ("the same files, a time a file, through `avscan filter`, which submits its opens together, and `avscan service`", PAGE, "bench/host",
     [APART.format(name, size) for name, size in (("small", "1,024"), ("middle", "65,536"), ("large", "1,048,576"))],
     "{small}, {middle} and {large} us"),
    ("opens of 1 KiB a second, four openers", PAGE, "bench/host",
     [r"^4 openers and workers: +(?P<ours>[\d,]+) opens .* clamd with 4 clients +(?P<theirs>[\d,]*\d)"], "{ours}; clamd's four clients {theirs}"),
    ("20,000 files of 512 KiB, 10 GiB in all, opened through `avscan host`", PAGE, "bench/host",
     [r"^20,000 files of 524,288 bytes: (?P<seconds>[\d.]+) s, (?P<all>[\d.]+) MiB; 100 of them (?P<some>[\d.]+) MiB"],
     "{seconds} s in {all} MiB; 100 of them in {some} MiB"),
    ("a content that a guard is asked about, by one client: known, and unknown of 1 KiB, 64 KiB, 1 MiB and 1 GiB", PAGE, "bench/guard",
     [r"^\| a known content, 1 KiB \| (?P<known>[\d.]+ us) .*? \| (?P<known_c>[\d,.]+ us) ", r"^\| an unknown one, 1 KiB \| (?P<small>[\d.]+ us) .*? \| (?P<small_c>[\d,.]+ us) ",
      r"^\| 64 KiB, in parts \| (?P<middle>[\d.]+ \w+), .*? \| (?P<middle_c>[\d,.]+ ms) ", r"^\| 1 MiB, in parts \| (?P<large>[\d.]+ \w+), .*? \| (?P<large_c>[\d,.]+ ms) ",
      r"^\| 1 GiB, in parts \| (?P<long>[\d.]+ \w+), .*? \| (?P<long_c>[\d,.]+ s) "],
     "{known}, {small}, {middle}, {large} and {long}; clamd {known_c}, {small_c}, {middle_c}, {large_c} and {long_c}"),
    ("10,000 steps of a script, of both cores with their frames", PAGE, "bench/world",
     [r"^ 1,000 streams, 1/1: .*? (?P<few>[\d.]+) ms for 10,000 steps", r"^65,536 streams, 1/1: .*? (?P<many>[\d.]+) ms for 10,000 steps"],
     "{few} ms over 1,000 streams, {many} ms over 65,536"),
)


def section(page, heading):
    """What stands under a heading of a page of bench/."""
    with open(f"{TOP}/bench/{page}", encoding="utf-8") as file:
        for part in file.read().split("\n## ")[1:]:
            if part.startswith(heading):
                return part
    raise ValueError(f"bench/{page}: there is no heading {heading}")


def row(what, page, heading, patterns, told):
    found, text = {}, section(page, heading)
    for pattern in patterns:
        match = re.search(pattern, text, re.M)
        if match is None:
            raise ValueError(f"bench/{page}, {heading}: nothing is like {pattern}")
        found |= match.groupdict()
    return f"| {what.format(**found)} | {told.format(**found)} |"


def main(words):
    path = f"{TOP}/README.md"
    with open(path, encoding="utf-8") as file:
        before, rest = file.read().split(BEGIN)
    old, behind = rest.split(END)
    rows = ["| What | Figure |", "|---|---|", *(row(*figure) for figure in FIGURES)]
    if words == ["--check"]:
        stale = [line for line in rows if line not in old.splitlines()]
        print("\n".join(f"README.md: not as bench/ has it: {line}" for line in stale))
        print(f"{len(rows) - len(stale)} passed, {len(stale)} failed")
        return int(bool(stale))
    with open(path, "w", encoding="utf-8") as file:
        file.write(before + BEGIN + "\n".join(rows) + "\n" + END + behind)
    return 0


if __name__ == "__main__":
    sys.exit(main(sys.argv[1:]))
