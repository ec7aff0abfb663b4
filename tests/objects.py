#!/usr/bin/env python3
"""Scripts and files as JSON by the built program: the objects must go back to the very lines that the plain model prints, or of files the program.

Each line is read by Python's reader, which must find no key twice and write the same line again; then each object becomes the line that
docs/FORMATS.md has for it. The scripts are random ones and those of tests/conduct; the names of files have all that JSON writes in its own way. The last line says how many passed and how many failed."""
import json, os, re, subprocess, sys, tempfile
import random_scripts
from cases import Cases

SECONDS = 60
SCRIPTS = 100
STEPS = 300
CAUSES = {1: "no stream", 2: "infected", 3: "not connected", 4: "busy", 5: "timed out", 6: "service lost", 7: "scan failed", 8: "unsettled", 9: "removed", 10: "filter restarted"}
FORMS = {
    "boot": "boot {boot}", "set": "version {version} signatures {signatures}", "removed": "removed {stream}", "note": "note {note}",
    "judge": "judge {stream} generation {generation} version {version} {verdict}",
    "granted": "open {open} granted stream {stream} generation {generation} version {version} least {least}",
    "unscanned": "open {open} unscanned stream {stream} generation {generation} cause {cause}",
    "denied": "open {open} denied cause {cause}", "pended": "open {open} pended",
    "work": "work {work} lent {boot}.{seq} offset {offset} length {length}",
    "hello": "{way} hello volume {volume} version {version}", "updated": "{way} updated {version}",
    "scan": "{way} scan {boot}.{seq} stream {stream} generation {generation} length {length}",
    "chunk": "{way} chunk {boot}.{seq} offset {offset} bytes {bytes}", "nochunk": "{way} nochunk {boot}.{seq} offset {offset} cause {cause}",
    "read": "{way} read {boot}.{seq} offset {offset} count {count}", "abort": "{way} abort {boot}.{seq}",
}

FILE_FORMS = {
    "clean": "{file} clean", "infected": "{file} infected {index} {name} end {end}", "granted": "{file} granted generation {generation} version {version}",
    "denied": "{file} denied cause {cause}",
}
FILE_KEYS = {
    "clean": ["file", "verdict", "version"], "infected": ["file", "verdict", "version", "index", "name", "end"],
    "granted": ["file", "answer", "generation", "version"], "denied": ["file", "answer", "cause", "why"],
}
VERSION = 7
SET = b"avsig 1\nversion 7\nfirst 5959\ntwo.x 5858\n"
NAMES = ["plain", "other", "a b", 'q"uote', "back\\slash", "tab\there", "bell\x07", "delete\x7f", "é", "日本", "🦊", '{"file":1}', "line\u2028",
         "next\x85line", "controls\x80\x9f\xa0", "\u061cmark", "left\u200eright\u200f", "evil\u202egpj.exe", "\\\u202a\u202d", "\u2066isolate\u2069"]
# What a terminal or an editor acts on instead of showing it: DEL, the controls after it, and marks of the direction of a text.
HIDDEN = re.compile("[\x7f-\x9f\u061c\u200e\u200f\u202a-\u202e\u2066-\u2069]")


def once(pairs):
    members = dict(pairs)
    if len(members) != len(pairs):
        raise ValueError("a key stands twice")
    return members


def line_of(told):
    """The line that an object tells. What names a port is of the second one, says so last, and is a message or a work."""
    if "port" not in told:
        return body_of(told)
    if told["port"] != 2 or list(told)[-1] != "port" or not {"down", "up", "work"} & set(told):
        raise ValueError(f"a port in {told}")
    return body_of({name: told[name] for name in told if name != "port"}) + " port 2"


def body_of(told):
    """The same without its port."""
    kind, fields = told["is"], dict(told)
    fields["way"] = f"down {told['down']}" if "down" in told else f"up {told['up']}" if "up" in told else ""
    if fields.get("verdict") == "infected":
        fields["verdict"] = "infected {index} end {end}".format_map(told)
    if "why" in told and CAUSES[told["cause"]] != told["why"]:
        raise ValueError(f"{told['why']!r} is no cause {told['cause']}")
    if kind == "stream":
        return "stream {stream} generation {generation}".format_map(told) + (f" length {told['length']}" if "length" in told else "")
    if kind == "reply":
        how = f"failed {told['cause']}" if told["verdict"] == "failed" else "version {version} {verdict}".format_map(fields)
        return "{way} reply {boot}.{seq} ".format_map(fields) + how
    return FORMS[kind].format_map(fields)


def spelt(told):
    """The line of an object: hidden characters are escapes, and all others that JSON doesn't escape are as they are."""
    line = json.dumps(told, separators=(",", ":"), ensure_ascii=False)
    return HIDDEN.sub(lambda hidden: f"\\u{ord(hidden[0]):04x}", line)


def read_back(line):
    """What a line of JSON tells, where it is written as it is read."""
    told = json.loads(line, object_pairs_hook=once)
    if spelt(told) != line:
        raise ValueError(f"{line} is not written as it is read")
    return told


def lines_back(text):
    """The number and the text of each command, and the lines that its object tells."""
    for line in text.decode().splitlines():
        told = read_back(line)
        yield told["line"], told["command"], [f"refused {told['refused']}"] if "refused" in told else [line_of(one) for one in told["did"]]


def check(cases, program, name, script, lines):
    done = subprocess.run([program, "run", "--json", "-"], input=script.encode(), stdout=subprocess.PIPE, stderr=subprocess.PIPE, timeout=SECONDS)
    try:
        back = list(lines_back(done.stdout))
    except (ValueError, LookupError) as wrong:
        cases.check(name, False, repr(wrong))
        return
    numbered = [(number, line) for number, line in enumerate(script.splitlines(), 1) if not re.match("#|limit |$", line)]
    cases.same(name, (done.returncode, done.stderr, [line for *_, told in back for line in told]), (0, b"", lines))
    cases.same(f"{name}: its commands", [(number, command) for number, command, _ in back], numbered)


def file_line(line):
    """The line of a file that its object tells, and the version in it."""
    told = read_back(line)
    kind = told.get("verdict") or told["answer"]
    if list(told) != FILE_KEYS[kind]:
        raise ValueError(f"{line} has other keys than {FILE_KEYS[kind]}")
    if "why" in told and CAUSES[told["cause"]] != told["why"]:
        raise ValueError(f"{told['why']!r} is no cause {told['cause']}")
    return FILE_FORMS[kind].format_map(told), told.get("version", VERSION)


def check_files(cases, program, work, command, *words):
    """What a command writes as JSON goes back to what it writes in words under the names as they are, and its faults and status are the same."""
    def run(*form, without=()):
        done = subprocess.run([program, command, *form, *[word for word in words if word not in without]], cwd=work, stdout=subprocess.PIPE, stderr=subprocess.PIPE, timeout=SECONDS)
        return done.returncode, done.stderr, done.stdout.decode()

    # (with -i and --print0 a scan writes names alone: its lines are those of the infected files of a run without -i)
    names_alone = command == "scan" and "-i" in words
    status, faults, lines = run("--print0", without=["-i"] if names_alone else [])
    if names_alone:
        lines = "".join(line + "\0" for line in lines.split("\0") if re.search(" infected [0-9]+ [^ ]+ end [0-9]+$", line))
    got_status, got_faults, objects = run("--json")
    name = f"{command} --json {' '.join(words)}"
    try:
        back = [file_line(line) for line in objects.split("\n")[:-1] if not re.match(r'\{"file":("[^"]*"|"(\\.|[^"\\])*"),"fault":|\{"scanned":', line)]
    except (ValueError, LookupError) as wrong:
        cases.check(name, False, repr(wrong))
        return
    cases.same(name, (got_status, got_faults, "".join(f"{line}\0" for line, _ in back)), (status, faults, lines))
    cases.check(f"{name}: the version", all(version == VERSION for _, version in back), objects)


def files(cases, program):
    """Files of all kinds of names, clean and infected ones."""
    with tempfile.TemporaryDirectory() as work:
        contents = [("set.avsig", SET)] + [(name, (b"ABC", b"AXX", b"YY", b"")[i % 4]) for i, name in enumerate(NAMES)]
        for name, content in contents:
            with open(os.path.join(work, name), "wb") as file:
                file.write(content)
        streams = [name for name in NAMES if all(32 < ord(letter) < 127 for letter in name)]
        for words in ([], ["-i"], ["-i", "--found-status", "--summary"]):
            check_files(cases, program, work, "scan", *words, "set.avsig", *NAMES)
            check_files(cases, program, work, "scan", *words, "set.avsig", "nobody", *NAMES)
            check_files(cases, program, work, "scan", "-k", *words, "set.avsig", "nobody", *NAMES)
            check_files(cases, program, work, "scan", "-r", *words, "set.avsig", ".")
            check_files(cases, program, work, "host", *words, "set.avsig", *streams)
            check_files(cases, program, work, "filter", *words, "--wait", "1", "s", *streams)


def told(cases, program):
    """What standard output alone tells of files that were not scanned, each at its place, and of the counts at the end."""
    with tempfile.TemporaryDirectory() as work:
        at = os.fsencode(work)
        os.makedirs(os.path.join(work, "tree/b"))
        for name, content in ((b"set.avsig", SET), (b"clean", b"ABC"), (b"two", b"AXX"), (b"large", b"A" * 11), (b"tree/a", b"YY"), (b"tree/b/c", b""), (b"tree/b/large", b"A" * 11), (b"tree/n\xff", b"YY"), (b'tree/q"\x1b', b"XX"), (b"tree/z", b"A"), (b"tree/skip", b"XX")):
            with open(os.path.join(at, name), "wb") as file:
                file.write(content)
        clean = lambda name: '{"file":"%s","verdict":"clean","version":7}' % name
        found = lambda name, index, signature, end: '{"file":"%s","verdict":"infected","version":7,"index":%d,"name":"%s","end":%d}' % (name, index, signature, end)
        missed = lambda name, why, key="file": '{"%s":"%s","fault":"%s"}' % (key, name, why)
        counts = lambda scanned, infected, not_scanned, *left: '{"scanned":%d,"infected":%d,"not_scanned":%d%s}' % (scanned, infected, not_scanned, "".join(',"left_out":%d' % n for n in left))
        line = lambda scanned, infected, not_scanned, *left: "avscan: %d files scanned, %d infected, %d not scanned%s\n" % (scanned, infected, not_scanned, "".join(", %d left out" % n for n in left))
        say = lambda name, why: f"avscan: {name}: {why}\n"
        named = [missed("gone", "cannot read"), clean("clean"), missed("large", "TooLarge"), missed("tree", "cannot read"), found("two", 1, "two.x", 3)]
        named_faults = say("gone", "cannot read") + say("large", "TooLarge") + say("tree", "cannot read")
        below = [found("tree/a", 0, "first", 2), clean("tree/b/c"), missed("tree/b/large", "TooLarge"), missed("747265652f6eff", "the name is not UTF-8", "file_hex"), found('tree/q\\"\\u001b', 1, "two.x", 2), found("tree/skip", 1, "two.x", 2), clean("tree/z")]
        below_faults = say("tree/b/large", "TooLarge") + say("tree/n\\xff", "the name is not UTF-8")
        infected = lambda lines: [one for one in lines if '"clean"' not in one]
        listed = [clean("clean"), missed("6eff", "the name is not UTF-8", "file_hex"), missed("gone", "cannot read"), missed("ff", "the name is not UTF-8", "file_hex"), found("two", 1, "two.x", 3)]
        listed_faults = say("-", "name 1 is not UTF-8") + say("-", "name 3 is not UTF-8") + say("gone", "cannot read")
        size = ["--max-size", "10"]
        rows = [(["-k", *size, "gone", "clean", "large", "tree", "two"], b"", 4, named, named_faults), (["-k", "-i", *size, "gone", "clean", "large", "tree", "two"], b"", 4, infected(named), named_faults),
                (["-k", "--summary", "--found-status", *size, "gone", "clean", "large", "tree", "two"], b"", 6, named + [counts(2, 1, 3)], named_faults + line(2, 1, 3)),
                (["-r", *size, "tree"], b"", 1, below, below_faults), (["-r", "-i", "--summary", *size, "tree"], b"", 1, infected(below) + [counts(5, 3, 2)], below_faults + line(5, 3, 2)),
                (["-r", "--summary", *size, "--exclude", "skip", "--exclude", "tree/b", "tree"], b"", 1, [one for one in below if "tree/b" not in one and "skip" not in one] + [counts(3, 2, 1, 2)], say("tree/n\\xff", "the name is not UTF-8") + line(3, 2, 1, 2)),
                (["-k", "-0", "--summary", "--files-from", "-", "clean"], b"n\xff\0gone\0\xff\0two", 4, listed + [counts(2, 1, 3)], listed_faults + line(2, 1, 3)),
                (["clean", "gone"], b"", 4, [], say("gone", "cannot read")), (["--summary", "clean"], b"", 0, [clean("clean"), counts(1, 0, 0)], line(1, 0, 0)), (["-r", "--summary", "--exclude", "*", "tree"], b"", 1, [counts(0, 0, 0, 6)], line(0, 0, 0, 6) + "avscan: no file was scanned\n")]
        for words, given, status, lines, faults in rows:
            for threads in ("1", "4"):
                done = subprocess.run([program, "scan", "--json", "-j", threads, "set.avsig", *words], input=given, cwd=work, stdout=subprocess.PIPE, stderr=subprocess.PIPE, timeout=SECONDS)
                got = (done.returncode, done.stdout.decode().split("\n")[:-1], done.stderr.decode())
                cases.same(f"scan --json -j {threads} {words}", got, (status, lines, faults))
                for one in got[1]:
                    read_back(one)
        with open("/dev/full", "wb") as full:
            for words in (["-k", "gone"], ["--summary", "clean"]):
                done = subprocess.run([program, "scan", "--json", "set.avsig", *words], cwd=work, stdout=full, stderr=subprocess.PIPE, timeout=SECONDS)
                cases.check(f"scan --json {words} on a full device", done.returncode == 4 and done.stderr.endswith(b"avscan: device\n"), f"{done}")


def main():
    if len(sys.argv) != 2:
        sys.exit("usage: tests/objects.py PROGRAM")
    program, cases = os.path.abspath(sys.argv[1]), Cases()
    for number in range(SCRIPTS):
        first, commands, world = random_scripts.played(number, STEPS)
        check(cases, program, f"script {number}", "".join(line + "\n" for line in first + [line for line, _ in commands]), world.lines)
    folder = os.path.join(os.path.dirname(os.path.abspath(__file__)), "conduct")
    for file in sorted(os.listdir(folder)):
        with open(os.path.join(folder, file)) as text:
            script, _, out = text.read().partition("--- out\n")
        check(cases, program, file, script, out.splitlines())
    files(cases, program)
    told(cases, program)
    print(f"{cases.passed} passed, {cases.failed} failed")
    sys.exit(1 if cases.failed else 0)


if __name__ == "__main__":
    main()
