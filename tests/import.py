#!/usr/bin/env python3
"""Files of other products, taken by the built program.

tests/import has files with what they give and what is told of them. The rest are rules: each reason, the limits, the statuses, the file of
--output while calls fail, inputs that were mutated, and that what is written is read. Where `yara` and `clamscan` are installed, random files near the patterns and the edges of
their places must be found by both alike. The last line says how many passed and how many failed."""
import os, random, re, shutil, subprocess, sys, tempfile

from cases import Cases
from programs import program_beside

SECONDS = 60
MUTATED = 2000
RANDOM = 1000
LAST = 1048575
# More calls that open, read or write, and more requests for memory, than an import of a short file makes.
CALLS, REQUESTS = range(1, 30), range(1, 200)
FAR = "a place past 1,048,574 has no bound in a signature file"
HERE = os.path.dirname(os.path.abspath(__file__))
DATA = os.path.join(HERE, "import")
LINES = [
    ("a.ndb", b"n:0", "not Name:Target:Offset:Hex"), ("a.ndb", b"n:0:*:41:1:2:3", "not Name:Target:Offset:Hex"), ("a.db", b"n:41", "not Name=Hex"),
    ("a.ndb", b"n:x:*:41", "the target isn't a number"), ("a.ndb", b"n:2:*:41", "only in files of target 2 (--any-target takes it for all files)"),
    ("a.ndb", b"n:3:*:41", "only in HTML that was normalised"), ("a.ndb", b"n:4:*:41", "only in mail"), ("a.ndb", b"n:7:*:41", "only in text that was normalised"),
    ("a.ndb", b"n:0:1,x:41", "the offset isn't a number"), *[("a.ndb", b"n:0:%s:41" % place, FAR) for place in (b"1048575", b"1048576", b"5,1048570", b"1048574,1", b"0,9999999999999999999")],
    *[("a.ndb", b"n:0:%s:41" % place, "the place is counted from the end, an entry or a section") for place in (b"EOF-1", b"EP+0", b"EP-1", b"S0+1", b"SL+1", b"SE2", b"VI")],
    ("a.ndb", b"n:0:*:", "no bytes"), ("a.db", b"n=4?", "wildcards"), ("a.db", b"n=4 1", "not hexadecimal"), ("a.db", b"n=414", "half a byte"),
    ("a.db", b"n=" + b"41" * 65, "more than 64 bytes"),
]
RULES = [
    ("private rule n { strings: $a = \"a\" condition: $a }", "a private rule"), ("global rule n { condition: true }", "the file has a global rule, which restricts all"),
    ("rule n { strings: $a = \"a\" }", "no condition"), ("rule n { condition: true }", "a condition that is no `or` of strings"),
    ("rule n { strings: $a = \"a\" condition: " + "(" * 100000 + "$a }", "a condition that is no `or` of strings"),
    ("rule n { strings: $a = \"a\" condition: $b }", "a string that the rule has not"), ("rule n { condition: any of them }", "a string that the rule has not"), ("rule n { condition: 1 of them }", "a string that the rule has not"), ("rule n { strings: $a = \"a\" condition: 2 of them }", "more than one string has to be there"),
    ("rule n { strings: $a = \"a\" condition: $a at filesize }", "a place that is no number"), *[("rule n { strings: $a = \"a\" condition: $a %s }" % places, FAR) for places in ("at 2MB", "at 1048575", "in (0..1048575)", "in (3..1MB)")],
    ("rule n { strings: $a = \"a\" condition: $a in (5..4) }", "a range of no place"),
    ("rule n { strings: $a = /a/ condition: $a }", "a regular expression"), ("rule n { strings: $a = \"\\q\" condition: $a }", "an escape that YARA has not"),
    ("rule n { strings: $a = \"\" condition: $a }", "no bytes"), ("rule n { strings: $a = { 4 } condition: $a }", "half a byte"),
    *[("rule n { strings: $a = \"a\" %s condition: $a }" % word, "the modifier " + word) for word in ("nocase", "fullword", "xor", "base64")],
    ("rule n { strings: $a = \"%s\" wide condition: $a }" % ("a" * 33), "more than 64 bytes"),
    ("rule n { strings: %s condition: $a0 }" % " ".join(f'$a{i} = "a"' for i in range(1025)), "more than 1,024 strings"),
    ("rule n { strings: $a = \"a\" condition: any of them at 3 }", "a condition that is no `or` of strings"),
]


def run(words, folder):
    done = subprocess.run(words, stdout=subprocess.PIPE, stderr=subprocess.PIPE, timeout=SECONDS, cwd=folder)
    return done.returncode, done.stdout, done.stderr


def write(folder, name, content):
    with open(os.path.join(folder, name), "wb") as file:
        file.write(content)
    return name


def there(folder, name):
    """The content of a file, if it is there."""
    path = os.path.join(folder, name)
    if not os.path.exists(path):
        return None
    with open(path, "rb") as file:
        return file.read()


def read(name):
    with open(os.path.join(DATA, name), "rb") as file:
        return file.read()


def stored(cases, program, folder):
    """The files of tests/import, by both formats."""
    names = ["a.ndb", "b.yar", "c.hdb", "d.db"]
    for name in names:
        write(folder, name, read(name))
    got = run([program_beside(program, "avtool"), "import", "--set-version", "7", *names], folder)
    cases.same("the stored files", got, (0, read("all.format2.avsig"), read("all.format2.err")))
    got = run([program_beside(program, "avtool"), "import", "--any-target", "--format-1", "a.ndb"], folder)
    cases.same("the stored file in format 1", got, (0, read("any.format1.avsig"), read("any.format1.err")))
    got = run([program_beside(program, "avtool"), "import", "--all", "a.ndb"], folder)
    cases.same("--all writes nothing", got[:2], (1, b""))


def reasons(cases, program, folder):
    for name, line, why in LINES:
        write(folder, name, line + b"\n")
        status, out, err = run([program_beside(program, "avtool"), "import", name], folder)
        cases.same(line[:40], (status, out, err.decode().splitlines()[0]), (1, b"", f"avtool: {name}: line 1: n: {why}"))
    for rule, why in RULES:
        write(folder, "r.yar", rule.encode())
        status, out, err = run([program_beside(program, "avtool"), "import", "r.yar"], folder)
        cases.same(rule[:60], (status, out, err.decode().splitlines()[0]), (1, b"", f"avtool: r.yar: line 1: n: {why}"))
    status, out, err = run([program_beside(program, "avtool"), "import", "missing.ndb"], folder)
    cases.same("a file that is missing", (status, out), (4, b""))


def files(cases, program, folder):
    """The file of --output is the old one, or whole, also while each call fails."""
    tool = program_beside(program, "avtool")
    names = [write(folder, name, read(name)) for name in ("a.ndb", "b.yar", "c.hdb", "d.db")]
    told, wanted = read("all.format2.err"), read("all.format2.avsig")
    words = [tool, "import", "--set-version", "7", "--output", "out", *names]
    cases.same("into a file", (run(words, folder), there(folder, "out"), there(folder, "out.new")), ((0, b"", told), wanted, None))
    write(folder, "out", b"old")
    cases.same("a file that is there is replaced", (run(words, folder), there(folder, "out")), ((0, b"", told), wanted))
    write(folder, "nothing.ndb", b"n:0:*:4?\n")
    for name, refused in (("nothing taken", ["nothing.ndb"]), ("--all", ["--all", *names]), ("a file that is missing", [*names, "missing.ndb"])):
        write(folder, "out", b"old")
        status, out, err = run([tool, "import", "--output", "out", *refused], folder)
        cases.check(f"{name}, into a file", (status in (1, 4), out, there(folder, "out"), there(folder, "out.new")) == (True, b"", b"old", None), (status, out, err))
    os.mkdir(os.path.join(folder, "folder"))
    for path in ("folder", "missing/out"):
        status, out, err = run([tool, "import", "--output", path, "d.db"], folder)
        cases.same(f"no file can be at {path}", (status, out, err.splitlines()[-1], there(folder, path + ".new")), (4, b"", f"avtool: {path}: cannot write".encode(), None))
    short = [tool, "import", "--output", "out", "d.db"]
    os.remove(os.path.join(folder, "out"))
    lines = run(short, folder)[2].count(b"\n")
    for is_forever in ("0", "1"):
        failing(cases, folder, "fail_io", short, (there(folder, "out"), lines), FAIL_IO=CALLS, FAIL_FOREVER=is_forever)
    failing(cases, folder, "fail_nth", short, (there(folder, "out"), lines), FAIL_NTH=REQUESTS)


def failing(cases, folder, name, words, wanted, **how):
    """A run of which each call fails in turn, or each request for memory: the file is the old one, or whole."""
    library = os.path.join(folder, name + ".so")
    subprocess.run(["cc", "-shared", "-fPIC", "-O1", "-o", library, os.path.join(HERE, name + ".c"), "-ldl"], check=True)
    numbers, well = next(value for value in how.values() if isinstance(value, range)), 0
    for number in numbers:
        write(folder, "out", b"old")
        environment = {key: str(number) if value is numbers else value for key, value in how.items()}
        done = subprocess.run(words, stdout=subprocess.PIPE, stderr=subprocess.PIPE, timeout=SECONDS, cwd=folder, env=dict(os.environ, LD_PRELOAD=library, **environment))
        got = there(folder, "out")
        well += done.returncode == 0
        holds = done.stdout == b"" and (got == wanted[0] if done.returncode == 0 else done.returncode in (3, 4) and got == b"old" and done.stderr.count(b"\n") <= wanted[1] + 1)
        cases.check(f"{name} {environment}", holds, (done, got))
        os.path.exists(os.path.join(folder, "out.new")) and os.remove(os.path.join(folder, "out.new"))
    cases.check(f"{name} {how}: some runs fail, and some don't", 0 < well < len(numbers), well)


def limits(cases, program, folder):
    write(folder, "many.db", b"".join(b"n%d=41\n" % i for i in range(1025)))
    status, out, err = run([program_beside(program, "avtool"), "import", "many.db"], folder)
    cases.check("1,025 signatures", out.count(b"\n") == 1026 and b"line 1025: n1024: 1,024 signatures were taken\n" in err, err[-200:])
    write(folder, "long.db", b"".join(b"n%d=%s\n" % (i, b"41" * 64) for i in range(257)) )
    status, out, err = run([program_beside(program, "avtool"), "import", "long.db"], folder)
    cases.check("16,385 bytes", out.count(b"\n") == 258 and b"line 257: n256: 16,384 bytes were taken\n" in err, err[-200:])
    write(folder, "large.ndb", b"".join(b"Win.Large-%d:1:*:4d5a??\n" % i for i in range(100000)))
    status, out, err = run([program_beside(program, "avtool"), "import", "large.ndb"], folder)
    cases.check("100,000 lines that are left out", status == 1 and not out and err.count(b"\n") == 100001, err[-200:])


def mutated(cases, program, folder):
    chance = random.Random(3)
    seeds = [("m.ndb", read("a.ndb")), ("m.yar", read("b.yar")), ("m.db", read("d.db"))]
    for turn in range(MUTATED):
        name, content = seeds[turn % 3]
        content = bytearray(content)
        for _ in range(chance.randrange(1, 12)):
            at = chance.randrange(len(content))
            how = chance.randrange(4)
            if how == 0:
                content[at] = chance.randrange(256)
            elif how == 1:
                content[at] = chance.choice(b'"\\/*{}()=:$\n,.0')
            elif how == 2:
                del content[at:at + chance.randrange(1, 9)]
            else:
                content[at:at] = content[chance.randrange(len(content)):][:chance.randrange(1, 20)]
        write(folder, name, bytes(content))
        status, out, err = run([program_beside(program, "avtool"), "import", name], folder)
        if b"\navtool: 0 signatures taken, " in b"\n" + err:
            cases.same(f"mutated {turn}, nothing taken", (status, out), (1, b""))
            continue
        write(folder, "got.avsig", out)
        scanned = run([program, "scan", "got.avsig", "got.avsig"], folder)[0] if turn % 10 == 0 else 0
        cases.check(f"mutated {turn}", status == 0 and out.startswith(b"avsig ") and scanned in (0, 1), (status, scanned, err[-200:]))


def signatures_of(text):
    found = []
    for line in text.splitlines()[2:]:
        words = line.split(" ")
        span = (int(words[2]), int(words[3])) if len(words) == 4 else (0, LAST)
        found.append((words[0], bytes.fromhex(words[1]), span))
    return found


def begins(pattern, span, content):
    return any(content.startswith(pattern, place) for place in range(span[0], min(span[1], len(content)) + 1))


def contents_near(signatures, chance):
    for _ in range(RANDOM):
        content = bytearray()
        for _ in range(chance.randrange(1, 4)):
            name, pattern, (low, high) = chance.choice(signatures)
            piece = bytearray(pattern)
            if chance.random() < 0.3:
                piece[chance.randrange(len(piece))] ^= 1 << chance.randrange(8)
            want = chance.choice([low, high, max(low - 1, 0), high + 1, chance.randrange(40)])
            want = want if want < 60 else chance.randrange(60)
            if len(content) < want:
                content += bytes(chance.randrange(256) for _ in range(want - len(content)))
            content += piece
        content += bytes(chance.randrange(256) for _ in range(chance.randrange(5)))
        yield bytes(content)


def beside_yara(cases, program, folder):
    if not shutil.which("yara"):
        print("yara is not installed: not run beside it")
        return
    write(folder, "b.yar", read("b.yar"))
    status, out, err = run([program_beside(program, "avtool"), "import", "b.yar"], folder)
    signatures = signatures_of(out.decode())
    left = set(re.findall(r": line \d+: (\w+): ", err.decode()))
    files = os.path.join(folder, "files")
    os.mkdir(files)
    contents = list(contents_near(signatures, random.Random(5)))
    for place, content in enumerate(contents):
        write(files, str(place), content)
    theirs = {}
    for line in run(["yara", "-w", "b.yar", "files"], folder)[1].decode().splitlines():
        rule, path = line.split(" ", 1)
        if rule not in left:
            theirs.setdefault(int(os.path.basename(path)), set()).add(rule)
    for place, content in enumerate(contents):
        ours = {name.split(".")[0] for name, pattern, span in signatures if begins(pattern, span, content)}
        cases.same(f"yara finds the same in {content[:40]!r}", theirs.get(place, set()), ours)


def beside_clamscan(cases, program, folder):
    if not shutil.which("clamscan"):
        print("clamscan is not installed: not run beside it")
        return
    data = read("a.ndb")
    write(folder, "a.ndb", data)
    status, out, err = run([program_beside(program, "avtool"), "import", "a.ndb"], folder)
    signatures = signatures_of(out.decode())
    left = {int(line) for line in re.findall(r"a\.ndb: line (\d+): ", err.decode())}
    taken = b"".join(line + b"\n" for number, line in enumerate(data.split(b"\n"), 1) if number not in left and line and line[:1] != b"#")
    write(folder, "taken.ndb", taken)
    files = os.path.join(folder, "scanned")
    os.mkdir(files)
    contents = [content for content in contents_near(signatures, random.Random(6)) if len(content) > 5]
    for place, content in enumerate(contents):
        write(files, str(place), content)
    done = subprocess.run(["clamscan", "-d", "taken.ndb", "--no-summary", "-r", "scanned"], stdout=subprocess.PIPE, stderr=subprocess.PIPE, timeout=600, cwd=folder)
    theirs = {int(place): verdict for place, verdict in re.findall(r"/(\d+): (.*)", done.stdout.decode(errors="replace"))}
    for place, content in enumerate(contents):
        ours = any(begins(pattern, span, content) for name, pattern, span in signatures)
        cases.same(f"clamscan finds the same in {content[:40]!r}", theirs.get(place, "").endswith("FOUND"), ours)


def main():
    program = os.path.abspath(sys.argv[1])
    cases = Cases()
    with tempfile.TemporaryDirectory() as folder:
        for part in (stored, reasons, limits, mutated, beside_yara, beside_clamscan):
            part(cases, program, folder)
    with tempfile.TemporaryDirectory() as folder:
        files(cases, program, folder)
    print(f"{cases.passed} passed, {cases.failed} failed")
    return 1 if cases.failed else 0


if __name__ == "__main__":
    sys.exit(main())
