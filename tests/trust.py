#!/usr/bin/env python3
"""Signed signature files, by the built programs: Python's hmac is the outside judge.

What `avtool sign` writes, byte by byte; keys of each length and mode; each fault with its line, its status and its place in the order; every
change of one bit, every truncation and every other place of a small signed file; each command that takes --trust; a service that watches a
file which a stranger replaces; a guard that is told names from one; and the file of --output while calls fail.
The last line says how many passed and how many failed."""
import hashlib, hmac, os, socket, subprocess, sys, tempfile, time

from cases import Cases
from merge import failing, read, run, write
from programs import program_beside
from watch import Service, signatures

KEY, OTHER = bytes(range(32)), b"another key, of 33 bytes in all.."
TEXT = b"avsig 1\nversion 7\na 4142\n"
# The codes of RFC 4231 begin with keys that are no keys here. These are of keys within the bounds, one as long as a block.
LENGTHS = (31, 32, 33, 63, 64, 65)
IS_SIGNED, NOT_SIGNED = "is signed (--trust KEY verifies it)", "is not signed (--trust takes signed files alone)"
NO_LINE, OTHER_KEY = "not the first line of a signed file", "not signed with this key, or changed since"
SHORT, LONG, OPEN = "a key has at least 32 bytes", "a key has at most 64 bytes", "others may read or change this key (chmod 600)"
CALLS, REQUESTS = range(1, 40), range(1, 200)
GUARD_SECONDS = 20


def signed(key, text):
    return b"avsigned 1 " + hmac.new(key, text, hashlib.sha256).hexdigest().encode() + b"\n" + text


def put_key(folder, name, key, mode=0o600):
    path = os.path.join(folder, name)
    os.path.exists(path) and os.remove(path)
    with open(path, "wb") as file:
        file.write(key)
    os.chmod(path, mode)
    return name


def standard(cases):
    """The judge itself, by RFC 4231, 4.2, 4.3 and 4.7."""
    for key, text, code in ((b"\x0b" * 20, b"Hi There", "b0344c61d8db38535ca8afceaf0bf12b881dc200c9833da726e9376c2e32cff7"),
                            (b"Jefe", b"what do ya want for nothing?", "5bdcc146bf60754e6a042426089575c75a003f089d2739839dec58b964ec3843"),
                            (b"\xaa" * 131, b"Test Using Larger Than Block-Size Key - Hash Key First", "60e431591ee0b67f0d8a26aacbf5b77f8e0bc6213728c5140546040f0ee37f54")):
        cases.same("the judge", hmac.new(key, text, hashlib.sha256).hexdigest(), code)


def signing(cases, tool, folder):
    """What is written, to standard output and into a file, under keys of each length."""
    write(folder, "set", TEXT)
    for count in LENGTHS:
        key = bytes((7 * place + count) % 256 for place in range(count))
        put_key(folder, "key", key)
        fault = SHORT if count < 32 else LONG if count > 64 else None
        wanted = (1, b"", f"avtool: key: {fault}\n".encode()) if fault else (0, signed(key, TEXT), b"")
        cases.same(f"a key of {count} bytes", run([tool, "sign", "--key", "key", "set"], folder), wanted)
    put_key(folder, "key", KEY)
    put_key(folder, "other", OTHER)
    cases.same("into a file", (run([tool, "sign", "--key", "key", "--output", "out", "set"], folder), read(folder, "out"), read(folder, "out.new")), ((0, b"", b""), signed(KEY, TEXT), None))
    cases.same("in its own place", (run([tool, "sign", "--key", "key", "--output", "set", "set"], folder), read(folder, "set")), ((0, b"", b""), signed(KEY, TEXT)))
    cases.same("under another key", run([tool, "sign", "--key", "other", "--trust", "key", "set"], folder), (0, signed(OTHER, TEXT), b""))
    for text in (b"avsig 2\nversion 18446744073709551615\na 41 0 9\nb 4243\n", signatures(1, *[b"%064d" % place for place in range(256)])):
        write(folder, "set", text)
        cases.same("another set", run([tool, "sign", "--key", "key", "set"], folder), (0, signed(KEY, text), b""))
    with open("/dev/full", "wb") as full:
        cases.same("a full device", run([tool, "sign", "--key", "key", "set"], folder, stdout=full), (4, None, b"avtool: device\n"))
    write(folder, "set", TEXT)
    for is_forever in ("0", "1"):
        failing(cases, folder, "fail_io", [tool, "sign", "--key", "key", "--output", "out", "set"], signed(KEY, TEXT), FAIL_IO=CALLS, FAIL_FOREVER=is_forever)
    failing(cases, folder, "fail_nth", [tool, "sign", "--key", "key", "--output", "out", "set"], signed(KEY, TEXT), FAIL_NTH=REQUESTS)


def bad_sets(cases, tool, folder):
    """What is no signature file with signatures is not signed."""
    put_key(folder, "key", KEY)
    for name, content, status, line in (("a bad line", b"avsig 1\nversion 3\na zz\n", 1, "set:3: not pairs of hexadecimal digits"), ("no signatures", b"avsig 1\nversion 3\n", 1, "set: version 3 has no signatures"),
                                        ("a signed one", signed(KEY, TEXT), 1, f"set: {IS_SIGNED}"), ("nothing", b"", 1, "set:1: the file ends before the end of this line"), ("too much", bytes(1048577), 1, "set: TooLarge")):
        write(folder, "set", content)
        write(folder, "out", b"old")
        cases.same(name, (run([tool, "sign", "--key", "key", "--output", "out", "set"], folder), read(folder, "out")), ((status, b"", f"avtool: {line}\n".encode()), b"old"))
    cases.same("no file", run([tool, "sign", "--key", "key", "missing"], folder), (4, b"", b"avtool: missing: cannot read\n"))


def key_files(cases, program, folder):
    """Who may have which rights of a key, and which files are none."""
    write(folder, "set", signed(KEY, TEXT))
    write(folder, "file", b"AB")
    well = (0, b"file infected 0 a end 2\n", b"")
    for mode in range(0o400, 0o1000):
        if mode & 0o400:
            put_key(folder, "key", KEY, mode)
            wanted = well if mode & 0o027 == 0 else (1, b"", f"avscan: key: {OPEN}\n".encode())
            if mode & 0o111 == 0 or mode in (0o700, 0o701, 0o710):
                cases.same(f"mode {mode:o}", run([program, "scan", "--trust", "key", "set", "file"], folder), wanted)
    put_key(folder, "key", b"short", 0o644)
    cases.same("the rights before the length", run([program, "scan", "--trust", "key", "set", "file"], folder), (1, b"", b"avscan: key: others may read or change this key (chmod 600)\n"))
    put_key(folder, "key", b"")
    cases.same("an empty key", run([program, "scan", "--trust", "key", "set", "file"], folder), (1, b"", b"avscan: key: a key has at least 32 bytes\n"))
    os.mkdir(os.path.join(folder, "room"))
    os.mkfifo(os.path.join(folder, "fifo"))
    for name in ("missing", "room", "fifo", "/dev/null", ""):
        cases.same(f"the key {name!r}", run([program, "scan", "--trust", name, "set", "file"], folder), (4, b"", f"avscan: {name}: cannot read\n".encode()))
    put_key(folder, "key", KEY)
    with open(os.path.join(folder, "key"), "rb") as key:
        cases.same("a key that is handed open", run([program, "scan", "--trust", "/dev/stdin", "set", "file"], folder, stdin=key), well)


def taking(cases, program, tool, folder):
    """Each command that reads a set, with and without a key."""
    put_key(folder, "key", KEY)
    put_key(folder, "other", OTHER)
    put_key(folder, "open", KEY, 0o644)
    write(folder, "file", b"AB")
    for name, content in (("plain", TEXT), ("good", signed(KEY, TEXT)), ("line", b"avsigned 2\n"), ("bad", signed(KEY, b"avsig 1\nversion 7\na zz\n")), ("empty", signed(KEY, b"avsig 1\nversion 7\n")), ("long", signed(KEY, TEXT) + bytes(1048577))):
        write(folder, name, content)
    scan = lambda *words: run([program, "scan", *words, "file"], folder)
    host = lambda *words: run([program, "host", *words, "file"], folder)
    check = lambda *words: run([program, "check", *words], folder)
    merge = lambda *words: run([tool, "merge", *words], folder)
    done = {"scan": b"file infected 0 a end 2\n", "host": b"file denied cause 2\n", "merge": TEXT}
    words_of = {"scan": "set line 3: kind 4", "host": "set line 3: kind 4", "check": "bad:3: not pairs of hexadecimal digits", "merge": "bad:3: not pairs of hexadecimal digits"}
    for name, call in (("scan", scan), ("host", host), ("check", check), ("merge", merge)):
        by = "avtool" if name == "merge" else "avscan"
        fault = lambda line, status=1: (status, b"", f"{by}: {line}\n".encode())
        well = lambda file: (0, done.get(name, f"{file}: version 7, 1 signatures\n".encode()), b"")
        cases.same(f"{name}: neither signed nor trusted", call("plain"), well("plain"))
        cases.same(f"{name}: signed and trusted", call("--trust", "key", "good"), well("good"))
        cases.same(f"{name}: signed, no key", call("good"), fault(f"good: {IS_SIGNED}"))
        cases.same(f"{name}: a line that begins so, no key", call("line"), fault(f"line: {IS_SIGNED}"))
        cases.same(f"{name}: not signed", call("--trust", "key", "plain"), fault(f"plain: {NOT_SIGNED}"))
        cases.same(f"{name}: a bad line", call("--trust", "key", "line"), fault(f"line: {NO_LINE}"))
        cases.same(f"{name}: another key", call("--trust", "other", "good"), fault(f"good: {OTHER_KEY}"))
        cases.same(f"{name}: signed, and a bad set", call("--trust", "key", "bad"), fault(words_of[name]))
        cases.same(f"{name}: the key before what it signs", call("--trust", "other", "bad"), fault(f"bad: {OTHER_KEY}"))
        cases.same(f"{name}: too large before another key", call("--trust", "other", "long"), fault("long: TooLarge"))
        cases.same(f"{name}: signed without signatures", call("--trust", "key", "empty"), fault("empty: version 7 has no signatures"))
        cases.same(f"{name}: no set", call("--trust", "key", "missing"), fault("missing: cannot read", 4) if name != "check" else call("missing"))
        cases.same(f"{name}: the key before the set", call("--trust", "open", "missing"), fault(f"open: {OPEN}"))
        cases.same(f"{name}: no key", call("--trust", "missing", "plain"), fault("missing: cannot read", 4))
    cases.same("a set without signatures may be allowed", scan("--trust", "key", "--allow-empty", "empty"), (0, b"file clean\n", b"avscan: empty: version 7 has no signatures\n"))
    cases.same("files that are checked, one of them trusted", check("--trust", "key", "plain", "good"), (1, b"good: version 7, 1 signatures\n", f"avscan: plain: {NOT_SIGNED}\n".encode()))
    write(folder, "second", signed(KEY, b"avsig 1\nversion 9\nb 43\n"))
    cases.same("a merge of signed files is not signed", merge("--trust", "key", "good", "second"), (0, b"avsig 1\nversion 9\na 4142\nb 43\n", b""))
    cases.same("an import takes none", run([tool, "import", "good"], folder)[0], 1)


def changed(cases, program, folder):
    """Every change of one bit, every truncation, and bytes more."""
    put_key(folder, "key", KEY)
    good, batch = signed(KEY, TEXT), []
    for place in range(len(good)):
        for bit in range(8):
            batch.append(good[:place] + bytes([good[place] ^ 1 << bit]) + good[place + 1:])
    batch += [good[:count] for count in range(len(good))]
    batch += [good + b"\n", b" " + good, good + good, good.replace(b"\n", b"\r\n", 1), good[:76] + b"avsig 1\nversion 8\na 4142\n", good[:11] + good[11:75].upper() + good[75:], signed(OTHER, TEXT), signed(KEY, good)[:76] + TEXT]
    names = [write(folder, f"c{place}", content) for place, content in enumerate(batch)]
    for begun in range(0, len(names), 400):
        part = names[begun:begun + 400]
        status, out, err = run([program, "check", "--trust", "key", *part], folder)
        cases.same(f"changed files from {begun}", (status, out, err.count(b"\n")), (1, b"", len(part)))
        for name, line in zip(part, err.decode(errors="replace").splitlines()):
            content = batch[int(name[1:])]
            why = NOT_SIGNED if not content.startswith(b"avsigned") else NO_LINE if content[:11] != b"avsigned 1 " or content[75:76] != b"\n" else OTHER_KEY
            cases.same(f"{name} {content[:20]!r}", line, f"avscan: {name}: {why}")
    write(folder, "twice", signed(KEY, good))
    cases.same("signed twice", run([program, "check", "--trust", "key", "twice"], folder), (1, b"", b"avscan: twice:1: not `avsig 1` or `avsig 2`\n"))


def watched(cases, program):
    """A service goes on with the set that it has while a stranger's file is there, and takes a newer one that is trusted."""
    room = tempfile.TemporaryDirectory()
    key = os.path.join(room.name, put_key(room.name, "key", KEY))
    from watch import clean, hello, infected, updated
    with Service(program, signed(KEY, signatures(7, b"AB")), "--watch", "1", "--trust", key) as service:
        greeting = hello(7)
        cases.same("it greets", service.hear(greeting), greeting)
        cases.check("it judges", service.judge(1, b"xAB", infected(1, 7, 0, 3)))
        lines = b""
        for content, why in ((signatures(8, b"zz"), NOT_SIGNED), (signed(OTHER, signatures(9, b"zz")), OTHER_KEY), (b"avsigned 1 \n", NO_LINE)):
            service.put(content)
            lines += service.told(b"avscan: %s: " + why.encode() + b"\n")
            cases.same(f"a stranger's file: {why}", service.await_lines(lines), lines)
        cases.check("nothing was taken", service.is_silent())
        cases.check("the present set goes on", service.judge(2, b"xAB", infected(2, 7, 0, 3)))
        service.put(signed(KEY, signatures(6, b"zz")))
        lines += service.told(b"avscan: %s: version 6 is not above 7\n")
        cases.same("an older one that was signed", service.await_lines(lines), lines)
        service.put(signed(KEY, signatures(8, b"xA")))
        lines += b"avscan: version 8, 1 signatures\n"
        cases.same("a newer one that was signed", service.await_lines(lines), lines)
        cases.same("it is told", service.hear(updated(8)), updated(8))
        cases.check("and judged by", service.judge(3, b"xAB", infected(3, 8, 0, 2)))
        cases.same("it ends", service.close(), (0, b"closed\n"))
    with Service(program, signatures(7, b"AB"), "--watch", "1") as service:
        greeting = hello(7)
        cases.same("it greets without a key", service.hear(greeting), greeting)
        service.put(signed(KEY, signatures(8, b"zz")))
        line = service.told(b"avscan: %s: " + IS_SIGNED.encode() + b"\n")
        cases.same("a signed file without a key", service.await_lines(line), line)
        cases.check("that is not taken", service.is_silent())
    with Service(program, signatures(7, b"AB"), "--watch", "1", "--trust", key) as service:
        cases.same("a service does not begin with a stranger's file", (service.end, service.process.wait(), service.lines()), (None, 1, service.told(b"avscan: %s: " + NOT_SIGNED.encode() + b"\n")))
    room.cleanup()


def clamd_reply(path, content):
    """What the guard's door for clients of clamd says of a content, once it says a name or a place."""
    limit = time.time() + GUARD_SECONDS
    while True:
        try:
            with socket.socket(socket.AF_UNIX) as end:
                end.settimeout(GUARD_SECONDS)
                end.connect(path)
                end.sendall(b"zINSTREAM\0" + len(content).to_bytes(4, "big") + content + bytes(4))
                reply = b""
                while not reply.endswith(b"\0"):
                    more = end.recv(4096)
                    if not more:
                        break
                    reply += more
            if b"FOUND" in reply or time.time() > limit:
                return reply
        except OSError:
            if time.time() > limit:
                return b""
        time.sleep(0.05)


def guarded(cases, program, guard, folder):
    """A guard tells names from a signed file alone, where a key is trusted."""
    key = put_key(folder, "key", KEY)
    write(folder, "good", signed(KEY, TEXT))
    write(folder, "plain", TEXT)
    doors = ["opens", "service", "--clamd", "clamd"]
    for name, words, status, line in (("a file that is not signed", ["--names", "plain", "--trust", key], 1, f"plain: {NOT_SIGNED}"), ("a signed one without a key", ["--names", "good"], 1, f"good: {IS_SIGNED}"),
                                      ("a key without names", ["--trust", key], 2, None), ("no key", ["--names", "good", "--trust", "missing"], 4, "missing: cannot read")):
        got = run([guard, "run", *doors, *words], folder)
        cases.check(name, got[:2] == (status, b"") and (got[2] == f"avguard: {line}\n".encode() if line else b"--names" in got[2] and got[2].count(b"\n") == 1), got)
    write(folder, "config", b'opens = "opens"\nservice = "service"\nclamd = "clamd"\nnames = "good"\ntrust = "key"\n')
    shown = run([guard, "check-config", "config"], folder)
    cases.check("a configuration file", shown[0] == 0 and b'names = "good"\ntrust = "key"\n' in shown[1], shown)
    write(folder, "half", b'opens = "opens"\nservice = "service"\ntrust = "key"\n')
    cases.same("a configuration file without names", run([guard, "check-config", "half"], folder), (2, b"", b"avguard: half: names is missing\n"))
    guarding = subprocess.Popen([guard, "run", "--config", "config"], cwd=folder, stderr=subprocess.DEVNULL)
    service = subprocess.Popen([program, "service", "service", "good", "--trust", key, "--watch", "1"], cwd=folder, stdout=subprocess.DEVNULL, stderr=subprocess.DEVNULL)
    try:
        cases.same("a name", clamd_reply(os.path.join(folder, "clamd"), b"xABx"), b"stream: a FOUND\0")
        beside = write(folder, "good.new", signed(KEY, b"avsig 1\nversion 8\nb 4142\n"))
        os.rename(os.path.join(folder, beside), os.path.join(folder, "good"))
        limit = time.time() + GUARD_SECONDS
        while (reply := clamd_reply(os.path.join(folder, "clamd"), b"xABy")) == b"stream: a FOUND\0" and time.time() < limit:
            time.sleep(0.2)
        cases.same("a name of a newer set", reply, b"stream: b FOUND\0")
        beside = write(folder, "good.new", b"avsig 1\nversion 8\nc 4142\n")
        os.rename(os.path.join(folder, beside), os.path.join(folder, "good"))
        time.sleep(2)
        cases.same("no name of a stranger's", clamd_reply(os.path.join(folder, "clamd"), b"xABz"), b"stream: b FOUND\0")
    finally:
        for process in (service, guarding):
            process.kill()
            process.wait()


def main():
    program = os.path.abspath(sys.argv[1])
    tool, guard, cases = program_beside(program, "avtool"), program_beside(program, "avguard"), Cases()
    standard(cases)
    for part in (lambda folder: signing(cases, tool, folder), lambda folder: bad_sets(cases, tool, folder), lambda folder: key_files(cases, program, folder),
                 lambda folder: taking(cases, program, tool, folder), lambda folder: changed(cases, program, folder), lambda folder: guarded(cases, program, guard, folder)):
        with tempfile.TemporaryDirectory() as folder:
            part(folder)
    watched(cases, program)
    print(f"{cases.passed} passed, {cases.failed} failed")
    return cases.failed != 0


if __name__ == "__main__":
    sys.exit(main())
