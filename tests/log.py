#!/usr/bin/env python3
"""The log of decisions of `avguard run --log`: which lines come, in words and as JSON; labels that would forge a line or a field; a file that
goes away, is moved, or can't be written; what is no regular file; a standard error that is full or that nobody reads.
The last line says how many passed and how many failed."""
import datetime, json, os, re, resource, select, signal, socket, stat, struct, subprocess, sys, tempfile, time

from cases import Cases
from guard import Guard, QUIET, SECONDS, Service, ask, connected, frame, heard, hello, message, number
from programs import program_beside

STAMP = r"\d{4}-\d\d-\d\dT\d\d:\d\d:\d\d\.\d{3}Z"
LABELS = [b"letter.txt", b"", b"a b", b'"', b"\\", b'x" answer=granted client=9 label="y', b"a\nevent=answer", b"a\r", b"\0\1\x7f", "Gr\u00fc\u00dfe".encode(), b"\xff\xfe", b"\xe2\x80\xae", b"\x1b[2J", b"a" * 255, b'"}\n{"a":"']


def words_of(line):
    """The fields of a line of words, as anybody would read them: names, and words, or bytes in quotes."""
    fields, rest = [], line
    while rest:
        found = re.match(r' ?([a-z]+)=(?:"([^"]*)"|([^ "]*))', rest)
        if not found:
            return None
        name, quoted, word = found.groups()
        if quoted is None:
            fields.append((name, int(word) if word.isdigit() and name not in ("time",) else word))
        else:
            fields.append((name, quoted.encode().decode("unicode_escape").encode("latin-1")))
        rest = rest[found.end():]
    return dict(fields) if len(dict(fields)) == len(fields) else None


def lines_of(path, count, seconds=SECONDS):
    """The lines of a file, once there are so many."""
    limit = time.time() + seconds
    while True:
        data = open(path, "rb").read() if os.path.exists(path) else b""
        if data.count(b"\n") >= count or time.time() > limit:
            return data.decode("utf-8", "surrogateescape").splitlines()
        time.sleep(0.005)


def judged(service, client, count):
    """So many bytes of a client whose contents the service judges meanwhile."""
    got, limit = b"", time.time() + SECONDS
    while len(got) < count and time.time() < limit:
        ready = select.select([service, client], [], [], 0.1)[0]
        if service in ready:
            service.turn()
        if client in ready:
            got += client.recv(count - len(got))
    return got


def without_time(fields):
    return {name: value for name, value in fields.items() if name != "time"}


def plain(cases, program):
    """Each kind of line, in words and as JSON, and that of a grant where it is asked for."""
    for form in ("words", "json"):
        for grants in (False, True):
            with tempfile.TemporaryDirectory() as folder:
                path = os.path.join(folder, "log")
                options = ["--log", path, "--wait", "2"] + ["--log-json"] * (form == "json") + ["--log-grants"] * grants
                with Guard(program, *options) as guard:
                    client = connected(guard.opens)
                    client.sendall(ask(3, b"A", b"first"))
                    cases.same("no service", heard(client, 14), frame(3, number(3), b"\3"))
                    service = Service(guard, 7, b"XX")
                    guard.await_line(b"connected\n")
                    client.sendall(ask(4, b"clean", b"second"))
                    judged(service, client, 29)
                    client.sendall(ask(5, b"aXXb", b"third"))
                    judged(service, client, 14)
                    service.end.sendall(message(8, number(8)))
                    lines_of(path, 4 + grants)
                    service.end.close()
                    guard.await_line(b"service lost\n")
                    silent = connected(guard.service)
                    guard.await_line(b"did not greet\n")
                    silent.close()
                    found = lines_of(path, 6 + grants)
                    cases.same("standard error has what it had", guard.lines(), b"avguard: service of version 7 connected\navguard: service lost\navguard: the service did not greet\n")
                    cases.same("rights", stat.S_IMODE(os.stat(path).st_mode), 0o600)
                read = [json.loads(line) if form == "json" else words_of(line) for line in found]
                text = (lambda name: name) if form == "json" else (lambda name: name.encode())
                asker = lambda tag, bytes, label: {"socket": "opens", "client": read[0]["client"] if read[0] else None, "tag": tag, "bytes": bytes, "label": text(label)}
                wanted = [{"event": "answer", "answer": "denied", "cause": 3, "why": text("not connected"), **asker(3, 1, "first")},
                          {"event": "service", "state": "connected", "version": 7, "port": 1}]
                if grants:
                    wanted.append({"event": "answer", "answer": "granted", "version": 7, **asker(4, 5, "second")})
                wanted += [{"event": "answer", "answer": "denied", "cause": 2, "why": text("infected"), "signature": 0, "end": 3, "version": 7, **asker(5, 4, "third")},
                           {"event": "service", "state": "newer", "version": 8, "port": 1}, {"event": "service", "state": "lost", "port": 1}, {"event": "service", "state": "silent"}]
                cases.same(f"lines in {form}, grants {grants}", [line and without_time(line) for line in read], wanted)
                for line in read:
                    when = line and line["time"]
                    cases.check("a time", bool(when) and re.fullmatch(STAMP, when), when)
                    told = datetime.datetime.strptime(when, "%Y-%m-%dT%H:%M:%S.%fZ").replace(tzinfo=datetime.timezone.utc)
                    cases.check("it is now", abs((datetime.datetime.now(datetime.timezone.utc) - told).total_seconds()) < SECONDS, when)


def events(cases, program):
    """Services that are turned away, a version that can't be kept, and a client that has to give its place."""
    with tempfile.TemporaryDirectory() as folder:
        path = os.path.join(folder, "log")
        with Guard(program, "--log", path, "--least", "5", "--most-version", "8", "--state", os.path.join(folder, "none", "state"), descriptors=22) as guard:
            for place, version in enumerate((3, 9, 6)):
                service = connected(guard.service)
                service.sendall(hello(version))
                lines_of(path, place + 1)
            lines_of(path, 4)
            clients = [connected(guard.opens) for _ in range(5)]
            found = [words_of(line) for line in lines_of(path, 5)]
            cases.same("events", [line and without_time(line) for line in found],
                       [{"event": "service", "state": "refused", "version": 3, "least": 5}, {"event": "service", "state": "refused", "version": 9, "most": 8},
                        {"event": "service", "state": "connected", "version": 6, "port": 1}, {"event": "state", "state": "unwritten", "version": 6}, {"event": "client", "state": "closed"}])
            for end in [service, *clients]:
                end.close()


def labels(cases, program):
    """No label forges a line or a field, and each is read back."""
    for options in ([], ["--log-json"]):
        with tempfile.TemporaryDirectory() as folder:
            path = os.path.join(folder, "log")
            with Guard(program, "--log", path, *options) as guard:
                client = connected(guard.opens)
                for tag, label in enumerate(LABELS):
                    client.sendall(ask(tag, b"A", label))
                heard(client, 14 * len(LABELS))
                found = lines_of(path, len(LABELS))
                data = open(path, "rb").read()
                cases.same("a line for each", len(data.split(b"\n")), len(LABELS) + 1)
                cases.check("no control byte", all(byte >= 32 or byte == 10 for byte in data) and 127 not in data, data)
                if not options:
                    cases.check("ASCII", all(byte < 127 for byte in data), data)
                for tag, (line, label) in enumerate(zip(found, LABELS)):
                    read = json.loads(line) if options else words_of(line)
                    if options:
                        got = bytes.fromhex(read["label_hex"]) if "label_hex" in read else read["label"].encode()
                    else:
                        got = read and read["label"]
                    cases.same(f"label {label!r}", got, label)
                    cases.same(f"fields of {label!r}", read and (read["tag"], read["answer"], read["cause"], read["bytes"]), (tag, "denied", 3, 1))


def clamd(cases, program):
    """Clients of clamd name nothing; the signature's name is told where there is a file of names."""
    with tempfile.TemporaryDirectory() as folder:
        path, names = os.path.join(folder, "log"), os.path.join(folder, "names")
        with open(names, "wb") as file:
            file.write(b"avsig 1\nversion 7\nTest.X 5858\n")
        with Guard(program, "--log", path, "--names", names) as guard:
            service = Service(guard, 7, b"XX")
            guard.await_line(b"connected\n")
            client = connected(guard.clamd)
            client.sendall(b"zINSTREAM\0" + struct.pack(">I", 4) + b"aXXb" + struct.pack(">I", 0))
            judged(service, client, len(b"stream: Test.X FOUND\0"))
            other = connected(guard.opens)
            other.sendall(ask(9, b"aXXb", b"l"))
            judged(service, other, 14)
            found = [words_of(line) for line in lines_of(path, 3)][1:]
            cases.same("a client of clamd", found[0] and {name: found[0][name] for name in found[0] if name not in ("time", "client", "tag")},
                       {"event": "answer", "answer": "denied", "cause": 2, "why": b"infected", "signature": 0, "name": b"Test.X", "end": 3, "version": 7, "socket": "clamd", "bytes": 4})
            cases.same("the name at the socket for opens", found[1] and (found[1]["name"], found[1]["label"], found[1]["socket"]), (b"Test.X", b"l", "opens"))


def moved(cases, program):
    """A file that is moved away or removed is made anew, and no line is lost or torn."""
    with tempfile.TemporaryDirectory() as folder:
        path = os.path.join(folder, "log")
        with Guard(program, "--log", path) as guard:
            client, told = connected(guard.opens), 0
            for turn in range(3):
                for _ in range(20):
                    client.sendall(ask(told, b"A", b"%d" % told))
                    heard(client, 14)
                    told += 1
                lines_of(path, 20)
                time.sleep(1.1)
                if turn == 0:
                    os.rename(path, path + ".1")
                elif turn == 1:
                    os.rename(path, path + ".2")
                    os.mkdir(path)
                    client.sendall(ask(told, b"A", b"%d" % told))
                    heard(client, 14)
                    told += 1
                    time.sleep(1.2)
                    os.rmdir(path)
                    time.sleep(1.2)
            found = [line for name in (path + ".1", path + ".2", path) for line in lines_of(name, 20)]
            cases.same("each line once, in its order", [words_of(line)["tag"] for line in found], list(range(told)))
        cases.same("rights of the one that was made anew", stat.S_IMODE(os.stat(path).st_mode), 0o600)


def no_files(cases, program):
    """What is no regular file is refused, with one line and a status, and nobody is waited for."""
    with tempfile.TemporaryDirectory() as folder:
        at = lambda name: os.path.join(folder, name)
        os.mkfifo(at("fifo"))
        bound = socket.socket(socket.AF_UNIX)
        bound.bind(at("socket"))
        open(at("shut"), "w").close()
        for name in (at("fifo"), at("socket"), folder, "/dev/full", at("none/log"), ""):
            done = subprocess.run([program_beside(program, "avguard"), "run", at("o"), at("s"), "--log", name], capture_output=True, timeout=SECONDS)
            cases.same(f"--log {name}", (done.returncode, done.stdout, done.stderr), (4, b"", b"avguard: %s: cannot be opened as a file that a guard logs to\n" % name.encode()))
            cases.same("no socket is left", sorted(os.listdir(folder)), ["fifo", "shut", "socket"])


def full(cases, program):
    """A file that takes no more: lines wait, those without room are counted, and both are told once it takes them."""
    with tempfile.TemporaryDirectory() as folder:
        path = os.path.join(folder, "log")

        def limited():
            signal.signal(signal.SIGXFSZ, signal.SIG_IGN)
            resource.setrlimit(resource.RLIMIT_FSIZE, (4096, resource.RLIM_INFINITY))

        with Guard(program, "--log", path, before=limited) as guard:
            client, count = connected(guard.opens), 10_000
            for first in range(0, count, 100):
                client.sendall(b"".join(ask(tag, b"A", b"l" * 40) for tag in range(first, first + 100)))
                cases.check("answers come", len(heard(client, 1400)) == 1400)
            time.sleep(1.2)
            cases.same("the file is full", os.path.getsize(path), 4096)
            resource.prlimit(guard.process.pid, resource.RLIMIT_FSIZE, (resource.RLIM_INFINITY, resource.RLIM_INFINITY))
            limit, found = time.time() + SECONDS, []
            while not (found and "state=dropped" in found[-1]) and time.time() < limit:
                found = lines_of(path, 1)
                time.sleep(0.05)
            read = [words_of(line) for line in found]
            cases.check("no line is torn", all(read), [line for line, fields in zip(found, read) if not fields])
            tags = [fields["tag"] for fields in read if fields and fields["event"] == "answer"]
            cases.same("the first ones are there, in their order", tags, list(range(len(tags))))
            cases.same("the others were counted", read[-1] and (read[-1]["event"], read[-1]["lines"]), ("log", count - len(tags)))
            cases.check("a MiB waited", 900_000 < os.path.getsize(path) < 1_100_000, os.path.getsize(path))
            cases.check("memory", guard.memory() < 60_000, guard.memory())


def on_error(cases, program):
    """The log on standard error has the place of its lines of words; nobody waits where it is full or not read."""
    with Guard(program, "--log", "-", "--log-json") as guard:
        client = connected(guard.opens)
        client.sendall(ask(1, b"A", b"x"))
        heard(client, 14)
        service = Service(guard, 7, b"XX")
        guard.await_line(b"\n", 2)
        read = [json.loads(line) for line in guard.lines().splitlines()]
        cases.same("lines", [(line["event"], line.get("state"), line.get("label")) for line in read], [("answer", None, "x"), ("service", "connected", None)])
    for where in ("/dev/full", None):
        ends = os.pipe()
        error = open(where, "wb") if where else os.fdopen(ends[1], "wb")
        with Guard(program, "--log", "-", stderr=error) as guard:
            client, begun = connected(guard.opens), time.time()
            for first in range(0, 6_000, 100):
                client.sendall(b"".join(ask(tag, b"A", b"l" * 200) for tag in range(first, first + 100)))
                if len(heard(client, 1400)) != 1400:
                    break
            cases.check(f"all are answered beside {where or 'a pipe that nobody reads'}", first == 5_900 and time.time() - begun < SECONDS, first)
            cases.check("memory", guard.memory() < 60_000, guard.memory())
            if not where:
                got, limit = b"", time.time() + SECONDS
                while b"state=dropped" not in got and time.time() < limit:
                    got += os.read(ends[0], 65536)
                found = [words_of(line) for line in got.decode().splitlines()]
                cases.check("no line is torn", all(found))
                tags = [fields["tag"] for fields in found if fields and fields["event"] == "answer"]
                cases.check("in order", tags == sorted(tags))
                cases.same("each was told or counted", len(tags) + sum(fields["lines"] for fields in found if fields and fields["event"] == "log"), 6_000)
        error.close()
        if where:
            os.close(ends[1])
        os.close(ends[0])


def idle(cases, program):
    """A guard with a log does nothing while nothing is to be done, and is no slower for a log that is slow."""
    with tempfile.TemporaryDirectory() as folder:
        path = os.path.join(folder, "log")
        with Guard(program, "--log", path, "--log-grants") as guard:
            service = Service(guard, 1, b"XX")
            guard.await_line(b"connected\n")
            used = lambda: sum(map(int, open(f"/proc/{guard.process.pid}/stat").read().rsplit(")", 1)[1].split()[11:13]))
            lines_of(path, 1)
            before = used()
            time.sleep(2)
            cases.check("idle", used() - before <= 2, f"{used() - before} ticks")
            service.end.close()


def main():
    if len(sys.argv) != 2:
        sys.exit("usage: tests/log.py PROGRAM")
    cases, program = Cases(), os.path.abspath(sys.argv[1])
    for part in (plain, events, labels, clamd, moved, no_files, full, on_error, idle):
        begun = time.time()
        try:
            part(cases, program)
        except Exception as fault:
            cases.check(part.__name__, False, f"{type(fault).__name__}: {fault}")
        print(f"{part.__name__}: {time.time() - begun:.1f} s", file=sys.stderr)
    print(f"{cases.passed} passed, {cases.failed} failed")
    sys.exit(1 if cases.failed else 0)


if __name__ == "__main__":
    main()
