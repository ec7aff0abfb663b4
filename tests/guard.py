#!/usr/bin/env python3
"""`avguard run` as a process: what it says to clients, to clients of clamd and to the service, byte by byte (guard/ and clamd/), the same
asks cut anywhere, `avguard ask`, random schedules beside a service that dies and learns, clients and services that say anything, nothing,
too much or a byte at a time, sockets that are left over or in use. No descriptor and no memory is lost.
The last line says how many passed and how many failed."""
import calendar, glob, os, random, re, select, signal, socket, struct, subprocess, sys, tempfile, time

from cases import Cases
from programs import program_beside

HERE = os.path.dirname(os.path.abspath(__file__))
SECONDS = 60
QUIET = 0.15          # how long nothing is waited for where nothing is to come
SETTLED = 0.3         # how long is waited for what shows nowhere
MOST = 1 << 20
# What is said at the socket for opens to one whose first bytes are no ask: no scanning service is taken there.
TURNED_AWAY = struct.pack(">IBBQ", 10, 255, 4, 0)


def frame(kind, *fields):
    body = bytes([kind]) + b"".join(fields)
    return struct.pack(">I", len(body)) + body


def message(kind, *fields, port=1):
    """A frame between filter and service, at port 1 or at that of a spare, 2."""
    return frame(kind, bytes([port]), *fields)


def number(n):
    return struct.pack(">Q", n)


def hello(version, port=1):
    return message(5, number(1), number(version), port=port)


def ask(tag, content, label=b"f"):
    return frame(1, number(tag), bytes([len(label)]), label, content)


def frames(data):
    """The whole frames at the front of bytes, and the rest."""
    found = []
    while len(data) >= 4 and len(data) >= 4 + (size := struct.unpack(">I", data[:4])[0]):
        found.append(data[4:4 + size])
        data = data[4 + size:]
    return found, data


def with_boot(data, boot):
    """The same frames with this boot number in each id: a guard draws its own, and the cases have 1."""
    found, left = frames(data)
    return b"".join(frame(body[0], body[1:2], boot, body[10:]) if body[0] in (1, 2, 3, 4, 6, 7) else frame(body[0], body[1:]) for body in found) + left


def boot_in(data):
    """The boot number of the first id in frames for a service."""
    return next((body[2:10] for body in frames(data)[0] if body[0] in (1, 2, 3, 4)), number(1))


def connected(path):
    limit = time.time() + SECONDS
    while True:
        end = socket.socket(socket.AF_UNIX)
        try:
            end.connect(path)
            return end
        except (ConnectionRefusedError, FileNotFoundError):
            end.close()
            if time.time() > limit:
                raise
            time.sleep(0.002)


def heard(end, count, seconds=SECONDS):
    """So many bytes, or fewer where the other side closes or is silent for too long."""
    got = b""
    end.settimeout(seconds)
    try:
        while len(got) < count:
            piece = end.recv(min(count - len(got), 65536))
            if not piece:
                break
            got += piece
    except OSError:
        pass
    return got


def rest(end, seconds=SECONDS):
    return heard(end, 1 << 40, seconds)


def is_silent(end):
    return not select.select([end], [], [], QUIET)[0]


class Guard:
    """A guard in a folder of its own."""

    def __init__(self, program, *words, clamd=True, descriptors=None, stderr=None, before=None):
        self.room = tempfile.TemporaryDirectory()
        self.folder = self.room.name
        self.program = program_beside(program, "avguard")
        self.opens, self.service, self.clamd = (os.path.join(self.folder, name) for name in ("o", "s", "c"))
        more = ["--clamd", self.clamd] if clamd else []
        self.log = open(os.path.join(self.folder, "log"), "w+b")
        limited = ["prlimit", f"--nofile={descriptors}:{descriptors}"] if descriptors else []
        self.process = subprocess.Popen([*limited, self.program, "run", *words, *more, self.opens, self.service], stdin=subprocess.DEVNULL, stdout=subprocess.PIPE, stderr=stderr or self.log, preexec_fn=before)
        self.said = 0

    def __enter__(self):
        return self

    def __exit__(self, *fault):
        self.process.kill()
        self.process.communicate()
        self.log.close()
        self.room.cleanup()

    def write(self, name, content):
        path = os.path.join(self.folder, name)
        with open(path, "wb") as file:
            file.write(content)
        return path

    def lines(self):
        with open(self.log.name, "rb") as log:
            return log.read()

    def await_line(self, line, times=1):
        limit = time.time() + SECONDS
        while self.lines().count(line) < times and time.time() < limit:
            time.sleep(0.002)
        return self.lines().count(line) >= times

    def descriptors(self):
        return len(os.listdir(f"/proc/{self.process.pid}/fd"))

    def memory(self):
        with open(f"/proc/{self.process.pid}/status") as status:
            return int(re.search(r"VmRSS:\s+(\d+)", status.read())[1])

    def ask(self, *words, seconds=SECONDS):
        done = subprocess.run([self.program, "ask", *words], cwd=self.folder, stdin=subprocess.DEVNULL, capture_output=True, timeout=seconds)
        return done.returncode, done.stdout, done.stderr


# The services of both ports, as the cases call them.
SERVICES = ("service", "spare")
NAMES = b"avsig 1\nversion 7\nTest.X 5858\n"


def bytes_of(text):
    """Bytes in hexadecimal, some of them so many times: `00 x 3` is three."""
    found = b""
    for part in re.finditer(r"([0-9a-f]+)(?: x (\d+))?", text):
        found += bytes.fromhex(part[1]) * int(part[2] or 1)
    return found


def replay(cases, program, path):
    """One case: what each side says, and what it is told."""
    lines = open(path).read().splitlines()
    name = os.path.basename(path)
    words = lines[0].split()
    options = ["--open"] if words[1] == "open" else []
    scale = 1.0
    for option in ("wait", "keep", "questions"):
        if option in words:
            options += [f"--{option}", words[words.index(option) + 1]]
    if any(line.startswith("second") for line in lines) and "wait" not in words:
        options += ["--wait", "3"]
        scale = 0.1
    with tempfile.TemporaryDirectory() as folder:
        if "names" in words:
            with open(os.path.join(folder, "names"), "wb") as file:
                file.write(NAMES)
            options += ["--names", os.path.join(folder, "names")]
        with Guard(program, *options) as guard:
            ends, begun, boot = {}, None, number(1)

            def end_of(who):
                if who not in ends:
                    at = guard.service if who in SERVICES else guard.clamd if who.startswith("door") else guard.opens
                    ends[who] = connected(at)
                return ends[who]

            greeted = 0
            for place, line in enumerate(lines[1:], 2):
                what = f"{name}:{place}"
                said = re.fullmatch(r"(?:from )?(service|spare|client \d+|door \d+): ([0-9a-f x]*)", line)
                told = re.fullmatch(r"to (service|spare|client \d+|door \d+): ([0-9a-f]*)", line)
                if told:
                    wanted = bytes.fromhex(told[2])
                    got = heard(end_of(told[1]), len(wanted))
                    if told[1] in SERVICES:
                        boot = boot_in(got)
                        got = with_boot(got, number(1))
                    cases.same(what, got, wanted)
                elif said:
                    own = bytes_of(said[2])
                    try:
                        end_of(said[1]).sendall(with_boot(own, boot) if said[1] in SERVICES else own)
                    except BrokenPipeError:
                        cases.check(what, False, "closed")
                    if said[1] in SERVICES and bytes_of(said[2])[4:5] == b"\5":
                        greeted += 1
                        guard.await_line(b" connected\n", greeted)
                    elif said[1] in SERVICES and bytes_of(said[2])[4:5] == b"\x08":
                        time.sleep(SETTLED)
                elif line in ("service lost", "spare lost"):
                    who = line.split()[0]
                    end_of(who).close()
                    ends.pop(who)
                    guard.await_line(b"avguard: %s lost\n" % who.encode())
                elif re.fullmatch(r"(client|door) \d+ (lost|gone)", line):
                    end_of(line.rsplit(" ", 1)[0]).close()
                    ends.pop(line.rsplit(" ", 1)[0])
                    time.sleep(SETTLED)
                elif re.fullmatch(r"door \d+ closed", line):
                    cases.same(what, rest(end_of(line.rsplit(" ", 1)[0])), b"")
                elif line.startswith("second "):
                    begun = begun or time.time()
                    time.sleep(max(0.0, begun + float(line.split()[1]) * scale - 0.25 * (scale < 1) - time.time()))
                else:
                    cases.check(what, False, f"what is this: {line}")
            for who, end in ends.items():
                cases.check(f"{name}: {who} is told no more", is_silent(end) or not end.recv(1), "more came")
            for end in ends.values():
                end.close()


def rows(cases, program):
    for path in sorted(glob.glob(f"{HERE}/guard/*.case") + glob.glob(f"{HERE}/clamd/*.case")):
        replay(cases, program, path)
    for line in open(f"{HERE}/guard/bad_asks.txt").read().splitlines():
        bad, what = line.split(" closed: ")
        with Guard(program) as guard:
            end = connected(guard.opens)
            end.sendall(bytes.fromhex(bad))
            cases.same(what, rest(end), TURNED_AWAY)
            other = connected(guard.opens)
            other.sendall(ask(1, b"ABC"))
            cases.same(f"{what}: others go on", heard(other, 14), frame(3, number(1), b"\3"))


class Service:
    """A service that judges by one pattern a version, and reads what it judges. It is at port 1, or the spare at port 2."""

    def __init__(self, guard, version, pattern, port=1):
        self.version, self.pattern, self.port = version, pattern, port
        self.end = connected(guard.service)
        self.end.sendall(hello(version, port))
        self.data, self.asked, self.contents = b"", {}, {}

    def fileno(self):
        return self.end.fileno()

    def turn(self, noise=None):
        """Takes what has come, and answers it. With noise some answers are repeated, late, or of questions that ended."""
        try:
            piece = self.end.recv(1 << 20)
        except OSError:
            return False
        if not piece:
            return False
        found, self.data = frames(self.data + piece)
        back = b""
        for body in found:
            back += self.answer(body)
        if noise and back and noise.random() < 0.1:
            back += back
        try:
            self.end.sendall(back)
        except OSError:
            return False
        return True

    def answer(self, body):
        kind, ident = body[0], body[2:18]
        if kind == 1:
            length = struct.unpack(">Q", body[34:42])[0]
            self.asked[ident], self.contents[ident] = length, b""
            return self.next(ident)
        if kind == 2 and ident in self.asked:
            offset = struct.unpack(">Q", body[18:26])[0]
            if offset == len(self.contents[ident]):
                self.contents[ident] += body[26:]
                return self.next(ident)
        if kind in (3, 4):
            self.asked.pop(ident, None)
        return b""

    def message(self, kind, *fields):
        return message(kind, *fields, port=self.port)

    def next(self, ident):
        done = len(self.contents[ident])
        if done < self.asked[ident]:
            return self.message(6, ident, number(done), struct.pack(">I", min(4096, self.asked[ident] - done)))
        self.asked.pop(ident)
        place = self.contents[ident].find(self.pattern)
        if place < 0:
            return self.message(7, ident, b"\0", number(self.version))
        return self.message(7, ident, b"\1", number(self.version), struct.pack(">I", 0), number(place + len(self.pattern)))

    def learn(self, version, pattern):
        """A newer set: what is being judged is judged anew."""
        self.version, self.pattern = version, pattern
        self.end.sendall(self.message(8, number(version)))
        for ident in self.asked:
            self.contents[ident] = b""
        self.end.sendall(b"".join(self.next(ident) for ident in list(self.asked)))

    def close(self):
        self.end.close()


def verdict(body):
    """An answer of the open protocol: its tag, and what it says."""
    kind, tag = body[0], struct.unpack(">Q", body[1:9])[0]
    if kind == 2:
        return tag, "granted", struct.unpack(">QQ", body[9:25])
    if kind == 3:
        return tag, "denied", body[9]
    return tag, "unscanned", (struct.unpack(">Q", body[9:17])[0], body[17])


def cut(cases, program):
    """The same asks in pieces cut anywhere get the same answers, and a ninth at once behind its answer."""
    contents = [b"", b"A", b"X" * 4, b"B" * 5000, b"", b"C" * 70000 + b"XX", b"A"]
    said = b"".join(ask(i, content, b"name" * (i % 3)) for i, content in enumerate(contents))
    noise = random.Random(5)
    for turn in range(40):
        with Guard(program, clamd=False) as guard:
            service, end = Service(guard, 3, b"XX"), connected(guard.opens)
            cases.check("a service is told of", guard.await_line(b"avguard: service of version 3 connected\n"), guard.lines())
            cuts = sorted(noise.randrange(len(said)) for _ in range(noise.randrange(1, 200))) if turn else list(range(0, 300))
            got, data = {}, b""
            for first, last in zip([0, *cuts], [*cuts, len(said)]):
                end.sendall(said[first:last])
                while select.select([service], [], [], 0)[0]:
                    service.turn()
            limit = time.time() + SECONDS
            while len(got) < len(contents) and time.time() < limit:
                for ready in select.select([service, end], [], [], 1)[0]:
                    if ready is service:
                        service.turn()
                    else:
                        found, data = frames(data + end.recv(65536))
                        got.update((tag, (what, more)) for tag, what, more in map(verdict, found))
            wanted = {i: ("denied", 2) if b"XX" in c else ("granted", (2, 3)) for i, c in enumerate(contents)}
            cases.same(f"cut {turn}", got, wanted)


def schedules(cases, program, count):
    """Random schedules: services that are lost in the midst and come back with newer sets, small keeps, few questions, timeouts."""
    for seed in range(count):
        noise = random.Random(seed)
        options = ["--keep", str(noise.choice([0, 10, 100, 1 << 26])), "--questions", str(noise.choice([1, 2, 7, 256]))]
        options += ["--open"] if noise.random() < 0.3 else []
        fault = schedule(program, noise, options)
        cases.check(f"schedule {seed} {options}", fault is None, fault)


def schedule(program, noise, options):
    patterns = {v: bytes(noise.choice(b"AB") for _ in range(noise.randrange(1, 4))) for v in range(1, 9)}
    with Guard(program, *options, clamd=False) as guard:
        clients = [connected(guard.opens) for _ in range(noise.randrange(1, 5))]
        data, asked, got = {c: b"" for c in clients}, {}, {}
        service, version, left = None, 1, noise.randrange(5, 60)
        limit = time.time() + SECONDS
        while (left or len(got) < len(asked)) and time.time() < limit:
            act = noise.random()
            if left and act < 0.5:
                left -= 1
                who = noise.choice(clients)
                tag = len(asked)
                asked[tag] = (who, bytes(noise.choice(b"AB") for _ in range(noise.randrange(0, 9))) * noise.choice([1, 1, 1, 900]))
                who.sendall(ask(tag, asked[tag][1]))
            elif act < 0.55 and service:
                service.close()
                service = None
            elif act < 0.65 and service and version < 8:
                version += 1
                try:
                    service.learn(version, patterns[version])
                except OSError:
                    service = None
            elif service is None and (act < 0.8 or not left):
                version = min(8, version + noise.randrange(2))
                try:
                    service = Service(guard, version, patterns[version])
                except BrokenPipeError:
                    # (both places are taken still by services that the guard has not seen leave)
                    service = None
            for ready in select.select([*clients, *([service] if service else [])], [], [], 0.0 if left else 0.005)[0]:
                if ready is service:
                    if not service.turn(noise):
                        service = None
                    continue
                piece = ready.recv(65536)
                if not piece:
                    return "the guard closed"
                found, data[ready] = frames(data[ready] + piece)
                for body in found:
                    tag, what, more = verdict(body)
                    if tag in got:
                        return f"ask {tag} is answered twice"
                    if asked[tag][0] is not ready:
                        return f"ask {tag} is answered to another"
                    got[tag] = what
                    content = asked[tag][1]
                    if what == "granted" and patterns[more[1]] in content:
                        return f"{content} granted under version {more[1]}, {patterns[more[1]]}"
                    if what == "granted" and more[0] != 2:
                        return f"generation {more[0]}"
                    if what == "denied" and more == 2 and not any(p in content for p in patterns.values()):
                        return f"{content} denied for 2"
                    if what == "denied" and more in (4, 7):
                        return f"denied for cause {more}"
                    if what == "denied" and more != 2 and "--open" in options or what == "unscanned" and "--open" not in options:
                        return f"{what} {more} with {options}"
        if len(got) < len(asked):
            return f"{len(asked) - len(got)} of {len(asked)} asks have no answer"
    return None


def asks(cases, program):
    """The client in the product."""
    with Guard(program, clamd=False) as guard:
        guard.write("set", b"avsig 1\nversion 4\nx 5858\n")
        guard.write("a.bin", b"ABC"), guard.write("b.bin", b"aXXb"), guard.write("long", b"A" * (MOST + 1)), guard.write("full", b"A" * MOST)
        os.makedirs(os.path.join(guard.folder, "d/e"))
        guard.write("d/e/one", b"1"), guard.write("d/two", b"XX")
        cases.same("no service", guard.ask(guard.opens, "a.bin"), (4, b"a.bin denied cause 3\n", b""))
        service = subprocess.Popen([program, "service", "--watch", "1", guard.service, "set"], cwd=guard.folder, stdout=subprocess.PIPE, stderr=subprocess.PIPE)
        guard.await_line(b"avguard: parts connected\n")
        cases.same("two files", guard.ask(guard.opens, "a.bin", "b.bin"), (0, b"a.bin granted generation 2 version 4\nb.bin denied cause 2\n", b""))
        cases.same("--json", guard.ask("--json", guard.opens, "a.bin", "b.bin"), (0, b'{"file":"a.bin","answer":"granted","generation":2,"version":4}\n{"file":"b.bin","answer":"denied","cause":2,"why":"infected"}\n', b""))
        cases.same("-i", guard.ask("-i", guard.opens, "a.bin", "b.bin"), (0, b"b.bin denied cause 2\n", b""))
        cases.same("--found-status", guard.ask("--found-status", guard.opens, "b.bin")[0], 5)
        cases.same("--found-status, none found", guard.ask("--found-status", guard.opens, "a.bin")[0], 0)
        cases.same("--summary", guard.ask("--summary", guard.opens, "a.bin", "b.bin")[2].count(b"\n"), 1)
        cases.same("the greatest", guard.ask(guard.opens, "full"), (0, b"full granted generation 2 version 4\n", b""))
        cases.same("above 1 MiB", guard.ask(guard.opens, "a.bin", "long"), (0, b"a.bin granted generation 2 version 4\nlong granted generation 2 version 4\n", b""))
        guard.write("tail", b"A" * 3 * MOST + b"XX")
        cases.same("with a signature at the end", guard.ask("-i", guard.opens, "tail", "long"), (0, b"tail denied cause 2\n", b""))
        cases.same("not there", guard.ask(guard.opens, "none", "a.bin"), (4, b"", b"avguard: none: cannot read\n"))
        cases.same("-r", guard.ask("-r", guard.opens, "d"), (0, b"d/e/one granted generation 2 version 4\nd/two denied cause 2\n", b""))
        guard.write("list", b"a.bin\nb.bin\n")
        cases.same("--files-from", guard.ask("--files-from", "list", guard.opens)[1].count(b"\n"), 2)
        cases.same("a list without a name", guard.ask("--files-from", "/dev/null", "--summary", guard.opens), (1, b"", b"avguard: no file was asked about\n"))
        many = [guard.write(f"m{i}", b"%d" % (i % 700) * (i % 9) + (b"XX" if i % 10 == 0 else b"")) for i in range(3000)]
        status, out, err = guard.ask(guard.opens, *(os.path.basename(name) for name in many))
        wanted = b"".join(b"m%d %s\n" % (i, b"denied cause 2" if i % 10 == 0 else b"granted generation 2 version 4") for i in range(3000))
        cases.same("3,000 files", (status, out == wanted, err), (0, True, b""))
        service.kill()
        service.communicate()
        guard.await_line(b"service lost\n")
        guard.write("new", b"new")
        cases.same("a lost service leaves what is known", guard.ask(guard.opens, "a.bin", "new"), (4, b"a.bin granted generation 2 version 4\nnew denied cause 3\n", b""))
    with tempfile.TemporaryDirectory() as folder:
        path = os.path.join(folder, "o")
        begun = time.time()
        done = subprocess.run([program_beside(program, "avguard"), "ask", "--wait", "1", path, __file__], capture_output=True)
        cases.same("no guard", (done.returncode, done.stdout, done.stderr), (4, b"", b"avguard: %s: no guard listens\n" % path.encode()))
        cases.check("no guard: it waits so long", 0.9 < time.time() - begun < 10, "")
        listener = socket.socket(socket.AF_UNIX)
        listener.bind(path)
        listener.listen()
        for said in (b"", bytes(4), frame(2, bytes(3)), frame(3, number(7), b"\2"), frame(3, number(0), b"\x63")):
            asking = subprocess.Popen([program_beside(program, "avguard"), "ask", "--wait", "5", path, __file__], stdout=subprocess.PIPE, stderr=subprocess.PIPE)
            end, _ = listener.accept()
            end.recv(10)
            end.sendall(said)
            end.shutdown(socket.SHUT_WR)
            out, err = asking.communicate(timeout=SECONDS)
            cases.same(f"a guard that says {said.hex() or 'nothing'}", (asking.returncode, out, err), (4, b"", b"avguard: %s: the guard gave no answer: it was lost, or has no room for another client\n" % path.encode()))
            end.close()
        asking = subprocess.Popen([program_beside(program, "avguard"), "ask", "--wait", "1", path, __file__], stdout=subprocess.PIPE, stderr=subprocess.PIPE)
        end, _ = listener.accept()
        out, err = asking.communicate(timeout=SECONDS)
        cases.same("a guard that is silent", (asking.returncode, out, err), (4, b"", b"avguard: %s: the guard gave no answer: it was lost, or has no room for another client\n" % path.encode()))


def still_answers(cases, name, guard):
    other = connected(guard.opens)
    other.sendall(ask(9, b"others"))
    cases.check(f"{name}: others go on", heard(other, 14)[4:] in (b"\3" + number(9) + b"\3", b"\2" + number(9) + number(2)[:1]), "no answer")
    other.close()


def hostile_clients(cases, program):
    noise = random.Random(11)
    with Guard(program, "--wait", "2") as guard:
        still_answers(cases, "at first", guard)
        time.sleep(0.2)
        before, memory = guard.descriptors(), guard.memory()
        good = [ask(i, bytes(noise.randrange(256) for _ in range(20))) for i in range(5)]
        words = [b"zPING\0", b"nVERSION\n", b"zIDSESSION\0", b"zINSTREAM\0" + struct.pack(">I", 3) + b"abc" + bytes(4), b"nINSTREAM\n" + struct.pack(">I", 1 << 31)]
        for turn in range(20000):
            at = guard.opens if turn % 2 else guard.clamd
            said = bytearray(b"".join(noise.choice(good if turn % 2 else words) for _ in range(noise.randrange(1, 4))))
            for _ in range(noise.randrange(0, 4)):
                said[noise.randrange(len(said))] = noise.randrange(256)
            end = connected(at)
            try:
                end.sendall(said[:noise.randrange(1, len(said) + 1)])
            except OSError:
                pass
            end.close()
        still_answers(cases, "20,000 broken exchanges", guard)
        limit = time.time() + 10
        while guard.descriptors() > before and time.time() < limit:
            time.sleep(0.05)
        cases.check("no descriptor is lost", guard.descriptors() <= before, f"{before} to {guard.descriptors()}")
        cases.check("no memory is lost", guard.memory() < memory + 40_000, f"{memory} to {guard.memory()} KiB")
        # One that never reads its answers, and one that says a byte at a time.
        flood = connected(guard.opens)
        flood.setblocking(False)
        sent, data = 0, ask(1, b"x") * 5000
        limit = time.time() + 20
        while time.time() < limit:
            try:
                if not flood.send(data):
                    break
                sent += 1
            except BlockingIOError:
                time.sleep(0.01)
            except OSError:
                break
        cases.check("one that never reads is closed", time.time() < limit, f"{sent} pieces taken")
        drip = connected(guard.opens)
        for byte in ask(3, b"drip"):
            drip.sendall(bytes([byte]))
            time.sleep(0.01)
        cases.same("a byte at a time", heard(drip, 14), frame(3, number(3), b"\3"))
        still_answers(cases, "after a flood", guard)
        # A thousand clients, each with half a MiB of an ask.
        many = []
        try:
            for _ in range(900):
                end = connected(guard.opens)
                end.setblocking(False)
                many.append(end)
                try:
                    end.send(ask(1, b"A" * MOST)[:150_000])
                except BlockingIOError:
                    pass
        except OSError:
            pass
        still_answers(cases, "900 clients", guard)
        for end in many:
            end.close()


# The figures of docs/OPERATING.md, in KiB: of a guard that holds nothing, of a client, and of a content beside its bytes.
BASE, A_CLIENT, A_CONTENT = 16 * 1024, 32, 4


def memory(cases, program):
    with Guard(program, clamd=False) as guard:
        service = subprocess.Popen([program, "service", guard.service, guard.write("set", NAMES)], stdout=subprocess.DEVNULL, stderr=subprocess.DEVNULL)
        guard.await_line(b"connected\n")
        base = guard.memory()
        cases.check("a guard that holds nothing has at most its figure", base <= BASE, f"{base} KiB")
        many, clients = [connected(guard.opens) for _ in range(900)], 900
        many[-1].sendall(ask(1, b"x"))
        heard(many[-1], 29)
        with_clients = guard.memory()
        cases.check("900 clients have at most their figure", with_clients - base <= clients * A_CLIENT, f"{(with_clients - base) / clients:.1f} KiB each")
        for end in many:
            end.close()
        before, size, end = guard.memory(), 1000, connected(guard.opens)
        for tag in range(8000):
            end.sendall(ask(tag, b"%08d" % tag + b"A" * (size - 8)))
            answer = heard(end, 29)
            if answer[4:5] != b"\2":
                cases.same(f"content {tag} is granted", answer[4:5], b"\2")
                break
        grown = (guard.memory() - before) / 8000 - size / 1024
        cases.check("8,000 contents that are kept have at most their figure", grown <= A_CONTENT, f"{grown:.2f} KiB each beside its bytes")
        end.close()
        service.kill()
        service.communicate()
    with Guard(program, "--keep", "1000000", clamd=False) as guard:
        service = subprocess.Popen([program, "service", guard.service, guard.write("set", NAMES)], stdout=subprocess.DEVNULL, stderr=subprocess.DEVNULL)
        guard.await_line(b"connected\n")
        before, end = guard.memory(), connected(guard.opens)
        for tag in range(300):
            end.sendall(ask(tag, b"%08d" % tag + b"A" * 500_000))
            heard(end, 29)
        cases.check("150 MB of contents stay within --keep and one that is judged", guard.memory() - before <= 16 * 1024, f"{guard.memory() - before} KiB")
        end.close()
        service.kill()
        service.communicate()


def hostile_services(cases, program):
    noise = random.Random(13)
    with Guard(program, "--wait", "1", clamd=False) as guard:
        silent = connected(guard.service)
        end = connected(guard.opens)
        end.sendall(ask(1, b"one"))
        cases.same("one that does not greet is none", heard(end, 14), frame(3, number(1), b"\3"))
        begun = time.time()
        cases.same("it is closed", rest(silent), b"")
        cases.check("after the wait", 0.5 < time.time() - begun < 5, f"{time.time() - begun}")
        for turn in range(300):
            said = bytearray(hello(1) + message(7, number(1), number(turn + 1), b"\0", number(1)) + message(8, number(1)))
            for _ in range(noise.randrange(0, 3)):
                said[noise.randrange(len(said))] = noise.randrange(256)
            other = connected(guard.service)
            try:
                other.sendall(said[:noise.randrange(1, len(said) + 1)])
            except OSError:
                pass
            other.close()
        still = connected(guard.opens)
        still.sendall(ask(2, b"two"))
        cases.check("after broken services", len(heard(still, 14)) == 14, "no answer")
    with Guard(program, clamd=False) as guard:
        one = Service(guard, 5, b"XX")
        guard.await_line(b"version 5 connected\n")
        one.close()
        guard.await_line(b"service lost\n")
        old = Service(guard, 4, b"XX")
        cases.check("an older one is told of", guard.await_line(b"avguard: service of version 4 is older than 5\n"), guard.lines())
        cases.same("and told why, and closed", rest(old.end), frame(255, b"\1" + number(5)))
        new = Service(guard, 5, b"XX")
        guard.await_line(b"version 5 connected\n", times=2)
        end = connected(guard.opens)
        end.sendall(ask(1, b"ABC"))
        limit = time.time() + SECONDS
        while not select.select([end], [], [], 0)[0] and time.time() < limit:
            if select.select([new], [], [], 0.01)[0]:
                new.turn()
        cases.same("the next one serves", heard(end, 29), frame(2, number(1), number(2), number(5)))
    prepared = hello(1) + message(6, number(1), number(1), number(0), struct.pack(">I", 3)) + message(7, number(1), number(1), b"\0", number(1))
    for count in range(len(prepared) + 1):
        exchange = prepared
        with Guard(program, clamd=False) as guard:
            other, end = connected(guard.service), connected(guard.opens)
            other.sendall(exchange[:min(count, 22)])
            if count >= 22:
                guard.await_line(b"connected\n")
            end.sendall(ask(1, b"ABC"))
            if count >= 22:
                exchange = with_boot(prepared, boot_in(heard(other, 46)))
                other.sendall(exchange[22:count])
            other.close()
            got = heard(end, 14) if count < len(exchange) else heard(end, 29)
            wanted = frame(2, number(1), number(2), number(1)) if count == len(exchange) else frame(3, number(1), b"\3" if count < 22 else b"\6")
            cases.same(f"killed after {count} bytes", got, wanted)


def places(cases, program):
    with tempfile.TemporaryDirectory() as folder:
        at = lambda name: os.path.join(folder, name)

        def fails(words, status, err):
            done = subprocess.run([program_beside(program, "avguard"), "run", *words], capture_output=True, timeout=SECONDS)
            cases.same(" ".join(words), (done.returncode, done.stdout, done.stderr), (status, b"", err))

        fails([at("none/o"), at("s")], 4, b"avguard: %s: cannot make a socket\n" % at("none/o").encode())
        fails([at("o"), at("none/s")], 4, b"avguard: %s: cannot make a socket\n" % at("none/s").encode())
        cases.check("the first socket is gone then", not os.path.exists(at("o")))
        fails([at("o"), at("s"), "--clamd", at("none/c")], 4, b"avguard: %s: cannot make a socket\n" % at("none/c").encode())
        cases.same("all are gone then", os.listdir(folder), [])
        fails([at("o" * 120), at("s")], 2, b"avguard: %s: the path of a socket has 1 to 107 bytes\n" % at("o" * 120).encode())
        open(at("file"), "w").close()
        fails([at("file"), at("s")], 4, b"avguard: %s: the file that is there is no socket\n" % at("file").encode())
        with Guard(program, "--mode", "660") as guard:
            connected(guard.opens).close()
            connected(guard.service).close()
            connected(guard.clamd).close()
            modes = [os.stat(path).st_mode & 0o777 for path in (guard.opens, guard.service, guard.clamd)]
            cases.same("--mode", modes, [0o660, 0o600, 0o660])
            fails([guard.opens, at("s")], 4, b"avguard: %s: another filter waits there\n" % guard.opens.encode())
            guard.process.kill()
            guard.process.wait()
            again = subprocess.Popen([program_beside(program, "avguard"), "run", guard.opens, guard.service], stderr=subprocess.PIPE)
            end = connected(guard.opens)
            end.sendall(ask(1, b"A"))
            cases.same("sockets that are left over are made anew", heard(end, 14), frame(3, number(1), b"\3"))
            cases.same("mode", os.stat(guard.opens).st_mode & 0o777, 0o600)
            again.send_signal(signal.SIGTERM)
            again.communicate(timeout=SECONDS)
            cases.check("a signal ends it", again.returncode == -signal.SIGTERM, again.returncode)


def watches(cases, program):
    """Clients that want to be told of a newer version: each once, none too early, and before an answer that names that version."""
    watch = lambda tag, version: frame(8, number(tag), number(version))
    newer = lambda tag, version: frame(9, number(tag), number(version))
    with Guard(program) as guard:
        one, two, three = (connected(guard.opens) for _ in range(3))
        one.sendall(watch(7, 0))
        cases.check("nothing is told before a service is there", is_silent(one))
        service = Service(guard, 3, b"XX")
        cases.same("its version is told", heard(one, 21), newer(7, 3))
        one.sendall(watch(1 << 63, 2))
        cases.same("a newer one is told at once", heard(one, 21), newer(1 << 63, 3))
        one.sendall(watch(8, 3) + watch(9, 3))
        two.sendall(watch(1, 3) + watch(2, (1 << 64) - 1))
        for byte in watch(3, 5) + ask(4, b"A"):
            three.send(bytes([byte]))
        served(service, three)
        cases.same("an ask beside a watch is answered", heard(three, 29), frame(2, number(4), number(2), number(3)))
        cases.check("none is told of the version that it named", is_silent(one) and is_silent(two) and is_silent(three))
        three.sendall(watch(6, 3) + ask(5, b"B"))
        time.sleep(SETTLED)
        service.learn(4, b"YY")
        cases.same("the last that a client named counts", heard(one, 21), newer(9, 4))
        cases.check("each is told once", is_silent(one))
        cases.check("none is newer than the greatest version", is_silent(two))
        cases.same("a version is told before an answer that names it", heard(three, 21), newer(6, 4))
        served(service, three)
        cases.same("and then that answer", heard(three, 29), frame(2, number(5), number(2), number(4)))
        many = [connected(guard.opens) for _ in range(200)]
        for tag, end in enumerate(many):
            end.sendall(watch(tag, 4) * 40)
        many[0].close()
        time.sleep(SETTLED)
        service.learn(9, b"ZZ")
        cases.same("many are told", [heard(end, 21) for end in many[1:]], [newer(tag, 9) for tag in range(1, 200)])
        for size in (0, 15, 17):
            end = connected(guard.opens)
            end.sendall(frame(8, bytes(size)))
            cases.same(f"a body of {1 + size} bytes is none", rest(end), TURNED_AWAY)
        service.end.close()
        guard.await_line(b"service lost\n")
        one.sendall(watch(1, 9))
        again = Service(guard, 9, b"ZZ")
        cases.check("the same version of another service is not newer", guard.await_line(b"connected\n", 2) and is_silent(one) and again.end.fileno() >= 0)


STATS = b"""POOLS: 1

STATE: %s PRIMARY
THREADS: live 1  idle 0 max 1 idle-timeout 0
QUEUE: %d items

MEMSTATS: heap N/A mmap N/A used N/A free N/A releasable N/A pools 1 pools_used N/A pools_total N/A
END"""
COMMANDS = b"| COMMANDS: PING VERSION VERSIONCOMMANDS STATS INSTREAM IDSESSION END"


def states(cases, program):
    """What a client of clamd gets for VERSION, VERSIONCOMMANDS and STATS as services come, learn and go."""
    with Guard(program) as guard:
        said = lambda word: said_to(guard.clamd, word)

        def version(name, number, since):
            got = said(b"zVERSION\0")
            start, _, date = got.partition(b"/%d/" % number)
            told = calendar.timegm(time.strptime(date.rstrip(b"\0").decode(), "%a %b %d %H:%M:%S %Y")) if date else 0
            cases.check(name, start == b"Vizdroun 1" and len(date) == 25 and int(since) <= told <= time.time(), got)
            cases.same(f"{name}: the commands", said(b"nVERSIONCOMMANDS\n"), got.rstrip(b"\0") + COMMANDS + b"\n")

        cases.same("no version", said(b"VERSION\n"), b"Vizdroun 1\n")
        cases.same("no version: the commands", said(b"zVERSIONCOMMANDS\0"), b"Vizdroun 1" + COMMANDS + b"\0")
        cases.same("no service", said(b"zSTATS\0"), STATS % (b"INVALID", 0) + b"\0")
        begun = time.time()
        service = Service(guard, 7, b"XX")
        guard.await_line(b"connected\n")
        version("a service is there", 7, begun)
        cases.same("a service is there: STATS", said(b"nSTATS\n"), STATS % (b"VALID", 0) + b"\n")
        with connected(guard.clamd) as client:
            client.sendall(b"zINSTREAM\0" + struct.pack(">I", 3) + b"abc" + bytes(4))
            select.select([service.end], [], [], SECONDS)
            cases.same("a content waits", said(b"STATS\n"), STATS % (b"VALID", 1) + b"\n")
            served(service, client)
            cases.same("and is answered", rest(client), b"stream: OK\0")
        cases.same("nothing waits", said(b"zSTATS\0"), STATS % (b"VALID", 0) + b"\0")
        time.sleep(1.1)
        begun = time.time()
        service.learn((1 << 64) - 2, b"YY")
        with connected(guard.opens) as client:
            client.sendall(ask(1, b"a"))
            served(service, client)
        version("a newer set", (1 << 64) - 2, begun)
        with connected(guard.clamd) as session:
            session.sendall(b"zIDSESSION\0zVERSION\0nSTATS\nzEND\0")
            got = rest(session)
            cases.check("in a session", got.startswith(b"1: Vizdroun 1/") and got.endswith(b"2: " + STATS % (b"VALID", 0) + b"\n"), got)
        service.close()
        guard.await_line(b"service lost\n")
        version("a lost service leaves its version", (1 << 64) - 2, begun)
        cases.same("a lost service: STATS", said(b"zSTATS\0"), STATS % (b"INVALID", 0) + b"\0")


def said_to(path, word):
    """What is said to one command of a client of clamd."""
    with connected(path) as end:
        end.sendall(word)
        return rest(end)


def served(service, client):
    """The service answers what is asked until something came for the client."""
    limit = time.time() + SECONDS
    while not select.select([client], [], [], 0.01)[0] and time.time() < limit:
        if select.select([service.end], [], [], 0)[0]:
            service.turn()


def idle(cases, program):
    """Nothing spins while nothing is to be done."""
    with Guard(program) as guard:
        ends = [connected(guard.opens) for _ in range(50)]
        service = Service(guard, 1, b"XX")
        guard.await_line(b"connected\n")
        used = lambda: sum(map(int, open(f"/proc/{guard.process.pid}/stat").read().rsplit(")", 1)[1].split()[11:13]))
        before = used()
        time.sleep(2)
        cases.check("idle", used() - before <= 2, f"{used() - before} ticks")


def main():
    if len(sys.argv) not in (2, 3):
        sys.exit("usage: tests/guard.py PROGRAM [SCHEDULES]")
    cases, program = Cases(), os.path.abspath(sys.argv[1])
    count = int(sys.argv[2]) if len(sys.argv) == 3 else 2000
    for part in (rows, cut, asks, watches, states, places, idle, memory, hostile_services, hostile_clients, lambda *words: schedules(*words, count)):
        begun, name = time.time(), part.__name__.replace("<lambda>", "schedules")
        try:
            part(cases, program)
        except Exception as fault:
            cases.check(name, False, f"{type(fault).__name__}: {fault}")
        print(f"{name}: {time.time() - begun:.1f} s", file=sys.stderr)
    print(f"{cases.passed} passed, {cases.failed} failed")
    sys.exit(1 if cases.failed else 0)


if __name__ == "__main__":
    main()
