#!/usr/bin/env python3
"""A guard that takes contents in parts: what `avguard run` sends to clients, to clients of clamd and over both connections of the service.

Each case of large/ is played three times: whole, byte by byte, and cut at random. A case has one line for each event: `from client 1: HEX`,
`from service: HEX` (the first connection), `from parts: HEX` (the second one), `door 1: HEX` (a client of clamd), and what the guard sends for
it, as `to client 1: HEX`. `00*300` is 300 bytes. Parts of one content that follow each other are joined before they are compared, since a guard
may cut them as it likes. `second S` advances the clock: such cases run in real time with a short --wait, all at once.
Then come random schedules and hostile frames, and contents of up to 8 GiB beside slow clients, newer signatures, an older service and a service
that reads nothing. clamdscan asks where it is installed.
    large.py PROGRAM [MIB]      MIB is the size of the longest content, 8,192 without it
The last line says how many passed and how many failed."""
import concurrent.futures, glob, os, random, re, resource, select, shutil, socket, struct, subprocess, sys, tempfile, threading, time

import guard as small
from attacks import NEEDED, free_processors
from cases import Cases
from guard import A_CLIENT, SECONDS, TURNED_AWAY, Guard, Service, ask, bytes_of, connected, frames, heard, hello, number, rest, verdict, with_boot
from parts import greeting, is_clean, is_infected, no_verdict

HERE = os.path.dirname(os.path.abspath(__file__))
QUIET = 0.15          # how long nothing is waited for where nothing is to come
MOST = 1 << 20
READ = 1 << 16        # how much a client of these tests sends at a time
CUTS = ("whole", "bytes", "random")
NAMES = b"avsig 1\nversion 7\nTest.X 5858585858\n"
FIRST, SECOND = b"avsig 1\nversion 1\nTest.X 5858\n", b"avsig 1\nversion 2\nTest.Y 595959\n"
# What a guard may hold beside its clients, in KiB, while a content goes through it: 262,144 bytes and one read wait for the service, and lists
# grow by doubling.
HELD = 2048
# How many times as long a content may take beside slow clients, in the best of so many tries.
RATIO, TRIES = 2, 3
SLOW = 1000


def frame(kind, *fields):
    body = bytes([kind]) + b"".join(fields)
    return struct.pack(">I", len(body)) + body


def begin(tag, label=b"f"):
    return frame(5, number(tag), bytes([len(label)]), label)


def part(tag, some):
    return frame(6, number(tag), some)


def end(tag, count, how=0):
    return frame(7, number(tag), bytes([how]), number(count))


def sent_in_parts(tag, content, size=READ):
    """A whole content."""
    return begin(tag) + b"".join(part(tag, content[at:at + size]) for at in range(0, len(content), size)) + end(tag, len(content))


def bytes_in(text):
    """Bytes of a case: hexadecimal digits, or HH*N for a byte that comes N times."""
    found = b""
    for word in text.split():
        digits, _, times = word.partition("*")
        found += bytes.fromhex(digits) * int(times or 1)
    return found


class Joined:
    """Frames for the service's second connection, in which parts of one content that follow each other are one. With `over`, parts right
    before a Drop of their content are left out: how much of a content that is too large goes on depends on the cuts."""

    def __init__(self, over=False):
        self.over, self.bodies, self.rest, self.count = over, [], bytearray(), 0

    def put(self, data):
        self.rest += data
        at = 0
        while len(self.rest) - at >= 4 and len(self.rest) - at >= 4 + (size := int.from_bytes(self.rest[at:at + 4], "big")):
            self.take(self.rest[at + 4:at + 4 + size])
            at += 4 + size
        del self.rest[:at]

    def take(self, body):
        last = self.bodies[-1] if self.bodies else b""
        if last and body[0] == 17 and last[:9] == body[:9]:
            last += body[9:]
            self.count += len(body) - 9
            return
        if last and self.over and body[0] == 19 and last[0] == 17 and last[1:9] == body[1:9]:
            self.count -= len(self.bodies.pop())
        self.bodies.append(body)
        self.count += len(body)

    def is_over(self, wanted):
        """Whether nothing that comes could make it what is wanted."""
        return self.count > wanted.count and (not self.over or len(self.bodies) > len(wanted.bodies) + 1)


class End:
    """One side of a connection to the guard, with what it has heard and not yet taken."""

    def __init__(self, path):
        self.socket, self.data, self.is_closed, self.sent = connected(path), b"", False, b""
        self.socket.setblocking(False)

    def fileno(self):
        return self.socket.fileno()

    def read(self):
        try:
            piece = self.socket.recv(1 << 18)
        except BlockingIOError:
            return
        except OSError:
            piece = b""
        self.data += piece
        self.is_closed = not piece

    def begins_badly(self):
        """Whether the first bytes that were sent are no ask and no beginning of a content: the guard says then who is asked here."""
        found, _ = frames(self.sent)
        return not found or found[0][0] not in (1, 5) or found[0][0] == 5 and (len(found[0]) < 10 or len(found[0]) != 10 + found[0][9])


class Stage:
    """A guard, and everybody who speaks to it."""

    def __init__(self, guard):
        self.guard, self.ends, self.boot, self.base = guard, {}, number(1), None

    def end(self, who):
        if who not in self.ends:
            place = {"service": self.guard.service, "parts": self.guard.service + ".parts"}.get(who)
            self.ends[who] = End(place or (self.guard.clamd if who.startswith("door") else self.guard.opens))
        return self.ends[who]

    def turn(self, seconds, writes=None):
        """Reads what comes to anybody, so that the guard never waits for one of them: whether `writes` may be written to."""
        open_ends = [each for each in self.ends.values() if not each.is_closed]
        ready, writable, _ = select.select(open_ends, [writes] if writes else [], [], seconds)
        for each in ready:
            each.read()
        return bool(writable)

    def send(self, who, pieces):
        """Sends pieces, as far as the guard takes them: it may close the connection amid a frame that is none."""
        it, limit = self.end(who), time.time() + SECONDS
        for piece in pieces:
            it.sent += piece[:300]
            while piece and not it.is_closed and time.time() < limit:
                if self.turn(1, it):
                    try:
                        piece = piece[it.socket.send(piece):]
                    except BlockingIOError:
                        pass
                    except OSError:
                        return

    def hear(self, who, is_enough, seconds=SECONDS):
        """Waits until what one has heard is enough, or it is closed."""
        it, limit = self.end(who), time.time() + seconds
        while not is_enough(it.data) and not it.is_closed and time.time() < limit:
            self.turn(0.5)
        return it

    def take(self, who, count, seconds=SECONDS):
        it = self.hear(who, lambda data: len(data) >= count, seconds)
        got, it.data = it.data[:count], it.data[count:]
        return got

    def take_parts(self, data, over):
        """Whether these frames come over the second connection, joined, and what came."""
        wanted, found = Joined(over), Joined(over)
        wanted.put(data)

        def is_enough(_):
            found.put(it.data)
            it.data = b""
            return not found.rest and (found.count, len(found.bodies)) == (wanted.count, len(wanted.bodies)) or found.is_over(wanted)

        it = self.end("parts")
        self.hear("parts", is_enough)
        it.data = bytes(found.rest)
        return found.bodies == wanted.bodies, f"wanted {short(wanted.bodies)}, got {short(found.bodies)}"

    def settle(self, times=2):
        """Waits until the guard has read what was sent before: it then reads what a client of this moment sends."""
        for _ in range(times):
            end = connected(self.guard.opens)
            end.sendall(bytes(4))
            limit = time.time() + SECONDS
            while time.time() < limit:
                self.turn(0)
                if select.select([end], [], [], 0.01)[0]:
                    break
            end.close()

    def drop(self, who):
        self.ends.pop(who).socket.close()

    def closed(self, who):
        """What one has heard that was not expected, once the guard closes it."""
        it = self.hear(who, lambda data: False, 20)
        unasked = TURNED_AWAY if it.begins_badly() and who.startswith("client") else b""
        self.drop(who)
        if not it.is_closed:
            return "it is not closed"
        return b"" if it.data == unasked else it.data

    def more(self):
        """Who has heard more than was expected."""
        limit = time.time() + QUIET
        while time.time() < limit:
            self.turn(QUIET / 3)
        return {who: it.data[:50] for who, it in self.ends.items() if it.data}

    def close(self):
        for it in self.ends.values():
            it.socket.close()


def pieces_of(data, cut, draw):
    """The pieces in which a side sends: of long bytes only the first and the last ones are cut small."""
    if cut == "whole":
        return [data]
    pieces, at = [], 0
    while at < len(data):
        size = 1 if cut == "bytes" else draw.choice((1, 3, 8, 13, 21, 1000, 70000))
        if 300 <= at < len(data) - 300:
            size = min(70000, len(data) - 300 - at)
        pieces.append(data[at:at + size])
        at += size
    return pieces


def options_of(words, folder, timed):
    """The options of a case's first line, and how many real seconds one of its seconds takes."""
    options, scale = ["--open"] if words[1] == "open" else [], 1.0
    for word, option in (("wait", "--wait"), ("keep", "--keep"), ("questions", "--questions"), ("max_size", "--max-size"), ("stream_max", "--stream-max-size")):
        if word in words:
            options += [option, words[words.index(word) + 1]]
    if timed and "wait" not in words:
        options, scale = options + ["--wait", "3"], 0.1
    if "names" in words:
        with open(os.path.join(folder, "names"), "wb") as file:
            file.write(NAMES)
        options += ["--names", os.path.join(folder, "names")]
    return options, scale


def replay(cases, program, path, cut):
    """One case, cut so: what each side says, and what it is told."""
    lines = open(path).read().splitlines()
    folder = os.path.basename(os.path.dirname(path))
    name, draw, timed = f"{folder}/{os.path.basename(path)} {cut}", random.Random(f"{path} {cut}"), any(line.startswith("second") for line in lines)
    over = any(word in lines[0] for word in ("max_size", "stream_max")) or "too_large" in path
    with tempfile.TemporaryDirectory() as room:
        options, scale = options_of(lines[0].split(), room, timed)
        with Guard(program, *options) as guard:
            connected(guard.opens).close()
            stage = Stage(guard)
            try:
                for place, line in enumerate(lines[1:], 1):
                    following = lines[place + 1] if place + 1 < len(lines) else ""
                    step(cases, stage, f"{name}:{place + 1}", line, following, (cut, draw, over, scale if timed else None))
                cases.same(f"{name}: nothing more", stage.more(), {})
            finally:
                stage.close()


def step(cases, stage, what, line, following, how):
    """One line of a case."""
    cut, draw, over, scale = how
    said = re.fullmatch(r"(?:from )?(service|parts|client \d+|door \d+): (.*)", line)
    told = re.fullmatch(r"to (service|parts|client \d+|door \d+): (.*)", line)
    if told:
        wanted = bytes_in(told[2])
        if told[1] == "parts":
            cases.check(what, *stage.take_parts(wanted, over))
            return
        got = stage.take(told[1], len(wanted))
        if told[1] == "service":
            stage.boot, got = small.boot_in(got), with_boot(got, number(1))
        cases.same(what, got, wanted)
    elif said:
        if scale is not None and stage.base is not None:
            time.sleep(0.2)
        own = bytes_in(said[2])
        stage.send(said[1], pieces_of(with_boot(own, stage.boot) if said[1] == "service" else own, cut, draw))
        if said[1].startswith(("client", "door")):
            stage.base = stage.base or time.time()
    elif line == "parts joined":
        stage.ends.pop("parts", None)
        stage.end("parts")
    elif line in ("parts lost", "service lost") or re.fullmatch(r"(client|door) \d+ (lost|gone)", line):
        stage.drop(line.rsplit(" ", 1)[0])
    elif re.fullmatch(r"(parts|client \d+|door \d+) closed", line):
        cases.same(what, stage.closed(line.rsplit(" ", 1)[0]), b"")
    elif line.startswith("second "):
        until = min(stage.base + float(line.split()[1]) * scale - 0.3, time.time() + 4)
        while time.time() < until:
            stage.turn(max(0.0, min(0.1, until - time.time())))
        cases.same(f"{what}: nothing before its time", [who for who, it in stage.ends.items() if it.data or it.is_closed], [])
    else:
        cases.check(what, False, f"what is this: {line}")
    # Of an event that brings nothing the guard shows nothing: before somebody else speaks it is to have read it.
    if not told and not line.startswith("second ") and not following.startswith("to ") and not following.endswith(" closed"):
        stage.settle()


def short(bodies):
    return [f"{body[:20].hex()} of {len(body)} bytes" for body in bodies]


def rows(cases, program):
    paths = sorted(glob.glob(f"{HERE}/large/*/*.case"))
    cases.check("the cases are there", len(paths) == 103, f"{len(paths)} of 103")
    timed = [path for path in paths if re.search(r"^second ", open(path).read(), re.M)]

    def played(job):
        own = Cases()
        try:
            replay(own, program, *job)
        except Exception as fault:
            own.check(f"{job}", False, f"{type(fault).__name__}: {fault}")
        return own

    with concurrent.futures.ThreadPoolExecutor(8 + len(timed) * len(CUTS)) as pool:
        jobs = [(path, cut) for path in timed for cut in CUTS] + [(path, cut) for path in paths if path not in timed for cut in CUTS]
        for own in pool.map(played, jobs):
            cases.passed += own.passed
            cases.failed += own.failed


class Whole(Guard):
    """A guard with a service of the product, which takes parts."""

    def __init__(self, program, *words, signatures=FIRST, **more):
        super().__init__(program, *words, **more)
        self.set = self.write("set", signatures)
        self.scanner = subprocess.Popen([program, "service", "--watch", "1", self.service, self.set], stdin=subprocess.DEVNULL, stdout=subprocess.DEVNULL, stderr=subprocess.DEVNULL)
        if not self.await_line(b"avguard: parts connected\n"):
            raise OSError(f"the service's second connection did not come: {self.lines()}")

    def __exit__(self, *fault):
        self.scanner.kill()
        self.scanner.wait()
        super().__exit__(*fault)

    def publish(self, signatures):
        os.rename(self.write("newer", signatures), self.set)


def figure(process, name="VmRSS"):
    """A figure of a process's memory in KiB."""
    with open(f"/proc/{process.pid}/status") as status:
        return int(re.search(name + r":\s+(\d+)", status.read())[1])


def told(end, seconds=SECONDS):
    """The next answer."""
    head = heard(end, 4, seconds)
    return verdict(heard(end, struct.unpack(">I", head)[0], seconds)) if len(head) == 4 else None


def send_long(guard, size, last=b"", tag=1):
    """Sends zeros and these last bytes in parts: how long it took up to the answer, and the answer."""
    some = part(tag, bytes(READ))
    many, left, begun = some * 16, size - len(last), time.perf_counter()
    with connected(guard.opens) as end_of_client:
        end_of_client.settimeout(SECONDS)
        end_of_client.sendall(begin(tag))
        for block, length in ((many, 16 * READ), (some, READ)):
            while left >= length:
                end_of_client.sendall(block)
                left -= length
        if left:
            end_of_client.sendall(part(tag, bytes(left)))
        if last:
            end_of_client.sendall(part(tag, last))
        end_of_client.sendall(end(tag, size))
        return time.perf_counter() - begun, told(end_of_client)


GRANTED, INFECTED = (1, "granted", (2, 1)), (1, "denied", 2)


def a_byte_a_second_slows_nobody(cases, program, mib):
    size = min(mib, 1024) << 20
    with Whole(program, clamd=False) as guard:
        cases.same("a long content is granted", send_long(guard, 1 << 20)[1], GRANTED)
        before = guard.memory()
        alone = min(send_long(guard, size)[0] for _ in range(2))
        peak = figure(guard.process, "VmHWM") - before
        cases.check("of a long content little waits for the service", peak <= HELD, f"{peak} KiB")
        many, stop = [connected(guard.opens) for _ in range(SLOW)], threading.Event()
        sent = 0
        for each in many:
            each.sendall(begin(1) + part(1, bytes(1000))[:13])

        def trickle():
            nonlocal sent
            while not stop.wait(1) and sent < 999:
                for each in many:
                    each.sendall(b"x")
                sent += 1

        is_quiet = free_processors() > NEEDED - 0.5
        slow = threading.Thread(target=trickle)
        slow.start()
        beside = []
        while len(beside) < TRIES and (not beside or min(beside) > RATIO * alone):
            seconds, said = send_long(guard, size)
            beside.append(seconds)
            cases.same(f"beside {SLOW} slow clients it is granted", said, GRANTED)
        stop.set()
        slow.join()
        if is_quiet:
            cases.check(f"beside {SLOW} clients that send a byte a second it takes at most {RATIO} times as long", min(beside) <= RATIO * alone, f"{alone:.2f} s alone, {min(beside):.2f} s")
        else:
            print(f"fewer than {NEEDED} processors are free, so no time beside slow clients is required", file=sys.stderr)
        peak = figure(guard.process, "VmHWM") - before
        cases.check("they cost no more than clients that say nothing", peak <= HELD + SLOW * A_CLIENT, f"{peak} KiB")
        for each in many:
            each.sendall(bytes(1000 - sent) + end(1, 1000))
        cases.same("each of them is answered", {told(each) for each in many}, {GRANTED})
        print(f"{size >> 20} MiB: {alone:.2f} s alone, {min(beside):.2f} s beside slow clients, peak {peak} KiB", file=sys.stderr)
        for each in many:
            each.close()


def memory_stays_flat(cases, program, mib):
    with Whole(program, clamd=False) as guard:
        seconds, said = send_long(guard, 256 << 20)
        cases.same("256 MiB are granted", said, GRANTED)
        size = min(mib << 20, max(256 << 20, int(40 / seconds) * (256 << 20)))
        before, after, stop = (guard.memory(), figure(guard.scanner)), [], threading.Event()

        def look():
            while not stop.wait(0.2):
                after.append((guard.memory(), figure(guard.scanner)))

        looking = threading.Thread(target=look)
        looking.start()
        seconds, said = send_long(guard, size, b"XX")
        stop.set()
        looking.join()
        cases.same(f"{size} bytes with a signature in the last two are denied", said, INFECTED)
        for place, name in enumerate(("guard", "service")):
            grown = max(each[place] for each in after or [before]) - before[place]
            cases.check(f"{size} bytes later the {name} has as much memory", grown <= HELD, f"{grown} KiB more")
        print(f"{size >> 20} MiB in {seconds:.1f} s", file=sys.stderr)


class Both:
    """A service that this test plays: its first connection judges by a pattern, its second one greets and then does what a test has it do."""

    def __init__(self, guard, version=1, pattern=b"XX"):
        self.first = Service(guard, version, pattern)
        guard.await_line(b"service of version %d connected\n" % version)
        self.second = connected(guard.service + ".parts")
        self.second.sendall(greeting(version))
        guard.await_line(b"avguard: parts connected\n")


def a_service_that_takes_nothing(cases, program, _):
    with Guard(program, "--wait", "3", clamd=False) as guard:
        service, honest = Both(guard), connected(guard.opens)
        honest.sendall(ask(1, b"before"))
        while not select.select([honest], [], [], 0.01)[0]:
            service.first.turn()
        cases.same("a small content is judged", told(honest), GRANTED)
        before, greedy = guard.memory(), [connected(guard.opens) for _ in range(20)]
        sent, more, begun = dict.fromkeys(greedy, 0), part(1, bytes(READ)), time.time()
        for each in greedy:
            each.setblocking(False)
            each.send(begin(1))
        while time.time() - begun < 1.5:
            for each in select.select([], greedy, [], 0.1)[1]:
                try:
                    sent[each] += each.send(more[sent[each] % len(more):])
                except BlockingIOError:
                    pass
        # what two sockets hold, what waits, and what one read gives, of each that was read before that was reached
        most = sum(sent.values())
        cases.check("20 clients send no more than waits and what their sockets hold", most <= (1 << 20) + len(greedy) * (1 << 19), f"{most} bytes")
        cases.check("no more is held", guard.memory() - before <= HELD + 21 * A_CLIENT, f"{guard.memory() - before} KiB")
        honest.sendall(ask(1, b"known") + ask(2, b"meanwhile XX"))
        got, limit = [], time.time() + SECONDS
        while len(got) < 2 and time.time() < limit:
            for ready in select.select([service.first, honest], [], [], 0.1)[0]:
                if ready is honest:
                    got.append(told(honest))
                else:
                    service.first.turn()
        cases.same("small contents are judged, at the latest once it is closed", sorted(got), [GRANTED, (2, "denied", 2)])
        cases.check("after --wait the second connection is closed", guard.await_line(b"avguard: parts lost\n"), guard.lines())
        cases.same("each client that waits is told", {told(each) for each in greedy}, {(1, "denied", 6)})
        cases.check("and the first connection stays", b"service lost" not in guard.lines(), guard.lines())


def a_newer_set_amid_a_content(cases, program, _):
    with Whole(program, clamd=False) as guard:
        end_of_client, content = connected(guard.opens), bytes(100_000) + b"XXYYY"
        end_of_client.sendall(begin(1) + part(1, bytes(1 << 20)) * 3)
        guard.publish(SECOND)
        cases.same("a newer set ends the content before its end", told(end_of_client), (1, "denied", 11))
        end_of_client.sendall(part(1, b"XXYYY") + end(1, (3 << 20) + 5, 1))
        end_of_client.sendall(sent_in_parts(2, content))
        cases.same("the newer set judges from the beginning", told(end_of_client), (2, "denied", 2))
        end_of_client.sendall(sent_in_parts(3, content[:-1]))
        cases.same("and the older one no more", told(end_of_client), (3, "granted", (2, 2)))


def an_older_service(cases, program, _):
    for mode, first in ((["--open"], (1, "unscanned", (2, 14))), ([], (1, "denied", 14))):
        with Guard(program, *mode) as guard:
            service, client = Service(guard, 1, b"XX"), connected(guard.opens)
            guard.await_line(b"connected\n")
            client.sendall(begin(1) + part(1, bytes(READ)))
            cases.same(f"an older service takes no parts {mode}", told(client), first)
            client.sendall(end(1, READ, 1) + ask(1, b"XX"))
            while not select.select([client], [], [], 0.01)[0]:
                service.turn()
            cases.same(f"and judges asks {mode}", told(client), INFECTED)
            door = connected(guard.clamd)
            door.sendall(b"zINSTREAM\0" + struct.pack(">I", MOST + 1))
            cases.same(f"a long stream of clamd's clients is refused {mode}", heard(door, 44), b"stream: INSTREAM size limit exceeded. ERROR\0")


def answers_that_come_early(cases, program, _):
    """`ask` sends no more of a file once its answer has come, and takes no grant of what it gave up."""
    granted, infected = frame(2, number(0), number(2), number(1)), frame(3, number(0), b"\2")
    rows = ((infected, 0, b"file denied cause 2\n", b""),
            (frame(3, number(0), bytes([12])), 4, b"file denied cause 12\n", b""),
            (frame(4, number(0), number(2), bytes([12])), 4, b"file unscanned generation 2 cause 12\n", b""),
            (granted, 4, b"", b"avguard: %s: the guard was lost\n"))
    for answer, status, out, err in rows:
        with tempfile.TemporaryDirectory() as folder:
            path, file = os.path.join(folder, "o"), os.path.join(folder, "file")
            with open(file, "wb") as whole:
                whole.truncate(256 << 20)
            with socket.socket(socket.AF_UNIX) as door:
                door.bind(path)
                door.listen()
                ask = subprocess.Popen([small.program_beside(program, "avguard"), "ask", path, "file"], cwd=folder, stdin=subprocess.DEVNULL, stdout=subprocess.PIPE, stderr=subprocess.PIPE)
                client, _ = door.accept()
                with client:
                    got = heard(client, READ)
                    client.sendall(answer)
                    got += rest(client)
                    printed = ask.communicate(timeout=SECONDS)
            bodies, _ = frames(got)
            ends = [body[9] for body in bodies if body[0] == 7]
            cases.same(f"what ask prints of {answer.hex()}", (ask.returncode, *printed), (status, out, err % path.encode() if err else err))
            cases.check("little of the file was sent, and not as a whole one", len(got) < 16 << 20 and ends in ([], [1]), f"{len(got)} bytes, {ends}")


def what_keeps_coming_is_not_late(cases, program, _):
    """A content may take longer than --wait to come, at either socket, as long as some of it comes within each --wait."""
    with Guard(program, "--wait", "3") as guard:
        both = Both(guard)
        judging, noise = Judging(both.second, 1, b"XX"), random.Random(1)
        client, door = connected(guard.opens), connected(guard.clamd)
        client.sendall(begin(1) + part(1, bytes(100_010))[:-10])
        door.sendall(b"zINSTREAM\0" + struct.pack(">I", 100_010) + bytes(100_000))
        for _ in range(10):
            begun = time.time()
            while time.time() < begun + 0.6:
                if select.select([both.second], [], [], 0.1)[0]:
                    judging.hear(both.second.recv(1 << 18))
            cases.same("neither is told anything", [len(each) for each in select.select([client, door], [], [], 0)], [0, 0, 0])
            for each in (client, door):
                try:
                    each.sendall(b"x")
                except OSError:
                    pass
        client.sendall(end(1, 100_010))
        try:
            door.sendall(bytes(4))
        except OSError:
            pass
        limit = time.time() + 10
        while time.time() < limit and len(select.select([client, door], [], [], 0)[0]) < 2:
            if select.select([both.second], [], [], 0.1)[0]:
                judging.hear(both.second.recv(1 << 18))
            judging.say(noise)
        cases.same("the client is granted it", told(client, 1), GRANTED)
        cases.same("so is that of clamd", rest(door, 1), b"stream: OK\0")


def lines(cases, program, _):
    """What the guard prints of second connections, and where it listens for them."""
    with Guard(program, "--mode", "660", clamd=False) as guard:
        service = Service(guard, 2, b"XX")
        guard.await_line(b"connected\n")
        cases.same("nobody but the service's user connects", os.stat(guard.service + ".parts").st_mode & 0o777, 0o600)
        old = connected(guard.service + ".parts")
        old.sendall(greeting(1))
        cases.same("an older second connection is closed", rest(old), b"")
        cases.check("that is reported", guard.await_line(b"avguard: parts of version 1 are older than 2\n"), guard.lines())
        for times in (1, 2):
            good = connected(guard.service + ".parts")
            good.sendall(greeting(2))
            cases.check("one that greets is reported", guard.await_line(b"avguard: parts connected\n", times), guard.lines())
            good.close()
            cases.check("so is its end", guard.await_line(b"avguard: parts lost\n", times), guard.lines())
        service.close()
    with tempfile.TemporaryDirectory() as folder:
        opens = os.path.join(folder, "o")
        service = os.path.join(folder, "s" * (102 - len(folder) - 1))
        process = subprocess.Popen([small.program_beside(program, "avguard"), "run", opens, service], stdin=subprocess.DEVNULL, stdout=subprocess.PIPE, stderr=subprocess.PIPE)
        client = connected(opens)
        client.sendall(begin(1))
        cases.same("a path of 102 bytes has no second one", (told(client), os.path.exists(service + ".parts")), ((1, "denied", 3), False))
        process.kill()
        err = process.communicate()[1]
        cases.check("that is reported too", b"avguard: %s.parts: the path of a socket has 1 to 107 bytes\n" % service.encode() in err, err)


class Judging:
    """The second connection of a service that this test plays: it judges what comes by a pattern, and says so when it is let."""

    def __init__(self, end_of_service, version, pattern):
        self.end, self.version, self.pattern = end_of_service, version, pattern
        self.rest, self.open, self.words, self.version_sent = b"", {}, [], False

    def hear(self, data):
        found, self.rest = frames(self.rest + data)
        for body in found:
            kind, n = body[0], struct.unpack(">Q", body[1:9])[0]
            if kind == 16:
                self.open[n] = b""
            elif n in self.open and kind == 17:
                self.open[n] += body[9:]
                if (place := self.open[n].find(self.pattern)) >= 0:
                    del self.open[n]
                    self.words.append(is_infected(n, self.version, 0, place + len(self.pattern)))
            elif n in self.open and kind == 18:
                count = len(self.open.pop(n))
                self.words.append(is_clean(n, self.version, count))
            elif kind == 19:
                self.open.pop(n, None)

    def learn(self, version, pattern):
        self.words += [no_verdict(n, 2) for n in self.open]
        self.version, self.pattern, self.open = version, pattern, {}

    def say(self, noise):
        """Writes some of what is to be said, cut anywhere."""
        said, self.words = b"".join(self.words), []
        cut = noise.randrange(len(said) + 1)
        for piece in (said[:cut], said[cut:]):
            self.end.sendall(piece)


def schedule(program, noise):
    """Clients that send small and long contents in pieces cut anywhere, beside a service that learns and whose second connection is lost: what
    was wrong, or None."""
    patterns = {version: bytes(noise.choice(b"AB") for _ in range(noise.randrange(1, 5))) for version in range(1, 6)}
    with Guard(program, clamd=False) as guard:
        version = 1
        both = Both(guard, version, patterns[version])
        judging, clients, asked, got, lost = Judging(both.second, version, patterns[version]), [], {}, {}, False
        for place in range(4):
            end_of_client, said = connected(guard.opens), b""
            for tag in range(8):
                content, how = bytes(noise.choice(b"AB") for _ in range(noise.randrange(12))), int(noise.random() < 0.15)
                if noise.random() < 0.3:
                    asked[place, tag], said = (content, "small"), said + ask(tag, content)
                    continue
                asked[place, tag], said = (content, "given up" if how else "long"), said + begin(tag)
                for at in range(0, len(content), 5):
                    said += part(tag, content[at:at + 5])
                    if noise.random() < 0.2:
                        asked[place, 100 + len(asked)], said = (content[:at], "small"), said + ask(100 + len(asked), content[:at])
                said += end(tag, len(content), how)
            end_of_client.setblocking(False)
            clients.append([place, end_of_client, said, b""])
        limit = time.time() + SECONDS
        while len(got) < len(asked):
            if time.time() > limit:
                return f"no answer to {set(asked) - set(got)}"
            for client in clients:
                size = noise.randrange(0, 40)
                if client[2] and size:
                    client[1].send(client[2][:size])
                    client[2] = client[2][size:]
            ends = [client[1] for client in clients] + [both.first] + ([judging.end] if judging else [])
            for ready in select.select(ends, [], [], 0.002)[0]:
                if ready is both.first:
                    both.first.turn()
                elif judging and ready is judging.end:
                    data = judging.end.recv(65536)
                    if not data:
                        return f"the second connection was closed: {guard.lines()}"
                    judging.hear(data)
                else:
                    client = next(client for client in clients if client[1] is ready)
                    data = ready.recv(65536)
                    if not data:
                        return f"client {client[0]} was closed"
                    found, client[3] = frames(client[3] + data)
                    for tag, what, more in map(verdict, found):
                        if (client[0], tag) in got or (client[0], tag) not in asked:
                            return f"{tag} of client {client[0]} is told twice"
                        got[client[0], tag] = what, more
            if judging and noise.random() < 0.5:
                judging.say(noise)
            if noise.random() < 0.02 and version < 5:
                version += 1
                for step_of in noise.sample(("first", "second"), 2):
                    if step_of == "first":
                        both.first.learn(version, patterns[version])
                    elif judging:
                        judging.learn(version, patterns[version])
            if noise.random() < 0.01:
                if judging:
                    judging, lost = judging.end.close(), True
                else:
                    guard.await_line(b"avguard: parts lost\n")
                    judging = Judging(connected(guard.service + ".parts"), version, patterns[version])
                    judging.end.sendall(greeting(version))
        for it, (content, how) in asked.items():
            what, more = got[it]
            infected_under = [v for v in patterns if patterns[v] in content]
            right = what == "granted" and how != "given up" and more[1] not in infected_under and more[1] <= version
            right = right or what == "denied" and (more == 2 and infected_under or more == 13 and how == "given up" or more == 11 and version > 1 and how != "small" or more in (6, 14) and lost and how != "small")
            if not right:
                return f"{it}, {how} {content}, of {patterns}: {what} {more}"
    return None


def schedules(cases, program, mib):
    def one(seed):
        try:
            return schedule(program, random.Random(seed))
        except Exception as fault:
            return f"{type(fault).__name__}: {fault}"

    with concurrent.futures.ThreadPoolExecutor(4) as pool:
        for seed, fault in enumerate(pool.map(one, range(200 if mib >= 1024 else mib))):
            cases.check(f"schedule {seed}", fault is None, fault)


def changed(noise, said):
    """The same bytes with some of them changed, up to somewhere."""
    said = bytearray(said)
    for _ in range(noise.randrange(0, 4)):
        said[noise.randrange(len(said))] = noise.choice((0, 1, 5, 6, 7, 10, 16, 18, 20, 21, 26, 255))
    return bytes(said[:noise.randrange(1, len(said) + 1)])


def hostile(cases, program, mib):
    noise, times = random.Random(17), 10_000 if mib >= 1024 else 500
    with Guard(program, "--wait", "5", clamd=False) as guard:
        service, honest = Service(guard, 1, b"XX"), connected(guard.opens)
        guard.await_line(b"connected\n")
        descriptors, memory = None, None
        for turn in range(times):
            if turn == times // 10:
                descriptors, memory = guard.descriptors(), guard.memory()
            if turn % 2:
                said = changed(noise, noise.choice((b"", ask(1, b"AB"))) + sent_in_parts(7, b"A" * noise.randrange(30), noise.randrange(1, 9)) * noise.randrange(1, 3))
                other = connected(guard.opens)
            else:
                words = (is_clean(1, 1, 0), is_infected(1, 1, 0, 1), no_verdict(1, 1), no_verdict(2, 2), greeting(1), hello(1))
                said = changed(noise, noise.choice((b"", greeting(1), greeting(1))) + b"".join(noise.choice(words) for _ in range(noise.randrange(1, 4))))
                other = connected(guard.service + ".parts")
            try:
                other.sendall(said)
            except OSError:
                pass
            other.close()
            if select.select([service], [], [], 0)[0]:
                service.turn()
        honest.sendall(ask(1, b"honest"))
        limit = time.time() + SECONDS
        while not select.select([honest], [], [], 0.01)[0] and time.time() < limit:
            if select.select([service], [], [], 0)[0]:
                service.turn()
        cases.same(f"after {times} broken exchanges an honest client is answered", told(honest), GRANTED)
        limit = time.time() + 10
        while guard.descriptors() > descriptors and time.time() < limit:
            time.sleep(0.05)
        cases.check("no descriptor is lost", guard.descriptors() <= descriptors, f"{descriptors} to {guard.descriptors()}")
        cases.check("no memory is lost", guard.memory() <= memory + 8 * HELD, f"{memory} to {guard.memory()} KiB")
        cases.same("and a good second connection judges", served_at_last(guard, honest, noise), (2, "denied", 2))


def served_at_last(guard, client, noise):
    """What a client is told of a content by a second connection that comes again, as a service does, until the broken ones before it are gone."""
    limit, got, judging = time.time() + SECONDS, None, None
    while time.time() < limit and got in (None, (2, "denied", 6), (2, "denied", 14)):
        if judging is None:
            judging = Judging(connected(guard.service + ".parts"), 1, b"XX")
        try:
            if not judging.version_sent:
                judging.end.sendall(greeting(1))
                judging.version_sent = True
            client.sendall(sent_in_parts(2, b"A long content with XX", 4))
            while (got := told(client, 0.2)) is None and time.time() < limit:
                if select.select([judging.end], [], [], 0)[0]:
                    if not (data := judging.end.recv(65536)):
                        raise ConnectionResetError
                    judging.hear(data)
                judging.say(noise)
        except (BrokenPipeError, ConnectionResetError):
            judging = None
            got = told(client, 0.2)
            time.sleep(0.2)
    return got


def clamdscan(cases, program, mib):
    """Files of two sizes, clean and with a signature in their last bytes: alone, as a folder, and as a folder in a session. Then files about as
    long as the guard takes: a longer one is never OK."""
    if not shutil.which("clamdscan"):
        print("clamdscan is not installed: it was not run", file=sys.stderr)
        return
    sizes, most, found = (5_000_000, 100_000_000 if mib >= 1024 else 10_000_000), 1 << 20, ": signature-0-of-version-1 FOUND"
    for limit in (1 << 30, most):
        with Whole(program, "--stream-max-size", str(limit)) as guard:
            config = guard.write("clamd.conf", b"LocalSocket %s\nStreamMaxLength 2000M\n" % guard.clamd.encode())
            os.mkdir(folder := os.path.join(guard.folder, "folder"))
            wanted = {}
            for size in sizes if limit > most else (most, most + 1):
                for last in (b"", b"XX"):
                    path = guard.write(f"folder/{size}{last.decode()}", bytes(size - len(last)) + last)
                    wanted[path] = "INSTREAM size limit exceeded. ERROR" if size > limit else found[2:] if last else "OK"
            for path, line in wanted.items():
                status = {"OK": 0, found[2:]: 1}.get(line, 2)
                cases.same(f"clamdscan of {path}", asked_of_clamd(config, path), (status, [f"{path}: {line}"]))
            for words in ([], ["--multiscan"]):
                lines = sorted(f"{path}: {line}" for path, line in wanted.items() if line != "OK")
                cases.same(f"clamdscan of a folder {words}, at most {limit}", asked_of_clamd(config, folder, *words), (1, lines))


def asked_of_clamd(config, path, *words):
    """The status of clamdscan, and the lines that it prints of files."""
    done = subprocess.run(["clamdscan", f"--config-file={config}", "--stream", "--no-summary", *words, path], capture_output=True, timeout=3 * SECONDS)
    return done.returncode, sorted((done.stdout + done.stderr).decode().splitlines())


def main():
    if len(sys.argv) not in (2, 3):
        sys.exit("usage: tests/large.py PROGRAM [MIB]")
    cases, program, mib = Cases(), os.path.abspath(sys.argv[1]), int(sys.argv[2]) if len(sys.argv) == 3 else 8192
    most = resource.getrlimit(resource.RLIMIT_NOFILE)[1]
    resource.setrlimit(resource.RLIMIT_NOFILE, (most, most))
    for part_of in (lambda *words: rows(*words[:2]), lines, answers_that_come_early, an_older_service, a_newer_set_amid_a_content, a_service_that_takes_nothing, what_keeps_coming_is_not_late, schedules, hostile, clamdscan,
                    a_byte_a_second_slows_nobody, memory_stays_flat):
        begun, name = time.time(), part_of.__name__.replace("<lambda>", "rows")
        try:
            part_of(cases, program, mib)
        except Exception as fault:
            cases.check(name, False, f"{type(fault).__name__}: {fault}")
        print(f"{name}: {time.time() - begun:.1f} s", file=sys.stderr)
    print(f"{cases.passed} passed, {cases.failed} failed")
    sys.exit(1 if cases.failed else 0)


if __name__ == "__main__":
    main()
