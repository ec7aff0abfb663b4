#!/usr/bin/env python3
"""The second connection of `avscan service SOCKET SET`, at SOCKET.parts: what the service says of contents that come in parts, and when it
connects. A guard of bytes stands at both sockets. The cases of parts/ are played whole, cut into bytes and cut at random; then contents of
no byte, 1 MiB and 64 MiB, 4,096 contents at once and one more, a newer set amid contents, guards that close, are silent, send what is no
frame or never read, a second socket that is not there, is there later or has too long a path, and the end of the first connection. A case
has one line for each step: `version V PATTERN LOW HIGH ..` is the service's set, `comes: HEX` what a guard sends (`00 x 3` is three
bytes), `said: HEX` all that the service has said since, `publish V PATTERN LOW HIGH ..` a newer set, `closed` that it closes.
The last line says how many passed and how many failed."""
import concurrent.futures, glob, os, random, select, socket, struct, subprocess, sys, tempfile, time

from cases import Cases
from guard import bytes_of, heard, number
from watch import chunk, clean, infected, read, scan, updated

HERE = os.path.dirname(os.path.abspath(__file__))
SECONDS = 60
# How long nothing is waited for where nothing is to come.
QUIET = 0.3
# The most that is waited for a second connection that is tried each second.
SOON = 5
HELLO_SIZE, WORD = 14, {0: 30, 1: 34, 2: 15}


def frame(kind, n, more=b""):
    return struct.pack(">IBQ", 9 + len(more), kind, n) + more


def begin(n):
    return frame(16, n)


def parts_of(n, content, size=1 << 20):
    return b"".join(frame(17, n, content[at:at + size]) for at in range(0, len(content), size))


def end(n, count):
    return frame(18, n, number(count))


def greeting(version):
    return struct.pack(">IBBQ", 10, 20, 1, version)


def is_clean(n, version, count):
    return frame(21, n, b"\0" + number(version) + number(count))


def is_infected(n, version, index, end_at):
    return frame(21, n, b"\1" + number(version) + struct.pack(">I", index) + number(end_at))


def no_verdict(n, why):
    return frame(21, n, b"\2" + bytes([why]))


def signatures(words):
    """A signature file of `V PATTERN LOW HIGH ..`."""
    version, rest = words[0], words[1:]
    lines = [f"s{place // 3} {rest[place]} {rest[place + 1]} {rest[place + 2]}" for place in range(0, len(rest), 3)]
    return "\n".join(["avsig 2", f"version {version}", *lines, ""]).encode()


AB = signatures(["1", "4142", "0", "1048575"])


class Both:
    """A service, and the guard that it speaks to at two sockets."""

    def __init__(self, program, content, *words, second=True, socket_path=None):
        self.room = tempfile.TemporaryDirectory()
        self.folder = self.room.name
        self.set = os.path.join(self.folder, "set")
        self.socket = os.path.join(self.folder, socket_path or "s")
        os.makedirs(os.path.dirname(self.socket), exist_ok=True)
        self.put(content)
        first = self.door(self.socket)
        self.parts_door = self.door(self.socket + ".parts") if second else None
        self.log = open(os.path.join(self.folder, "log"), "w+b")
        self.process = subprocess.Popen([program, "service", self.socket, self.set, *(words or ("--watch", "1"))], stdin=subprocess.DEVNULL, stdout=subprocess.PIPE, stderr=self.log)
        first.settimeout(SECONDS)
        self.first, _ = first.accept()
        first.close()
        self.hello = heard(self.first, 22)
        self.second = None

    def door(self, path):
        door = socket.socket(socket.AF_UNIX)
        here = os.open(os.path.dirname(path), os.O_PATH)
        door.bind(path if len(path) <= 107 else f"/proc/self/fd/{here}/{os.path.basename(path)}")
        os.close(here)
        door.listen()
        return door

    def __enter__(self):
        return self

    def __exit__(self, *fault):
        self.process.kill()
        self.process.communicate()
        for each in (self.first, self.second, self.parts_door):
            if each is not None:
                each.close()
        self.log.close()
        self.room.cleanup()

    def put(self, content):
        with open(self.set + ".new", "wb") as file:
            file.write(content)
        os.rename(self.set + ".new", self.set)

    def accept(self, seconds=SOON):
        """The service's next second connection, if one comes in the time."""
        self.parts_door.settimeout(seconds)
        try:
            self.second, _ = self.parts_door.accept()
        except TimeoutError:
            return None
        return self.second

    def say(self, pieces):
        """Sends these, one after the other, as far as the service takes them: it may close the connection amid a frame that is none."""
        try:
            for piece in pieces:
                self.second.sendall(piece)
        except (BrokenPipeError, ConnectionResetError):
            pass

    def hear(self, wanted, seconds=SECONDS):
        return heard(self.second, len(wanted), seconds) if wanted else b""

    def is_silent(self):
        return not select.select([self.second], [], [], QUIET)[0]

    def is_closed(self):
        """Whether the service closes it. What it had not read by then makes that a reset."""
        self.second.settimeout(SOON)
        try:
            return self.second.recv(1) == b""
        except ConnectionResetError:
            return True
        except TimeoutError:
            return False

    def lines(self):
        with open(self.log.name, "rb") as log:
            return log.read()

    def judge(self, seq, content, reply):
        """Whether the first connection replies so to a content."""
        self.first.sendall(scan(seq, len(content)))
        wanted = read(seq, len(content))
        got = heard(self.first, len(wanted))
        self.first.sendall(chunk(seq, content))
        return (got, heard(self.first, len(reply))) == (wanted, reply)

    def close(self):
        """Closes the first connection: how the service ends, and how long that takes."""
        begun = time.time()
        self.first.shutdown(socket.SHUT_WR)
        out, _ = self.process.communicate(timeout=SECONDS)
        return (self.process.returncode, out), time.time() - begun


def pieces_of(data, cut, draw):
    if not data:
        return []
    if cut == "bytes" and len(data) <= 4096:
        return [data[at:at + 1] for at in range(len(data))]
    if cut == "whole":
        return [data]
    pieces = []
    while data:
        size = draw.choice((1, 3, 8, 13, 21, 1000, 70000))
        pieces, data = pieces + [data[:size]], data[size:]
    return pieces


def a_case(cases, program, path, cut):
    """One case, cut so."""
    lines = open(path).read().splitlines()
    name, draw = f"{os.path.basename(path)} {cut}", random.Random(f"{path} {cut}")
    with Both(program, signatures(lines[0].split()[1:])) as both:
        if both.accept() is None:
            cases.check(name, False, "no second connection")
            return
        sent = b""
        for place, line in enumerate(lines[1:], 2):
            what, rest = line.split(" ", 1) if " " in line else (line, "")
            if what == "comes:":
                sent += bytes_of(rest)
                continue
            both.say(pieces_of(sent, cut, draw))
            sent = b""
            if what == "said:":
                wanted = bytes.fromhex(rest)
                cases.same(f"{name}:{place}", both.hear(wanted), wanted)
            elif what == "publish":
                both.put(signatures(rest.split()))
                version = int(rest.split()[0])
                cases.same(f"{name}:{place}", heard(both.first, 14), updated(version))
            else:
                cases.check(f"{name}:{place}", both.is_closed(), "not closed")
        both.say(pieces_of(sent, cut, draw))
        if lines[-1] != "closed":
            cases.check(f"{name}: nothing more", both.is_silent(), "more came")


def contents_of_each_size(cases, program):
    with Both(program, AB) as both:
        both.accept()
        cases.same("it greets", both.hear(greeting(1)), greeting(1))
        both.second.sendall(begin(1) + end(1, 0))
        wanted = is_clean(1, 1, 0)
        cases.same("no byte is clean", both.hear(wanted), wanted)
        for n, size in ((2, 1 << 20), (4, 1 << 26)):
            content = bytes(size)
            both.second.sendall(begin(n) + parts_of(n, content) + end(n, size))
            wanted = is_clean(n, 1, size)
            cases.same(f"{size} bytes are clean", both.hear(wanted), wanted)
            both.second.sendall(begin(n + 1) + parts_of(n + 1, content[:-2] + b"AB"))
            wanted = is_infected(n + 1, 1, 0, size)
            cases.same(f"{size} bytes with a signature in the last are infected", both.hear(wanted), wanted)
            both.second.sendall(end(n + 1, size))
        cases.check("an end behind a verdict is passed over", both.is_silent())
        cases.check("the first connection goes on", both.judge(1, b"xABx", infected(1, 1, 0, 3)))


def as_many_contents_as_may_be(cases, program):
    with Both(program, AB) as both:
        both.accept()
        both.hear(greeting(1))
        both.second.sendall(b"".join(begin(n) for n in range(1, 4098)))
        wanted = no_verdict(4097, 1)
        cases.same("one content more has no verdict", both.hear(wanted), wanted)
        both.second.sendall(b"".join(parts_of(n, b"x") + end(n, 1) for n in range(1, 4097)))
        wanted = b"".join(is_clean(n, 1, 1) for n in range(1, 4097))
        cases.same("all others are judged", both.hear(wanted), wanted)
        both.second.sendall(begin(4098) + end(4098, 0))
        wanted = is_clean(4098, 1, 0)
        cases.same("there is room again", both.hear(wanted), wanted)


def a_newer_set_ends_contents_of_a_silent_guard(cases, program):
    with Both(program, AB) as both:
        both.accept()
        both.hear(greeting(1))
        both.second.sendall(begin(1) + parts_of(1, b"x") + begin(2) + begin(5) + end(2, 0))
        both.hear(is_clean(2, 1, 0))
        both.put(signatures(["3", "7878", "0", "1048575"]))
        wanted = no_verdict(1, 2) + no_verdict(5, 2)
        cases.same("each content that is open ends", both.hear(wanted), wanted)
        cases.same("the first connection is told", heard(both.first, 14), updated(3))
        both.second.sendall(begin(6) + parts_of(6, b"AB") + end(6, 2) + begin(7) + parts_of(7, b"xx"))
        wanted = is_clean(6, 3, 2) + is_infected(7, 3, 0, 2)
        cases.same("what follows is judged by the newer set", both.hear(wanted), wanted)
        both.second.close()
        both.accept()
        cases.same("a later connection greets with it", both.hear(greeting(3)), greeting(3))
        cases.same("a line tells of the set", both.lines(), b"avscan: version 3, 1 signatures\n")


def a_guard_that_closes_is_met_again(cases, program):
    with Both(program, AB) as both:
        for turn in range(3):
            begun = time.time()
            cases.check("it connects", both.accept() is not None)
            cases.check("a second behind the end of the one before", turn == 0 or 0.8 <= time.time() - begun, f"{time.time() - begun}")
            cases.same("it greets", both.hear(greeting(1)), greeting(1))
            both.second.sendall(begin(1) + parts_of(1, b"xAB"))
            wanted = is_infected(1, 1, 0, 3)
            cases.same("numbers begin anew", both.hear(wanted), wanted)
            both.second.sendall(begin(2)[:turn * 4])
            both.second.close()
        cases.check("the first connection goes on", both.judge(1, b"x", clean(1, 1)))
        cases.same("no line", both.lines(), b"")


def a_guard_that_is_silent_delays_nothing(cases, program):
    with Both(program, AB) as both:
        both.accept()
        both.hear(greeting(1))
        cases.check("nothing is said unasked", both.is_silent())
        time.sleep(1.5)
        cases.check("the first connection goes on", both.judge(1, b"AB", infected(1, 1, 0, 2)))
        cases.check("the second stays", both.is_silent() and both.accept(0.1) is None)
        ended, seconds = both.close()
        cases.same("it ends with the first", ended, (0, b"closed\n"))
        cases.check("within five seconds", seconds < 5, f"{seconds}")
        cases.same("no line", both.lines(), b"")


def what_is_no_frame_is_told_once(cases, program):
    for garbage in (b"\0\0\0\x08", b"GET / HTTP/1.1\r\n\r\n", frame(18, 1, number(0))):
        with Both(program, AB) as both:
            for _ in range(2):
                both.accept()
                both.hear(greeting(1))
                both.second.sendall(garbage)
                cases.check("it closes", both.is_closed())
            cases.check("the first connection goes on", both.judge(1, b"x", clean(1, 1)))
            cases.same("it ends as ever", both.close()[0], (0, b"closed\n"))
            cases.same("one line", both.lines(), b"avscan: frame\n")


def a_guard_that_never_reads(cases, program):
    with Both(program, AB) as both:
        both.accept()
        both.second.settimeout(1)
        n = 0
        try:
            while n < 1_000_000:
                both.second.sendall(b"".join(begin(k) + end(k, 0) for k in range(n + 1, n + 1001)))
                n += 1000
        except TimeoutError:
            pass
        cases.check("the service reads no more than is taken", n < 1_000_000)
        cases.check("the first connection goes on", both.judge(1, b"x", clean(1, 1)))
        ended, seconds = both.close()
        cases.same("it ends with the first", ended, (0, b"closed\n"))
        cases.check("within five seconds", seconds < 5, f"{seconds}")


def the_first_connection_goes_amid_a_content(cases, program):
    for words in (("--watch", "1"), ("--wait", "20")):
        with Both(program, AB, *words) as both:
            both.accept()
            both.hear(greeting(1))
            both.second.sendall(begin(1) + parts_of(1, b"x")[:9])
            ended, seconds = both.close()
            cases.same("it ends as ever", ended, (0, b"closed\n"))
            cases.check("within five seconds", seconds < 5, f"{seconds}")
            cases.check("the second is closed", both.is_closed())
            cases.same("no line", both.lines(), b"")


def a_guard_without_a_second_socket(cases, program):
    with Both(program, AB, second=False) as both:
        cases.same("it greets", both.hello[:6], bytes.fromhex("000000120501"))
        cases.check("it judges", both.judge(1, b"AB", infected(1, 1, 0, 2)))
        time.sleep(1.2)
        ended, seconds = both.close()
        cases.same("it ends as ever", ended, (0, b"closed\n"))
        cases.check("at once", seconds < 0.5, f"{seconds}")
        cases.same("no line", both.lines(), b"")


def a_second_socket_that_is_made_later_is_found(cases, program):
    with Both(program, AB, second=False) as both:
        time.sleep(1.5)
        both.parts_door = both.door(both.socket + ".parts")
        cases.check("it connects", both.accept() is not None)
        cases.same("it greets", both.hear(greeting(1)), greeting(1))


def no_greeting_before_the_first_connections(cases, program):
    with Both(program, AB) as both:
        both.accept()
        cases.same("the first has greeted by then", len(both.hello), 22)


def a_path_has_107_bytes_at_most(cases, program):
    for size, is_tried in ((101, True), (102, False)):
        with tempfile.TemporaryDirectory() as folder:
            other = "d" * (size - len(folder) - 3) + "/s"
        with Both(program, AB, socket_path=other) as both:
            cases.same("the path has its length", len(both.socket), size)
            cases.check(f"{size} bytes: it connects or not", (both.accept(2.5) is not None) == is_tried)
            cases.check("the first connection goes on", both.judge(1, b"x", clean(1, 1)))
            cases.same("no line", both.lines(), b"")


def main():
    if len(sys.argv) != 2:
        sys.exit("usage: tests/parts.py PROGRAM")
    program, cases = os.path.abspath(sys.argv[1]), Cases()
    paths = sorted(glob.glob(os.path.join(HERE, "parts", "*.case")))
    jobs = [(a_case, (path, cut)) for path in paths for cut in ("whole", "bytes", "random")]
    jobs += [(part, ()) for part in (contents_of_each_size, as_many_contents_as_may_be, a_newer_set_ends_contents_of_a_silent_guard, a_guard_that_closes_is_met_again,
                                     a_guard_that_is_silent_delays_nothing, what_is_no_frame_is_told_once, a_guard_that_never_reads,
                                     the_first_connection_goes_amid_a_content, a_guard_without_a_second_socket, a_second_socket_that_is_made_later_is_found,
                                     no_greeting_before_the_first_connections, a_path_has_107_bytes_at_most)]
    cases.same("cases", len(paths), 24)

    def tried(job):
        part, more = job
        try:
            part(cases, program, *more)
        except Exception as fault:
            cases.check(f"{part.__name__} {more}", False, f"{type(fault).__name__}: {fault}")

    with concurrent.futures.ThreadPoolExecutor(8) as pool:
        list(pool.map(tried, jobs))
    print(f"{cases.passed} passed, {cases.failed} failed")
    sys.exit(1 if cases.failed else 0)


if __name__ == "__main__":
    main()
