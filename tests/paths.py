#!/usr/bin/env python3
"""`avguard paths`: files and folders that clients of clamd name by their paths, over a guard and a service.

Each exchange of a table is played three times: whole, byte by byte, and cut at random. Then come folders, sessions and contents of several
MiB; a guard that is away, lets through, has no service, or is a program of this test that closes, is silent or says what it can't; clients
that are silent, slow, never read, or are more than are served at a time; and the words of the command line. `OK` may be said of what was
granted alone. clamdscan asks where it is installed.
    paths.py PROGRAM
The last line says how many passed and how many failed."""
import os, random, shutil, signal, socket, struct, subprocess, sys, tempfile, threading, time

from cases import Cases
from programs import program_beside

SECONDS = 60
WAIT = 4
MIB = 1 << 20
SET = b"avsig 1\nversion 1\nTest.X 5858\n"
FOUND, NOT_BELOW, UNREAD, NO_ANSWER = b": infected FOUND", b": File path check failure: not below a folder of --below. ERROR", b": cannot read. ERROR", b": no answer of the guard. ERROR"
FILES = {"mail/clean": b"ABC", "mail/infected": b"A letter with XX in it", "mail/empty": b"", "mail/65536": b"A" * 65536, "mail/65537": b"A" * 65537,
         "mail/mib": b"A" * (MIB - 2) + b"XX", "mail/long": b"A" * 3 * MIB, "mail/tail": b"A" * 3 * MIB + b"XX", "folder/a/1": b"XX", "folder/b": b"ABC", "folder/c": b"AXX",
         "good/1": b"A", "good/deep/2": b"B" * 70000, "other/secret": b"ABC", "names/x: OK": b"XX", "names/a\nb: OK": b"XX", "mailbox/x": b"ABC"}


class Room:
    """A folder with files, and what is started in it."""

    def __init__(self, program):
        self.program, self.avguard, self.begun = program, program_beside(program, "avguard"), []
        self.room = tempfile.TemporaryDirectory()
        self.folder = os.path.realpath(self.room.name)
        self.door, self.opens, self.service = (os.path.join(self.folder, name) for name in ("p", "o", "s"))
        for name, content in {**FILES, "set.avsig": SET}.items():
            os.makedirs(os.path.dirname(self.at(name)), exist_ok=True)
            with open(self.at(name), "wb") as file:
                file.write(content)
        for name in ("none", "fifos"):
            os.mkdir(self.at(name))
        os.mkfifo(self.at("fifos/fifo"))
        os.symlink(self.at("other/secret"), self.at("mail/link"))
        os.symlink(self.at("other"), self.at("mail/way"))
        os.symlink(self.at("other"), self.at("good/way"))
        with open(os.fsencode(self.at("names/")) + b"\xff", "wb") as file:
            file.write(b"ABC")

    def __enter__(self):
        return self

    def __exit__(self, *_):
        self.end()
        self.room.cleanup()

    def at(self, name):
        return os.path.join(self.folder, name)

    def start(self, *words, **more):
        process = subprocess.Popen(words, cwd=self.folder, stdin=subprocess.DEVNULL, **more)
        self.begun.append(process)
        return process

    def guard(self, *words, service=True):
        guard = self.start(self.avguard, "run", *words, self.opens, self.service, stderr=subprocess.PIPE)
        if service:
            self.start(self.program, "service", "--watch", "1", self.service, "set.avsig", stdout=subprocess.DEVNULL, stderr=subprocess.DEVNULL)
            while b"parts connected" not in (line := guard.stderr.readline()):
                if not line:
                    raise OSError("the guard ended")
        else:
            self.await_path(self.opens)
            subprocess.run([self.avguard, "ask", self.opens, self.at("mail/clean")], capture_output=True, timeout=SECONDS)
        return guard

    def paths(self, *words):
        below = [word for name in ("mail", "folder", "good", "names", "none", "fifos") for word in ("--below", self.at(name))]
        process = self.start(self.avguard, "paths", self.door, self.opens, *below, "--wait", str(WAIT), *words, stderr=subprocess.PIPE)
        self.await_path(self.door)
        return process

    def await_path(self, path):
        limit = time.time() + SECONDS
        while not os.path.exists(path) and time.time() < limit:
            time.sleep(0.005)

    def end(self):
        for process in self.begun:
            process.kill()
            process.communicate()
        self.begun.clear()
        for path in (self.door, self.opens, self.service, self.service + ".parts", self.opens + ".status"):
            if os.path.lexists(path):
                os.unlink(path)

    def named(self, name):
        return os.fsencode(self.at(name))


def connected(path):
    limit = time.time() + SECONDS
    while True:
        end = socket.socket(socket.AF_UNIX)
        end.settimeout(SECONDS)
        try:
            end.connect(path)
            return end
        except OSError:
            end.close()
            if time.time() > limit:
                raise
            time.sleep(0.01)


def heard(end):
    """All that is said until the connection is closed."""
    data = b""
    try:
        while piece := end.recv(65536):
            data += piece
    except ConnectionResetError:
        pass
    return data


def pieces(data, cut):
    if cut == "whole":
        return [data]
    if cut == "bytes":
        return [data[at:at + 1] for at in range(len(data))]
    found, at = [], 0
    while at < len(data):
        size = random.choice((1, 3, 17, 1000))
        found.append(data[at:at + size])
        at += size
    return found


def said(room, data, cut="whole"):
    with connected(room.door) as end:
        try:
            for piece in pieces(data, cut):
                end.sendall(piece)
        except (BrokenPipeError, ConnectionResetError):
            pass
        return heard(end)


def stream(content, size=65536, mark=b"z", last=b"\0"):
    parts = b"".join(struct.pack(">I", len(content[at:at + size])) + content[at:at + size] for at in range(0, len(content), size))
    return mark + b"INSTREAM" + last + parts + bytes(4)


def table(room):
    """What is sent, and what is said to it."""
    at = room.named
    commands = b"SCAN", b"CONTSCAN", b"MULTISCAN", b"ALLMATCHSCAN"
    rows = [(b"zPING\0", b"PONG\0"), (b"PING\n", b"PONG\n"), (b"PING\r\n", b"PONG\n"), (b"nVERSION\n", b"Vizdroun 1\n"), (b"zSCAN\0", b"UNKNOWN COMMAND\0"), (b"zFILDES\0", b"UNKNOWN COMMAND\0"),
            (b"zVERSIONCOMMANDS\0", b"Vizdroun 1| COMMANDS: SCAN CONTSCAN MULTISCAN ALLMATCHSCAN PING VERSION VERSIONCOMMANDS INSTREAM IDSESSION END\0"),
            (b"n" + b"A" * 1100 + b"\n", b"")]
    verdicts = {"mail/clean": b": OK", "mail/infected": FOUND, "mail/empty": b": OK", "mail/65536": b": OK", "mail/65537": b": OK", "mail/mib": FOUND, "mail/tail": FOUND, "mail/long": b": OK",
                "mail/none": UNREAD, "mail/link": UNREAD, "mail/way": UNREAD, "mail/way/secret": UNREAD, "mail/link/": UNREAD, "mail/way/.": UNREAD, "fifos/fifo": UNREAD, "mail/clean/x": UNREAD,
                "mail//./clean": b": OK", "other/secret": NOT_BELOW, "mail/../other/secret": NOT_BELOW, "mail/..": NOT_BELOW, "mailbox/x": NOT_BELOW, "": NOT_BELOW,
                "good": b": OK", "good/": b": OK", "none": b": OK", "fifos": b": OK", "good/deep": b": OK"}
    for number, (name, verdict) in enumerate(verdicts.items()):
        path, command = at(name), commands[number % 4]
        rows += [(b"z" + command + b" " + path + b"\0", path + verdict + b"\0"), (command + b" " + path + b"\r\n", path + verdict + b"\n")]
    rows += [(b"nSCAN mail/clean\n", b"mail/clean" + NOT_BELOW + b"\n"), (b"nSCAN  " + at("mail/clean") + b"\n", b" " + at("mail/clean") + NOT_BELOW + b"\n"),
             (b"nSCAN " + at("mail/clean") + b"\0\n", b'"' + at("mail/clean") + b'\\000"' + NOT_BELOW + b"\n"),
             (b"zSCAN " + at("mail/clean") + b"\n: OK\0", b'"' + at("mail/clean") + b'\\n: OK"' + UNREAD + b"\0"),
             (b"zSCAN " + at("mail/") + b"\xff\0", at("mail/") + b"\xff" + UNREAD + b"\0")]
    # Folders: in the order of the names' bytes.
    rows += [(b"zSCAN " + at("folder") + b"\0", at("folder/a/1") + FOUND + b"\0")]
    rows += [(b"n" + command + b" " + at("folder") + b"\n", at("folder/a/1") + FOUND + b"\n" + at("folder/c") + FOUND + b"\n") for command in commands[1:]]
    rows += [(b"zCONTSCAN " + at("names") + b"\0", b'"' + at("names/a") + b'\\nb: OK"' + FOUND + b"\0" + at("names/x: OK") + FOUND + b"\0" + at("names/") + b"\xff" + UNREAD + b"\0")]
    # Sessions.
    rows += [(b"zIDSESSION\0zSCAN " + at("mail/clean") + b"\0nPING\nzCONTSCAN " + at("folder") + b"\0" + stream(b"XX") + stream(b"A") + b"zEND\0",
              b"1: " + at("mail/clean") + b": OK\0" + b"2: PONG\n" + b"3: " + at("folder/a/1") + FOUND + b"\0" + b"3: " + at("folder/c") + FOUND + b"\0" + b"4: stream: infected FOUND\0" + b"5: stream: OK\0"),
             (b"nIDSESSION\nzSCAN " + at("good") + b"\0zBOGUS\0", b"1: " + at("good") + b": OK\0" + b"2: Command invalid inside IDSESSION. ERROR\0")]
    # Contents.
    rows += [(stream(b"", mark=b"n", last=b"\n"), b"stream: OK\n"), (stream(b"AXX"), b"stream: infected FOUND\0"), (stream(b"AXX", 1), b"stream: infected FOUND\0"), (b"INSTREAM\n" + bytes(4), b"UNKNOWN COMMAND\n")]
    return rows


def exchanges(cases, room):
    room.guard()
    room.paths()
    for sent, wanted in table(room):
        for cut in ("whole", "bytes", "random"):
            cases.same(f"{sent[:60]!r}, {cut}", said(room, sent, cut), wanted)
    for size in (65_536, 65_537, 131_072, 131_073, MIB, MIB + 1, 5 * MIB):
        for last, wanted in ((b"", b"stream: OK\0"), (b"XX", b"stream: infected FOUND\0")):
            content = b"A" * (size - len(last)) + last
            cases.same(f"a content of {size} bytes, {last}", said(room, stream(content)), wanted)
            cases.same(f"a content of {size} bytes, {last}, in small pieces", said(room, stream(content, 5000), "random" if size < MIB else "whole"), wanted)
    cases.same("a client that sends no more is told", half_closed(room, b"zSCAN " + room.named("mail/clean") + b"\0"), room.named("mail/clean") + b": OK\0")


def half_closed(room, data):
    with connected(room.door) as end:
        end.sendall(data)
        end.shutdown(socket.SHUT_WR)
        return heard(end)


def guards(cases, room):
    """Whatever becomes of the guard, nothing is said to be OK that it did not grant."""
    at = room.named
    asked = {b"zSCAN " + at("mail/clean") + b"\0": at("mail/clean"), b"zSCAN " + at("mail/long") + b"\0": at("mail/long"), stream(b"ABC"): b"stream", stream(b"A" * 100_000): b"stream"}
    room.paths()
    for sent, name in asked.items():
        cases.same(f"no guard, {sent[:30]!r}", said(room, sent), name + NO_ANSWER + b"\0")
    cases.same("no guard, a folder", said(room, b"zSCAN " + at("good") + b"\0"), at("good") + NO_ANSWER + b"\0")
    for words in ((), ("--open",)):
        room.end()
        room.guard(*words, service=False)
        room.paths()
        for sent, name in asked.items():
            got = said(room, sent)
            cases.check(f"no service {words}, {sent[:30]!r}", got.startswith(name + b": no verdict, cause ") and got.endswith(b". ERROR\0"), repr(got))
    room.end()
    guard = room.guard()
    room.paths()
    cases.same("before the guard is lost", said(room, b"zSCAN " + at("good") + b"\0"), at("good") + b": OK\0")
    with connected(room.door) as end:
        end.sendall(b"zIDSESSION\0zSCAN " + at("mail/clean") + b"\0")
        first = end.recv(1000)
        guard.kill()
        guard.wait()
        os.unlink(room.opens)
        end.sendall(b"zSCAN " + at("mail/clean") + b"\0zEND\0")
        cases.same("a guard that is lost amid a session", first + heard(end), b"1: " + at("mail/clean") + b": OK\0" + b"2: " + at("mail/clean") + NO_ANSWER + b"\0")
    room.end()


# Guards of this test, each by what it does with a connection whose first ask has come.
GRANT = struct.pack(">IBQQQ", 25, 2, 0, 2, 1)
BAD_GUARDS = {"closes": b"", "says no frame": b"\xff" * 40, "grants another tag": struct.pack(">IBQQQ", 25, 2, 1, 2, 1), "grants half": GRANT[:-1], "is silent": None}


def bad_guards(cases, room):
    at = room.named
    for name, answer in {**BAD_GUARDS, "grants": GRANT}.items():
        with socket.socket(socket.AF_UNIX) as listener:
            listener.bind(room.opens)
            listener.listen(8)
            threading.Thread(target=answer_all, args=(listener, answer), daemon=True).start()
            room.paths()
            wanted = b": OK" if name == "grants" else NO_ANSWER
            begun = time.time()
            cases.same(f"a guard that {name}", said(room, b"zSCAN " + at("mail/clean") + b"\0"), at("mail/clean") + wanted + b"\0")
            cases.same(f"a guard that {name}, of a content", said(room, stream(b"ABC")), b"stream" + wanted + b"\0")
            cases.same(f"a guard that {name}, of a folder", said(room, b"zCONTSCAN " + at("folder/a") + b"\0"), (at("folder/a") if name == "grants" else at("folder/a/1")) + wanted + b"\0")
            cases.check(f"a guard that {name} is not waited for too long", time.time() - begun < 3 * WAIT + 5, f"{time.time() - begun}")
            room.end()


def answer_all(listener, answer):
    held = []
    while True:
        try:
            end, _ = listener.accept()
        except OSError:
            return
        held.append(end)
        threading.Thread(target=answer_one, args=(end, answer), daemon=True).start()


def answer_one(end, answer):
    data = b""
    while len(data) < 4 or len(data) < 4 + int.from_bytes(data[:4], "big"):
        if not (piece := end.recv(65536)):
            return
        data += piece
    if answer is not None:
        end.sendall(answer)
        if answer != GRANT:
            end.close()


def clients(cases, room):
    """Clients that are silent, slow or many keep no other waiting for longer than the wait."""
    at = room.named
    room.guard()
    room.paths("--clients", "2")
    scan, granted = b"zSCAN " + at("mail/clean") + b"\0", at("mail/clean") + b": OK\0"
    silent = [connected(room.door) for _ in range(2)]
    silent[1].sendall(b"zSCA")
    begun = time.time()
    cases.same("a third client is served once one of two is left", said(room, scan), granted)
    cases.check("which takes as long as the wait", WAIT - 1 < time.time() - begun < 2 * WAIT + 3, f"{time.time() - begun}")
    cases.same("a silent client is told", heard(silent[0]), b"COMMAND READ TIMED OUT\n")
    cases.same("one that began a command is told", heard(silent[1]), b"COMMAND READ TIMED OUT\n")
    for end in silent:
        end.close()
    with connected(room.door) as slow:
        begun, fault = time.time(), None
        try:
            for byte in b"zSCAN " + b"/" * 30:
                slow.sendall(bytes([byte]))
                time.sleep(0.3)
        except OSError as error:
            fault = error
        cases.check("a command that comes too slowly is not waited for", fault is not None and time.time() - begun < WAIT + 3, f"{fault}, {time.time() - begun}")
    with connected(room.door) as half:
        half.sendall(b"zINSTREAM\0" + struct.pack(">I", 200_000) + b"A" * 100_000)
        got = heard(half)
        cases.check("a content that breaks off is not OK", b"OK" not in got, repr(got))
    many = room.at("folder/many")
    os.mkdir(many)
    for number in range(3000):
        with open(os.path.join(many, "n" * 200 + str(number)), "wb") as file:
            file.write(b"XX")
    stopped = [connected(room.door) for _ in range(2)]
    for end in stopped:
        end.sendall(b"zCONTSCAN " + os.fsencode(many) + b"\0")
    begun = time.time()
    cases.same("clients that never read are left", said(room, scan), granted)
    cases.check("within the wait and the time of their files", time.time() - begun < WAIT + 20, f"{time.time() - begun}")
    for end in stopped:
        end.close()
    got = said(room, b"zCONTSCAN " + os.fsencode(many) + b"\0")
    cases.same("one that reads is told of each file", got.count(FOUND + b"\0"), 3000)
    shutil.rmtree(many)
    results = []
    threads = [threading.Thread(target=lambda: results.append(said(room, scan))) for _ in range(40)]
    for thread in threads:
        thread.start()
    for thread in threads:
        thread.join()
    cases.same("forty clients over two threads", results, [granted] * 40)


def words(cases, room):
    def told(*words, **more):
        done = subprocess.run([room.avguard, "paths", *words], cwd=room.folder, capture_output=True, timeout=SECONDS, **more)
        return done.returncode, done.stderr
    cases.same("no folder", told("p", "o")[0], 2)
    cases.same("a folder that is no absolute path", told("p", "o", "--below", "mail"), (2, b"avguard: mail: is no absolute path without ..\n"))
    cases.same("a folder with ..", told("p", "o", "--below", "/a/../b"), (2, b"avguard: /a/../b: is no absolute path without ..\n"))
    cases.same("one socket twice", told("o", "o", "--below", "/"), (2, b"avguard: o: two sockets have one path\n"))
    cases.same("a long path", told("p" * 108, "o", "--below", "/")[0], 2)
    for number in ("0", "65", "x"):
        cases.same(f"{number} clients", told("p", "o", "--below", "/", "--clients", number)[0], 2)
    with open(room.door, "wb"):
        pass
    cases.same("a file in the socket's place", told(room.door, room.opens, "--below", "/"), (4, b"avguard: " + room.named("p") + b": the file that is there is no socket\n"))
    os.unlink(room.door)
    room.paths("--mode", "660")
    cases.same("the socket's rights", os.stat(room.door).st_mode & 0o777, 0o660)
    cases.same("a socket that is in use", told(room.door, room.opens, "--below", "/"), (4, b"avguard: " + room.named("p") + b": another filter waits there\n"))
    room.end()
    with socket.socket(socket.AF_UNIX) as left:
        left.bind(room.door)
    room.guard()
    room.start(room.avguard, "paths", room.door, room.opens, "--below", room.folder, stderr=subprocess.DEVNULL)
    time.sleep(0.5)
    cases.same("a socket that was left is taken", said(room, b"zPING\0"), b"PONG\0")


def clamdscan(cases, room):
    if not shutil.which("clamdscan"):
        print("clamdscan is not installed: it was not run", file=sys.stderr)
        return
    room.guard()
    room.paths()
    with open(room.at("clamd.conf"), "w") as file:
        file.write(f"LocalSocket {room.door}\nStreamMaxLength 25M\n")
    at, folder = room.at, [f"{room.at('folder/a/1')}: infected FOUND", f"{room.at('folder/c')}: infected FOUND"]
    rows = [((at("mail/clean"),), 0, [f"{at('mail/clean')}: OK"]), ((at("mail/infected"),), 1, [f"{at('mail/infected')}: infected FOUND"]), ((at("good"),), 0, [f"{at('good')}: OK"]),
            ((at("folder"),), 1, folder), (("-m", at("folder")), 1, folder), (("-z", at("folder")), 1, folder), (("--stream", at("mail/long"), at("mail/tail")), 1, [f"{at('mail/long')}: OK", f"{at('mail/tail')}: infected FOUND"]),
            ((at("mail/long"), at("mail/tail")), 1, [f"{at('mail/long')}: OK", f"{at('mail/tail')}: infected FOUND"]), ((at("other/secret"),), 2, [f"{at('other/secret')}{NOT_BELOW.decode()}"])]
    for given, status, lines in rows:
        done = subprocess.run(["clamdscan", f"--config-file={at('clamd.conf')}", "--no-summary", *given], capture_output=True, timeout=SECONDS, text=True)
        cases.same(f"clamdscan {' '.join(given)}", (done.returncode, sorted(done.stdout.splitlines())), (status, sorted(lines)))


def main():
    if len(sys.argv) != 2:
        sys.exit("usage: tests/paths.py PROGRAM")
    random.seed(7)
    cases, program = Cases(), os.path.abspath(sys.argv[1])
    for part_of in (exchanges, guards, bad_guards, clients, words, clamdscan):
        begun = time.time()
        with Room(program) as room:
            try:
                part_of(cases, room)
            except Exception as fault:
                cases.check(part_of.__name__, False, f"{type(fault).__name__}: {fault}")
        print(f"{part_of.__name__}: {time.time() - begun:.1f} s", file=sys.stderr)
    print(f"{cases.passed} passed, {cases.failed} failed")
    sys.exit(1 if cases.failed else 0)


if __name__ == "__main__":
    main()
