#!/usr/bin/env python3
"""The three programs that hold opens, as processes: host, and filter and service over a socket.

Filter and service started in either order, over 1 to 4,000 files; each stopped and continued a hundred times in its run; each
killed after each of its first 200 bytes; bytes that are no frames; peers that are silent, never read, or send a byte a second, with
the time measured from below and above; a socket that is left over, in use, no socket, too long a path, in no folder, of a mode,
not to be entered; the users, groups and modes of docs/OPERATING.md; a service that never comes, that says nothing, a second one. A filter
over several groups of files: its memory, a service that is killed behind each, a file that goes between look and reading. `host` with 1 to 16 openers and workers tells of
each file what `scan` tells, with a spare also where one of its services is lost in the midst. Nothing is left behind.
The last line says how many passed and how many failed."""
import fcntl, os, random, re, signal, socket, struct, subprocess, sys, tempfile, termios, threading, time

from cases import Cases

SECONDS = 60
# And one that opens more files than a volume has streams.
PATIENT = 300
SET = b"avsig 1\nversion 1\nx 5858\n"
CLEAN, INFECTED = b"ABC", b"XX"
HELLO = bytes.fromhex("00000012" "05" "01" "0000000000000001" "0000000000000001")


class Programs:
    """The programs in a folder with a set and two files."""

    def __init__(self, program, folder):
        self.program, self.folder = program, folder
        self.socket = os.path.join(folder, "s")
        for name, content in (("set.txt", SET), ("a.bin", CLEAN), ("b.bin", INFECTED)):
            self.write(name, content)

    def write(self, name, content):
        with open(os.path.join(self.folder, name), "wb") as file:
            file.write(content)

    def start(self, *words, out=subprocess.PIPE):
        return subprocess.Popen([self.program, *words], cwd=self.folder, stdin=subprocess.DEVNULL, stdout=out, stderr=subprocess.PIPE)

    def filter(self, *files, wait="20", path=None, mode=()):
        return self.start("filter", "--wait", wait, *mode, path or self.socket, *(files or ("a.bin", "b.bin")))

    def service(self, path=None, wait="20"):
        return self.start("service", "--wait", wait, path or self.socket, "set.txt")


def ended(process, seconds=SECONDS):
    """What a process wrote and its status."""
    out, err = process.communicate(timeout=seconds)
    return process.returncode, out, err


def both_ended(filter, service, seconds=SECONDS):
    """The same of two, while neither waits for what it wrote to be read."""
    told = {}
    thread = threading.Thread(target=lambda: told.update(service=ended(service, seconds)))
    thread.start()
    told["filter"] = ended(filter, seconds)
    thread.join()
    return told["filter"], told.get("service")


def await_socket(path, process=None):
    """Waits until a socket's file is there."""
    limit = time.time() + SECONDS
    while not os.path.exists(path) and time.time() < limit and (process is None or process.poll() is None):
        time.sleep(0.002)


def connected(path):
    """A connection to a socket, whose file is there before anybody listens."""
    limit = time.time() + SECONDS
    while True:
        end = socket.socket(socket.AF_UNIX)
        try:
            end.connect(path)
            return end
        except (ConnectionRefusedError, FileNotFoundError):
            end.close()
            if time.time() > limit:
                raise
            time.sleep(0.002)


ANSWERED = b"a.bin granted generation 2 version 1\nb.bin denied cause 2\n"
ANSWERED_JSON = b'{"file":"a.bin","answer":"granted","generation":2,"version":1}\n{"file":"b.bin","answer":"denied","cause":2,"why":"infected"}\n'
LOST = b"a.bin denied cause 6\nb.bin denied cause 6\n"
FULL = (4, None, b"avscan: device\n")
ALONE = b"a.bin denied cause 3\nb.bin denied cause 3\n"


def meetings(cases, programs):
    for first in ("filter", "service"):
        if first == "filter":
            one = programs.filter()
            await_socket(programs.socket)
            other = programs.service()
            filter, service = one, other
        else:
            service = programs.service()
            time.sleep(0.3)
            filter = programs.filter()
        cases.same(f"filter and service, the {first} first: filter", ended(filter), (0, ANSWERED, b""))
        cases.same(f"filter and service, the {first} first: service", ended(service), (0, b"closed\n", b""))
        cases.check(f"the {first} first: no file is left", not os.path.exists(programs.socket))
    filter, service = programs.filter(mode=("--json",)), programs.service()
    cases.same("filter --json", ended(filter), (0, ANSWERED_JSON, b""))
    cases.same("filter --json: service", ended(service), (0, b"closed\n", b""))
    cases.same("host --json", ended(programs.start("host", "--json", "set.txt", "a.bin", "b.bin")), (0, ANSWERED_JSON, b""))
    large = [f"large{i}" for i in range(40)]
    for i, name in enumerate(large):
        programs.write(name, b"A" * (1 << 20 if i == 0 else 70000) + (INFECTED if i % 3 == 0 and i else b""))
    filter, service = programs.filter(*large), programs.service()
    wanted = b"".join(b"%s %s\n" % (name.encode(), b"denied cause 2" if i % 3 == 0 and i else b"granted generation 2 version 1") for i, name in enumerate(large))
    cases.same("forty files of up to a MiB: filter", ended(filter), (0, wanted, b""))
    cases.same("forty files of up to a MiB: service", ended(service), (0, b"closed\n", b""))


# How many files of how many bytes go through filter and service.
MANY = [*((count, size) for size in (1, 2000) for count in (1, 256, 257, 1024, 4000)), (1, 65536), (257, 65536)]


def many_files(cases, programs):
    """Each ends with each file's verdict, whoever begins: neither stands in a write that the other does not take, and nobody is
    denied because many files were named."""
    for turn, (count, size) in enumerate(MANY):
        names = [f"m{turn}.{i}" for i in range(count)]
        for i, name in enumerate(names):
            programs.write(name, b"A" * (size - 2) + INFECTED if i % 5 == 4 and size > 1 else b"A" * size)
        wanted = b"".join(b"%s %s\n" % (name.encode(), b"denied cause 2" if i % 5 == 4 and size > 1 else b"granted generation 2 version 1") for i, name in enumerate(names))
        filter, service = (programs.filter(*names), None) if turn % 2 else (None, programs.service())
        time.sleep(0.1)
        filter, service = filter or programs.filter(*names), service or programs.service()
        collected = {}
        thread = threading.Thread(target=lambda: collected.update(filter=ended(filter)))
        thread.start()
        told = ended(service)
        thread.join()
        cases.same(f"{count} files of {size} bytes: filter", collected.get("filter"), (0, wanted, b""))
        cases.same(f"{count} files of {size} bytes: service", told, (0, b"closed\n", b""))
        for name in names:
            os.unlink(os.path.join(programs.folder, name))


def stopped_and_continued(cases, programs):
    """What is stopped and continued in its run ends as ever."""
    names = [f"p{i}" for i in range(2000)]
    for i, name in enumerate(names):
        programs.write(name, b"A" * 3000 + (INFECTED if i % 3 == 0 else b""))
    wanted = b"".join(b"%s %s\n" % (name.encode(), b"denied cause 2" if i % 3 == 0 else b"granted generation 2 version 1") for i, name in enumerate(names))
    chance, stops, turns = random.Random(5), 0, 0
    while stops < 100 and turns < 40:
        turns += 1
        filter, service = programs.filter(*names), programs.service()
        collected = {}
        threads = [threading.Thread(target=lambda who=who, process=process: collected.update({who: ended(process)})) for who, process in (("filter", filter), ("service", service))]
        for thread in threads:
            thread.start()
        while filter.poll() is None and service.poll() is None:
            who = chance.choice((filter, service))
            try:
                os.kill(who.pid, signal.SIGSTOP)
                time.sleep(chance.random() / 500)
                os.kill(who.pid, signal.SIGCONT)
            except ProcessLookupError:
                break
            stops += 1
            time.sleep(chance.random() / 500)
        for thread in threads:
            thread.join()
        cases.same(f"stopped and continued, turn {turns}", (collected["filter"], collected["service"]), ((0, wanted, b""), (0, b"closed\n", b"")))
    cases.check("a hundred stops", stops >= 100, f"{stops}")


def dripped(end, said):
    """Says a byte each half second, until the other side is gone."""
    try:
        for byte in said:
            end.sendall(bytes([byte]))
            time.sleep(0.5)
    except OSError:
        pass


def poured(end, said):
    """Says all, as fast as it is taken, and reads nothing."""
    try:
        end.sendall(said)
    except OSError:
        pass


def watched(end, process, moved):
    """Notes when the bytes that wait to be read at this end last grew, until a process has ended."""
    seen = None
    while process.poll() is None:
        waiting = fcntl.ioctl(end, termios.FIONREAD, bytes(4))
        if waiting != seen:
            seen, moved["at"] = waiting, time.time()
        time.sleep(0.02)


def full_socket(path):
    """A socket at which nobody is taken, with as many that wait as may."""
    listener, waiting = socket.socket(socket.AF_UNIX), []
    listener.bind(path)
    listener.listen(0)
    while True:
        end = socket.socket(socket.AF_UNIX)
        end.setblocking(False)
        try:
            end.connect(path)
        except BlockingIOError:
            end.close()
            return listener, waiting
        waiting.append(end)


def waits(cases, programs):
    """A peer that keeps one waiting is lost after --wait and not before it, on both sides."""
    wait, slack = 2, 2.5
    programs.write("long", b"A" * 65536)
    ask = lambda offset: frame(6, number(1), number(1), number(offset), struct.pack(">I", 4096))
    lost = b"avscan: %s: the service was lost\n" % programs.socket.encode()
    none = b"avscan: %s: no service came\n" % programs.socket.encode()
    rows = [("says nothing at all", lambda end: time.sleep(wait + slack), none, 3),
            ("says its greeting a byte each half second", lambda end: dripped(end, HELLO), lost, 3),
            ("is silent behind its greeting", lambda end: poured(end, HELLO), lost, 6),
            ("says a message a byte each half second", lambda end: (poured(end, HELLO), dripped(end, ask(0))), lost, 6),
            ("never reads", lambda end: poured(end, HELLO + ask(0) * 4000), lost, 6)]
    for name, does, line, cause in rows:
        filter = programs.filter("long", wait=str(wait))
        await_socket(programs.socket)
        begun = time.time()
        end = connected(programs.socket)
        thread = threading.Thread(target=does, args=(end,), daemon=True)
        thread.start()
        got = ended(filter)
        took = time.time() - begun
        cases.same(f"a service that {name}", got, (4, b"long denied cause %d\n" % cause, line))
        cases.check(f"a service that {name}: the time", wait * 0.9 < took < wait + slack, f"{took}")
        end.close()
        thread.join()
    lost = b"avscan: %s: the filter was lost\n" % programs.socket.encode()
    flood = b"".join(scan(i, i, 0) for i in range(1, 200001))
    rows = [("says nothing", lambda end: None), ("says a message a byte each half second", lambda end: dripped(end, scan(1, 1, 3))),
            ("never reads", lambda end: poured(end, flood))]
    for name, does in rows:
        listener = socket.socket(socket.AF_UNIX)
        listener.bind(programs.socket)
        listener.listen(1)
        service = programs.service(wait=str(wait))
        end, _ = listener.accept()
        begun, moved = time.time(), {}
        threads = [threading.Thread(target=does, args=(end,), daemon=True), threading.Thread(target=watched, args=(end, service, moved))]
        for thread in threads:
            thread.start()
        got = ended(service)
        over = time.time()
        threads[1].join()
        cases.same(f"a filter that {name}", got, (4, b"", lost))
        # A flood is answered until the replies that nobody reads fill the socket, which takes as long as it takes.
        told = f"{over - begun} s, {over - moved['at']} since its last reply"
        cases.check(f"a filter that {name}: the time", wait * 0.9 < over - begun and over - moved["at"] < wait + slack, told)
        end.close()
        listener.close()
        os.unlink(programs.socket)
        threads[0].join()
    for name, start, line in (("no service", lambda: programs.filter(wait=str(wait)), none), ("no filter", lambda: programs.service(wait=str(wait)), b"avscan: %s: no filter listens\n" % programs.socket.encode())):
        begun = time.time()
        status, _, err = ended(start())
        took = time.time() - begun
        cases.check(f"{name} comes: the time", (status, err) == (4, line) and wait * 0.9 < took < wait + slack, f"{status} {err!r} {took}")
    listener, waiting = full_socket(programs.socket)
    begun = time.time()
    status, _, err = ended(programs.service(wait=str(wait)))
    took = time.time() - begun
    line = b"avscan: %s: no filter listens\n" % programs.socket.encode()
    cases.check("a socket at which as many wait as may: the time", (status, err) == (4, line) and wait * 0.9 < took < wait + slack, f"{status} {err!r} {took}")
    for end in (listener, *waiting):
        end.close()
    os.unlink(programs.socket)
    for words in (("0",), ("86401",), ("x",), ("",)):
        for command in (("filter", programs.socket, "a.bin"), ("service", programs.socket, "set.txt")):
            status, out, err = ended(programs.start(*command, "--wait", *words))
            cases.check(f"{command[0]} --wait {words}", (status, out) == (2, b"") and err.startswith(b"avscan: "), f"{status} {err!r}")
    for words in ("1", "86400"):
        for command in (("filter", programs.socket, "gone"), ("service", programs.socket, "gone")):
            cases.same(f"{command[0]} --wait {words}", ended(programs.start(*command, "--wait", words)), (4, b"", b"avscan: gone: cannot read\n"))


def listed(programs, wanted):
    """What is in the folder, once it is what was wanted: a socket gets its second name, and then loses its first one."""
    limit = time.time() + SECONDS
    while (got := set(os.listdir(programs.folder))) != wanted and time.time() < limit:
        time.sleep(0.002)
    return got


def modes(cases, programs):
    """The socket has the rights that were asked for, is there as a whole or not at all, and stays where it is another one by now."""
    for mode, wanted in (((), 0o600), (("--mode", "600"), 0o600), (("--mode", "660"), 0o660), (("--mode", "666"), 0o666)):
        filter = programs.filter(mode=mode)
        await_socket(programs.socket)
        cases.same(f"a socket of mode {mode}", os.stat(programs.socket).st_mode & 0o777, wanted)
        cases.same(f"a socket of mode {mode}: its folder", listed(programs, {"set.txt", "a.bin", "b.bin", "s"}), {"set.txt", "a.bin", "b.bin", "s"})
        cases.same(f"a socket of mode {mode}: a service", ended(programs.service()), (0, b"closed\n", b""))
        cases.same(f"a socket of mode {mode}: the filter", ended(filter), (0, ANSWERED, b""))
    for mode in ("60", "0600", "777", "-1", ""):
        status, out, err = ended(programs.filter(mode=("--mode", mode)))
        cases.check(f"a socket of mode {mode}", (status, out) == (2, b"") and err.count(b"\n") == 1, f"{status} {err!r}")
    filter = programs.filter(wait="2")
    await_socket(programs.socket)
    os.unlink(programs.socket)
    programs.write("s", b"somebody else's")
    status, _, err = ended(filter)
    cases.check("a filter whose socket was taken away", (status, err) == (4, b"avscan: %s: no service came\n" % programs.socket.encode()), f"{status} {err!r}")
    with open(programs.socket, "rb") as file:
        cases.same("what stands in its place stays", file.read(), b"somebody else's")
    os.unlink(programs.socket)
    listener = socket.socket(socket.AF_UNIX)
    listener.bind(programs.socket)
    listener.close()
    both = [programs.filter(wait="3") for _ in range(8)]
    service = ended(programs.service())
    told = sorted(ended(one) for one in both)
    one = [it for it in told if it == (0, ANSWERED, b"")]
    refused = [it for it in told if it[0] == 4 and it[1] == ALONE]
    cases.check("eight filters at a socket that was left over", len(one) == 1 and len(refused) == 7 and service[0] == 0, f"{told} {service}")
    if os.geteuid() == 0:
        entered(cases, programs)


def as_nobody(programs, *words):
    """Runs the program as another user."""
    nobody = ["setpriv", "--reuid=65534", "--regid=65534", "--clear-groups", programs.program, *words]
    return subprocess.run(nobody, cwd=programs.folder, stdout=subprocess.PIPE, stderr=subprocess.PIPE, timeout=SECONDS)


def entered(cases, programs):
    """A socket that may not be entered is said at once."""
    filter = programs.filter()
    await_socket(programs.socket)
    os.chmod(programs.folder, 0o755)
    begun = time.time()
    service = as_nobody(programs, "service", programs.socket, "set.txt")
    took = time.time() - begun
    cases.check("a socket that may not be entered", (service.returncode, service.stderr) == (4, b"avscan: %s: may not be entered\n" % programs.socket.encode()) and took < 5, f"{service} {took}")
    cases.same("a service that may", ended(programs.service()), (0, b"closed\n", b""))
    cases.same("the filter at it", ended(filter), (0, ANSWERED, b""))
    listener = socket.socket(socket.AF_UNIX)
    listener.bind(programs.socket)
    listener.close()
    os.chmod(programs.folder, 0o1777)
    for mode, why in ((0o666, b"avscan: %s: a socket that nobody listens at is in its place, and cannot be removed\n"), (0o600, b"avscan: %s: may not be entered\n")):
        os.chmod(programs.socket, mode)
        filter = as_nobody(programs, "filter", programs.socket, "a.bin", "b.bin")
        cases.same(f"a socket of mode {mode:o} that somebody else left", (filter.returncode, filter.stdout, filter.stderr), (4, ALONE, why % programs.socket.encode()))
    cases.same("nothing is left beside it", sorted(os.listdir(programs.folder)), sorted(["set.txt", "a.bin", "b.bin", "s"]))
    os.unlink(programs.socket)


def recipe(cases, programs):
    """The folder of docs/OPERATING.md: filter and service of two users who have its group meet there, and a third user does not."""
    if os.geteuid() != 0:
        return
    group, folder = 4242, os.path.join(programs.folder, "run")
    os.mkdir(folder)
    os.chown(folder, 0, group)
    os.chmod(folder, 0o2770)
    os.chmod(programs.folder, 0o755)
    path = os.path.join(folder, "filter.socket")

    def start(user, *words, groups=("--groups", str(group))):
        return subprocess.Popen(["setpriv", f"--reuid={user}", f"--regid={user}", *groups, programs.program, *words], cwd=programs.folder, stdin=subprocess.DEVNULL, stdout=subprocess.PIPE, stderr=subprocess.PIPE)

    filter = start(4001, "filter", "--mode", "660", path, "a.bin", "b.bin")
    await_socket(path, filter)
    cases.same("a user without the group", ended(start(4003, "service", path, "set.txt", groups=("--clear-groups",))), (4, b"", b"avscan: %s: may not be entered\n" % path.encode()))
    cases.same("a service of the group", ended(start(4002, "service", path, "set.txt")), (0, b"closed\n", b""))
    cases.same("the filter of the group", ended(filter), (0, ANSWERED, b""))
    cases.same("the folder is empty", os.listdir(folder), [])


def carry(source, target, limit, at_end):
    """Carries bytes from one socket to the other, at most so many, and then calls at_end."""
    left = limit
    try:
        while left is None or left > 0:
            piece = source.recv(65536 if left is None else min(left, 65536))
            if not piece:
                break
            target.sendall(piece)
            left = None if left is None else left - len(piece)
    except OSError:
        pass
    at_end()


def cut_after(programs, side, count):
    """Runs both over a carrier that lets so many bytes of one side through and then kills it."""
    between = programs.socket + "2"
    listener = socket.socket(socket.AF_UNIX)
    listener.bind(between)
    listener.listen(1)
    filter, service = programs.filter(), programs.service(between)
    to_service, _ = listener.accept()
    await_socket(programs.socket, filter)
    to_filter = connected(programs.socket)
    victim = service if side == "service" else filter

    def kill():
        victim.kill()
        victim.wait()
        for end in (to_service, to_filter):
            try:
                end.shutdown(socket.SHUT_RDWR)
            except OSError:
                pass

    def hang_up(end):
        try:
            end.shutdown(socket.SHUT_WR)
        except OSError:
            pass

    up, down = (count, None) if side == "service" else (None, count)
    threads = [threading.Thread(target=carry, args=(to_service, to_filter, up, kill if side == "service" else lambda: hang_up(to_filter))),
               threading.Thread(target=carry, args=(to_filter, to_service, down, kill if side == "filter" else lambda: hang_up(to_service)))]
    for thread in threads:
        thread.start()
    result = ended(filter), ended(service)
    for thread in threads:
        thread.join()
    for end in (to_service, to_filter, listener):
        end.close()
    os.unlink(between)
    if os.path.exists(programs.socket):
        os.unlink(programs.socket)
    return result


LINE = re.compile(rb"[ab]\.bin (granted generation 2 version 1|denied cause [0-9]+)\n")


def kills(cases, programs):
    for count in range(0, 201):
        (status, out, err), _ = cut_after(programs, "service", count)
        lines = out.splitlines(keepends=True)
        shape = len(lines) == 2 and all(LINE.fullmatch(line) for line in lines)
        honest = shape and lines[0] in (b"a.bin granted generation 2 version 1\n", b"a.bin denied cause 6\n", b"a.bin denied cause 3\n") \
            and lines[1] in (b"b.bin denied cause 2\n", b"b.bin denied cause 6\n", b"b.bin denied cause 3\n")
        all_there = out == ANSWERED
        told = (status, err) == (0, b"") if all_there else (status, err) == (4, b"avscan: %s: the service was lost\n" % programs.socket.encode())
        if count == 0:
            told = (status, err) == (4, b"avscan: %s: no service came\n" % programs.socket.encode())
        cases.check(f"a service that is killed after {count} bytes", honest and told, f"status {status}, {out!r}, {err!r}")
        if 0 < count < 21:
            cases.same(f"no greeting after {count} bytes", out, ALONE)
    for count in range(0, 201):
        _, (status, out, err) = cut_after(programs, "filter", count)
        fine = (status, out, err) == (0, b"closed\n", b"") or (status, out, err) == (4, b"", b"avscan: %s: the filter was lost\n" % (programs.socket + "2").encode())
        cases.check(f"a filter that is killed after {count} bytes", fine, f"status {status}, {out!r}, {err!r}")


def visit(path, said, then="close"):
    """Connects to a filter and says some bytes; what comes back until the other side closes."""
    end = connected(path)
    end.sendall(said)
    if then == "close":
        end.shutdown(socket.SHUT_WR)
    back = b""
    end.settimeout(SECONDS)
    try:
        while True:
            piece = end.recv(65536)
            if not piece:
                break
            back += piece
    except OSError:
        pass
    end.close()
    return back


def hostile_services(cases, programs):
    lost = b"avscan: %s: the service was lost\n" % programs.socket.encode()
    rows = [("a frame of no bytes", bytes(4), 1, ALONE, b"avscan: frame\n"),
            ("a frame that is too long", b"\xff\xff\xff\xff", 1, ALONE, b"avscan: frame\n"),
            ("a greeting, then no message", HELLO + bytes.fromhex("0000000109"), 1, LOST, b"avscan: frame\n"),
            ("a greeting, then nothing", HELLO, 4, LOST, lost),
            ("half a greeting", HELLO[:10], 4, ALONE, lost),
            ("a thousand updates and no answer", HELLO + bytes.fromhex("0000000a0801" "0000000000000001") * 1000, 4, LOST, lost)]
    for name, said, status, out, err in rows:
        filter = programs.filter()
        await_socket(programs.socket)
        visit(programs.socket, said)
        cases.same(f"from a service {name}", ended(filter), (status, out, err))
    filter = programs.filter(wait="1")
    await_socket(programs.socket)
    visit(programs.socket, HELLO, then="wait")
    cases.same("a service that is silent", ended(filter), (4, LOST, lost))
    noise = random.Random(7)
    for turn in range(50):
        said = (HELLO if turn % 2 else b"") + bytes(noise.randrange(256) for _ in range(noise.randrange(1, 300)))
        filter = programs.filter()
        await_socket(programs.socket)
        visit(programs.socket, said)
        status, out, err = ended(filter)
        cases.check(f"noise {turn}", status in (1, 4) and out in (LOST, ALONE) and err.count(b"\n") == 1, f"{status}, {out!r}, {err!r}")


def serve(programs, said):
    """What a service answers to a filter that says these bytes, and how it ends."""
    listener = socket.socket(socket.AF_UNIX)
    listener.bind(programs.socket)
    listener.listen(1)
    service = programs.service()
    end, _ = listener.accept()
    end.sendall(said)
    end.shutdown(socket.SHUT_WR)
    back = b""
    while True:
        try:
            piece = end.recv(65536)
        except OSError:
            break
        if not piece:
            break
        back += piece
    result = ended(service)
    end.close()
    listener.close()
    os.unlink(programs.socket)
    return back, result


def frame(kind, *fields):
    body = bytes([kind, 1]) + b"".join(fields)
    return struct.pack(">I", len(body)) + body


def number(n):
    return struct.pack(">Q", n)


def scan(seq, stream, length):
    return frame(1, number(1), number(seq), number(stream), number(2), number(length))


def hostile_filters(cases, programs):
    closed = (0, b"closed\n", b"")
    asks = lambda seq, count: frame(6, number(1), number(seq), number(0), struct.pack(">I", count))
    rows = [("nothing", b"", HELLO, closed),
            ("no frame", bytes(4), HELLO, (1, b"", b"avscan: frame\n")),
            ("half a frame", scan(1, 1, 3)[:20], HELLO, closed),
            ("an empty content", scan(1, 1, 0), HELLO + frame(7, number(1), number(1), b"\0", number(1)), closed),
            ("a chunk that is too long", scan(1, 1, 3) + frame(2, number(1), number(1), number(0), b"ABCD"), HELLO + asks(1, 3) + frame(7, number(1), number(1), b"\2", b"\2"), closed),
            ("a flood of scans", b"".join(scan(i, i, 1) for i in range(1, 258)), HELLO + b"".join(asks(i, 1) for i in range(1, 257)) + frame(7, number(1), number(257), b"\2", b"\1"), closed)]
    for name, said, back, result in rows:
        got = serve(programs, said)
        cases.same(f"to a service {name}", got, (back, result))


def places(cases, programs):
    path = programs.socket
    listener = socket.socket(socket.AF_UNIX)
    listener.bind(path)
    listener.close()
    filter, service = programs.filter(), None
    time.sleep(0.2)
    service = programs.service()
    cases.same("a socket that was left over is made anew", (ended(filter), ended(service)), ((0, ANSWERED, b""), (0, b"closed\n", b"")))
    waiting = programs.filter()
    await_socket(path)
    cases.same("another filter at the same socket", ended(programs.filter()), (4, ALONE, b"avscan: %s: another filter waits there\n" % path.encode()))
    service = programs.service()
    cases.same("the first filter took no harm", (ended(waiting), ended(service)), ((0, ANSWERED, b""), (0, b"closed\n", b"")))
    programs.write("s", b"a letter")
    cases.same("a file that is no socket", ended(programs.filter()), (4, ALONE, b"avscan: %s: the file that is there is no socket\n" % path.encode()))
    with open(path, "rb") as file:
        cases.same("that file is as it was", file.read(), b"a letter")
    os.unlink(path)
    lost = os.path.join(programs.folder, "nowhere", "s")
    cases.same("a folder that is not there", ended(programs.filter(path=lost)), (4, ALONE, b"avscan: %s: cannot make a socket\n" % lost.encode()))
    for name in ("x" * 108, ""):
        line = b"avscan: %s: the path of a socket has 1 to 107 bytes\n" % name.encode()
        cases.same(f"a path of {len(name)} bytes, filter", ended(programs.filter(path=name) if name else programs.start("filter", "", "a.bin")), (2, b"", line))
        cases.same(f"a path of {len(name)} bytes, service", ended(programs.service(path=name) if name else programs.start("service", "", "set.txt")), (2, b"", line))
    longest = "y" * 107
    cases.same("a path of 107 bytes", ended(programs.filter(path=longest, wait="1")), (4, ALONE, b"avscan: %s: no service came\n" % longest.encode()))
    cases.check("no file is left where no service came", not os.path.exists(os.path.join(programs.folder, longest)))
    cases.same("a filter that never comes", ended(programs.service(wait="1")), (4, b"", b"avscan: %s: no filter listens\n" % path.encode()))
    filter = programs.filter()
    await_socket(path)
    end = connected(path)
    end.sendall(HELLO[:1])
    limit = time.time() + SECONDS
    while os.path.exists(path) and time.time() < limit:
        time.sleep(0.002)
    cases.same("a second service finds nobody", ended(programs.service(wait="1")), (4, b"", b"avscan: %s: no filter listens\n" % path.encode()))
    end.close()
    cases.same("the filter whose service went away", ended(filter), (4, ALONE, b"avscan: %s: the service was lost\n" % path.encode()))


def inputs(cases, programs):
    os.mkdir(os.path.join(programs.folder, "folder"))
    programs.write("big", b"A" * (1 << 20) + b"A")
    programs.write("a b", b"A")
    programs.write("bad", b"avsig 3\n")
    rows = [(("a.bin", "gone"), 4, b"avscan: gone: cannot read\n"), (("a.bin", "folder"), 4, b"avscan: folder: cannot read\n"),
            (("a.bin", "a.bin"), 1, b"avscan: a.bin: Exists\n"), (("a b",), 1, b"avscan: a b: BadName\n"), (("big",), 1, b"avscan: big: TooLarge\n")]
    for files, status, err in rows:
        cases.same(f"host {files}", ended(programs.start("host", "set.txt", *files)), (status, b"", err))
        cases.same(f"filter {files}", ended(programs.filter(*files)), (status, b"", err))
    for name, status, err in (("gone", 4, b"avscan: gone: cannot read\n"), ("bad", 1, b"avscan: set line 1: kind 1\n"), ("big", 1, b"avscan: big: TooLarge\n")):
        cases.same(f"host under {name}", ended(programs.start("host", name, "gone too")), (status, b"", err))
        cases.same(f"service under {name}", ended(programs.start("service", programs.socket, name)), (status, b"", err))
    for words in (("--openers", "0"), ("--openers", "17"), ("--workers", "0"), ("--workers", "17"), ("--workers", "x")):
        status, out, err = ended(programs.start("host", "set.txt", "a.bin", *words))
        cases.check(f"host {words}", (status, out) == (2, b"") and err.startswith(b"avscan: ") and err.count(b"\n") == 1, f"{status}, {out!r}, {err!r}")
    letters = "abcdefghijklmnop"
    steps = [one + other for one in letters for other in letters]
    for step in steps:
        os.symlink(".", os.path.join(programs.folder, step))
    ways = [f"{one}/{other}/a.bin" for one in steps for other in steps]
    filter, service = both_ended(programs.filter(*ways, "b.bin"), programs.service(wait=str(PATIENT)), PATIENT)
    cases.same("the service of more files than a volume has streams", service, (0, b"closed\n", b""))
    for who, (status, out, err) in (("filter", filter), ("host", ended(programs.start("host", "set.txt", *ways, "b.bin"), PATIENT))):
        lines = out.splitlines()
        cases.same(f"a {who} of more files than a volume has streams", (status, len(lines), lines[:1], lines[-1:], err),
                   (0, 65_537, [b"aa/aa/a.bin granted generation 2 version 1"], ANSWERED.splitlines()[-1:], b""))
    with open("/dev/full", "wb") as full:
        cases.same("host on a full device", ended(programs.start("host", "set.txt", "a.bin", out=full)), FULL)
        filter = programs.filter()
        await_socket(programs.socket)
        service = programs.start("service", programs.socket, "set.txt", out=full)
        cases.same("service on a full device", (ended(filter), ended(service)), ((0, ANSWERED, b""), FULL))
        filter = programs.start("filter", programs.socket, "a.bin", out=full)
        await_socket(programs.socket)
        cases.same("filter on a full device", (ended(programs.service()), ended(filter)), ((0, b"closed\n", b""), FULL))


def told_by_scan(programs, names):
    status, out, err = ended(programs.start("scan", "set.txt", *names))
    return b"".join(line.split(b" ")[0] + (b" granted generation 2 version 1" if line.endswith(b" clean") else b" denied cause 2") + b"\n" for line in out.splitlines())


def hosts(cases, programs):
    chance = random.Random(11)
    names = []
    for i in range(40):
        content = bytearray(chance.randrange(65, 88) for _ in range(chance.choice((0, 1, 10, 1000, 4096, 4097, 9000, 20000))))
        if i % 3 == 0 and len(content) > 1:
            at = chance.randrange(len(content) - 1)
            content[at:at + 2] = b"XX"
        names.append(f"f{i}")
        programs.write(names[-1], bytes(content))
    wanted = {name: line for name, line in zip(names, told_by_scan(programs, names).splitlines(keepends=True))}
    for turn in range(500):
        openers, workers = turn % 16 + 1, turn // 16 % 16 + 1
        some = chance.sample(names, chance.randrange(1, 20))
        words = ["host", "set.txt", *some, "--openers", str(openers), "--workers", str(workers)]
        got = ended(programs.start(*words))
        cases.same(f"host, turn {turn}, {openers} openers and {workers} workers", got, (0, b"".join(wanted[name] for name in some), b""))


def losing(programs, library, words, losses):
    """A host that loses connections: what it wrote, its status, and how many were lost."""
    report = os.path.join(programs.folder, "lost")
    environment = dict(os.environ, LD_PRELOAD=library, LOSE=losses, LOSE_REPORT=report)
    done = subprocess.run([programs.program, *words], cwd=programs.folder, stdin=subprocess.DEVNULL, capture_output=True, env=environment, timeout=SECONDS)
    with open(report, encoding="ascii") as text:
        return (done.returncode, done.stdout, done.stderr), int(text.read())


def spares(cases, programs):
    """A host with a spare tells of each file what `scan` tells: as it is, and where one of its two services is lost in the midst. Where both are,
    each file has its verdict, or is denied as the service was lost or isn't there."""
    library = os.path.join(programs.folder, "lose_service.so")
    source = os.path.join(os.path.dirname(os.path.abspath(__file__)), "lose_service.c")
    subprocess.run(["cc", "-shared", "-fPIC", "-O1", "-o", library, source], check=True)
    chance = random.Random(26)
    names = []
    for i in range(40):
        content = bytearray(chance.randrange(65, 88) for _ in range(chance.choice((1, 1000, 4096, 9000, 20000, 40000))))
        if i % 3 == 0 and len(content) > 1:
            at = chance.randrange(len(content) - 1)
            content[at:at + 2] = b"XX"
        names.append(f"g{i}")
        programs.write(names[-1], bytes(content))
    wanted = {name: line for name, line in zip(names, told_by_scan(programs, names).splitlines(keepends=True))}
    lost_one = lost_both = 0
    for turn in range(450):
        some = chance.sample(names, chance.randrange(4, 20))
        words = ["host", "--spare", "set.txt", *some, "--openers", str(turn % 8 + 1), "--workers", str(turn // 8 % 4 + 1)]
        # Over the spare's connection goes nothing but its greeting, as long as the first one stands.
        first = 2 if turn % 3 == 0 else 1
        at = chance.randrange(1, 60) if first == 1 else 1
        got, lost = losing(programs, library, words, f"{first}:{at}")
        lost_one += lost
        cases.same(f"host --spare, turn {turn}, connection {first} is lost with message {at}", got, (0, b"".join(wanted[name] for name in some), b""))
    for turn in range(100):
        some = chance.sample(names, chance.randrange(4, 20))
        one, two = chance.randrange(1, 40), chance.randrange(1, 40)
        got, lost = losing(programs, library, ["host", "--spare", "set.txt", *some], f"1:{one},2:{two}")
        lines = [(wanted[name], *(f"{name} denied cause {cause}\n".encode() for cause in (6, 3))) for name in some]
        told = got[1].splitlines(keepends=True)
        lost_both += lost == 2 and any(line in of[1:] for line, of in zip(told, lines))
        are_told = len(told) == len(some) and all(line in of for line, of in zip(told, lines))
        cases.check(f"host --spare, turn {turn}, connections are lost with messages {one} and {two}", are_told and (got[0], got[2]) in ((0, b""), FULL[::2]), f"{got}")
    cases.check("a connection was lost in the midst", lost_one >= 300, f"{lost_one} times")
    cases.check("both connections were lost while an open waited", lost_both >= 20, f"{lost_both} times")


def groups(cases, programs):
    """A host of more files than one group holds: those that reach 7 MiB together, a small one counted as 4,096 bytes."""
    large = [f"large{i}" for i in range(70)]
    for i, name in enumerate(large):
        programs.write(name, bytes([65 + i % 20]) * ((1 << 20) - 2) + (b"XX" if i % 7 == 3 else b"AA"))
    wanted = told_by_scan(programs, large)
    peaks = []
    for names in (large[:34], large):
        process = programs.start("host", "set.txt", "--summary", *names)
        out, err = process.stdout.read(), process.stderr.read()
        _, status, used = os.wait4(process.pid, 0)
        lines = b"".join(wanted.splitlines(keepends=True)[:len(names)])
        told = b"avscan: %d files scanned, %d infected, 0 not scanned\n" % (len(names), lines.count(b"denied"))
        cases.same(f"{len(names)} files of a mebibyte", (os.waitstatus_to_exitcode(status), out, err), (0, lines, told))
        peaks.append(used.ru_maxrss // 1024)
    cases.check("memory is that of one group", peaks[1] < peaks[0] + 32, f"{peaks} MiB")
    programs.write("a b", b"A")
    for last, status, err in (("gone", 4, b"avscan: gone: cannot read\n"), (large[0], 1, b"avscan: large0: Exists\n"), ("a b", 1, b"avscan: a b: BadName\n")):
        cases.same(f"{last} behind a whole group", ended(programs.start("host", "set.txt", *large, last)), (status, b"", err))
    piped = subprocess.Popen([programs.program, "host", "set.txt", "--summary", *large[:40], "/dev/stdin", *large[40:]], cwd=programs.folder, stdin=subprocess.PIPE,
                             stdout=subprocess.PIPE, stderr=subprocess.PIPE)
    out, err = piped.communicate(b"A" * (1 << 20) + b"A", timeout=SECONDS)
    cases.same("a file that turns out too large ends its own group", (piped.returncode, out, err),
               (1, b"".join(wanted.splitlines(keepends=True)[:35]), b"avscan: /dev/stdin: TooLarge\n"))
    os.mkdir(os.path.join(programs.folder, "small"))
    small = [f"small/{i}" for i in range(8_193)]
    for name in small:
        programs.write(name, b"AXX" if name.endswith("77") else b"")
    programs.write("list", "\n".join(small).encode())
    cases.same("small files of several groups", ended(programs.start("host", "set.txt", "--files-from", "list")), (0, told_by_scan(programs, small), b""))


def peak(process):
    """The most memory that a process held so far, in MiB; 0 where it has ended."""
    try:
        with open(f"/proc/{process.pid}/status") as file:
            return next((int(line.split()[1]) // 1024 for line in file if line.startswith("VmHWM:")), 0)
    except (FileNotFoundError, ProcessLookupError):
        return 0


def peak_of(process, told):
    """What a process wrote, its status, and the most memory that it held, as it was seen every few milliseconds."""
    most = 0
    thread = threading.Thread(target=lambda: told.append(ended(process)))
    thread.start()
    while thread.is_alive():
        most = max(most, peak(process))
        time.sleep(0.003)
    thread.join()
    return most


def half_mebibytes(programs, count):
    names = [f"half{i}" for i in range(count)]
    for i, name in enumerate(names):
        programs.write(name, bytes([65 + i % 20]) * ((1 << 19) - 2) + (b"XX" if i % 7 == 3 else b"AA"))
    return names, told_by_scan(programs, names).splitlines(keepends=True)


def filter_groups(cases, programs):
    """A filter of more files than one group holds: fourteen of half a mebibyte are one."""
    names, wanted = half_mebibytes(programs, 200)
    peaks = []
    # The few files go by so fast that a look now and then may miss the most that they took: they go by three times.
    for count in (30, 30, 30, 200):
        told, service = [], programs.service()
        peaks.append(peak_of(programs.filter(*names[:count], mode=("--summary",)), told))
        infected = sum(b"denied" in line for line in wanted[:count])
        summary = b"avscan: %d files scanned, %d infected, 0 not scanned\n" % (count, infected)
        cases.same(f"{count} files of half a mebibyte: filter", told, [(0, b"".join(wanted[:count]), summary)])
        cases.same(f"{count} files of half a mebibyte: service", ended(service), (0, b"closed\n", b""))
    cases.check("a filter's memory is that of one group", 0 < peaks[-1] < min(max(peaks[:-1]) + 8, 32), f"{peaks} MiB")
    lost_in_the_midst(cases, programs, names, wanted)
    alone = b"".join(b"%s denied cause 3\n" % name.encode() for name in names[:40])
    cases.same("no service for several groups", ended(programs.filter(*names[:40], wait="1")), (4, alone, b"avscan: %s: no service came\n" % programs.socket.encode()))
    programs.write("goes", b"A")
    filter = programs.filter(*names[:40], "goes")
    await_socket(programs.socket, filter)
    os.unlink(os.path.join(programs.folder, "goes"))
    cases.same("a file that goes between look and reading", both_ended(filter, programs.service()),
               ((4, b"".join(wanted[:28]), b"avscan: goes: cannot read\n"), (0, b"closed\n", b"")))
    piped_and_small(cases, programs, names, wanted)


def reply_to(asked, version):
    """The reply "clean" under a version to a scan's frame."""
    return frame(7, asked[6:14], asked[14:22], b"\0", number(version))


def frames_of(end, count):
    """So many frames of a scan from a filter, each 46 bytes long."""
    back = b""
    while len(back) < 46 * count:
        piece = end.recv(65536)
        if not piece:
            break
        back += piece
    return [back[at:at + 46] for at in range(0, len(back), 46)]


def behind_the_last(cases, programs):
    """A filter asks about 256 files at a time. Half of the notice of a newer set comes with the last reply to the first of them."""
    names = [f"n{i}" for i in range(300)]
    for name in names:
        programs.write(name, b"A")
    update = frame(8, number(2))
    for cut in range(len(update) + 1):
        filter = programs.filter(*names)
        await_socket(programs.socket, filter)
        end = connected(programs.socket)
        end.settimeout(SECONDS)
        end.sendall(HELLO)
        first = frames_of(end, 256)
        end.sendall(b"".join(reply_to(asked, 1) for asked in first) + update[:cut])
        second = frames_of(end, 44)
        end.sendall(update[cut:] + b"".join(reply_to(asked, 2) for asked in second))
        wanted = b"".join(b"%s granted generation 2 version %d\n" % (name.encode(), 1 + (at >= 256)) for at, name in enumerate(names))
        cases.same(f"half a notice, {cut} bytes, behind the last reply", ended(filter), (0, wanted, b""))
        end.close()


def lost_in_the_midst(cases, programs, names, wanted):
    """The service is killed once the lines of a group have come: each file of each group has its line."""
    lost = b"avscan: %s: the service was lost\n" % programs.socket.encode()
    for turn in range(5):
        filter, service = programs.filter(*names), programs.service()
        first = [filter.stdout.readline() for _ in range(14 * turn + 1)]
        service.kill()
        service.wait()
        lines = first + filter.stdout.readlines()
        err, status = filter.stderr.read(), filter.wait(SECONDS)
        named = [line.split(b" ")[0].decode() for line in lines] == names
        fair = all(line == right or line.endswith((b" denied cause 3\n", b" denied cause 6\n")) for line, right in zip(lines, wanted))
        ends = (status, err) == ((0, b"") if lines == wanted else (4, lost))
        cases.check(f"a service that is killed behind {turn} groups", named and fair and ends and lines[:14 * turn + 1] == wanted[:14 * turn + 1], f"{status}, {err!r}, {lines[-1:]}")


def piped_and_small(cases, programs, names, wanted):
    service = programs.service()
    piped = subprocess.Popen([programs.program, "filter", programs.socket, *names[:40], "/dev/stdin", *names[40:]], cwd=programs.folder, stdin=subprocess.PIPE,
                             stdout=subprocess.PIPE, stderr=subprocess.PIPE)
    out, err = piped.communicate(b"A" * (1 << 20) + b"A", timeout=SECONDS)
    cases.same("a file that turns out too large in a later group of a filter", (piped.returncode, out, err),
               (1, b"".join(wanted[:28]), b"avscan: /dev/stdin: TooLarge\n"))
    cases.same("its service", ended(service), (0, b"closed\n", b""))
    os.mkdir(os.path.join(programs.folder, "small"))
    small = [f"small/{i}" for i in range(4_097)]
    for name in small:
        programs.write(name, b"AXX" if name.endswith("77") else b"")
    programs.write("list", "\n".join(small).encode())
    filter = programs.start("filter", programs.socket, "--files-from", "list")
    cases.same("small files of several groups of a filter", both_ended(filter, programs.service()), ((0, told_by_scan(programs, small), b""), (0, b"closed\n", b"")))


def main():
    if len(sys.argv) != 2:
        sys.exit("usage: tests/sockets.py PROGRAM")
    cases = Cases()
    for part in (meetings, many_files, stopped_and_continued, waits, modes, recipe, hostile_services, hostile_filters, places, inputs, kills, hosts, spares, groups, filter_groups, behind_the_last):
        begun = time.time()
        try:
            with tempfile.TemporaryDirectory() as folder:
                part(cases, Programs(os.path.abspath(sys.argv[1]), folder))
        except Exception as fault:
            cases.check(part.__name__, False, f"{type(fault).__name__}: {fault}"[:400])
        print(f"{part.__name__}: {time.time() - begun:.1f} s", file=sys.stderr)
    print(f"{cases.passed} passed, {cases.failed} failed")
    sys.exit(1 if cases.failed else 0)


main()
