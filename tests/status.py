#!/usr/bin/env python3
"""`avguard status` and `avguard metrics`: what a guard reports of itself at OPENS.status, before and after each thing that happens to it; who
connects there and doesn't read, or is many; a report that is none, or comes in pieces; the statuses. The last line says how many passed and
how many failed."""
import json, os, socket, struct, subprocess, sys, tempfile, threading, time

from cases import Cases
from guard import Guard, SECONDS, Service, ask, connected, frame, heard, number
from parts import greeting
from programs import program_beside

NAMES = ["ready", "version", "services", "clients", "unanswered", "questions", "contents", "content_bytes", "asks_total", "grants_total", "denials_total",
         "unscanned_total", "timeouts_total", "dropped_lines_total", "uptime_seconds", "service_seconds", "memory_bytes", "parts", "open_contents",
         "signatures", "version_time_seconds"]
# Figures that time or the system decides.
LOOSE = {"uptime_seconds", "service_seconds", "memory_bytes", "version_time_seconds"}


def run(program, *words, **more):
    done = subprocess.run([program_beside(program, "avguard"), *words], stdout=subprocess.PIPE, stderr=subprocess.PIPE, timeout=SECONDS, **more)
    return done.returncode, done.stdout, done.stderr


def bytes_at(path):
    """All that comes at a socket, once it is there, until it is closed."""
    limit = time.time() + SECONDS
    while not os.path.exists(path) and time.time() < limit:
        time.sleep(0.01)
    with socket.socket(socket.AF_UNIX) as end:
        end.settimeout(SECONDS)
        end.connect(path)
        got = b""
        while piece := end.recv(4096):
            got += piece
    return got


def figures_at(path):
    got = bytes_at(path)
    return dict(zip(NAMES, struct.unpack(">21Q", got[1:]))) if len(got) == 169 and got[0] == 3 else got


def exact(figures):
    return {name: value for name, value in figures.items() if name not in LOOSE and value}


def awaited(path, wanted):
    """The figures that are not 0, once they are these, or at the end of the wait."""
    limit = time.time() + SECONDS
    while (got := exact(figures_at(path))) != wanted and time.time() < limit:
        time.sleep(0.01)
    return got


def said(cases, name, wanted, got):
    cases.same(name, got, wanted)


def figures(cases, program):
    """Each figure follows what happens."""
    with Guard(program) as guard:
        path = guard.opens + ".status"
        said(cases, "at first", {}, awaited(path, {}))
        cases.same("rights", oct(os.stat(path).st_mode & 0o777), oct(os.stat(guard.opens).st_mode & 0o777))
        client = connected(guard.opens)
        client.sendall(ask(1, b"A", b"a"))
        cases.same("no service", heard(client, 14), frame(3, number(1), b"\3"))
        base = {"clients": 1, "asks_total": 1, "denials_total": 1, "contents": 1, "content_bytes": 1}
        said(cases, "a denial", base, awaited(path, base))
        service = Service(guard, 7, b"XX")
        guard.await_line(b"connected\n")
        base = dict(base, ready=1, version=7, services=1)
        said(cases, "a service", base, awaited(path, base))
        second = connected(guard.service)
        said(cases, "one that stands by", dict(base, services=2), awaited(path, dict(base, services=2)))
        second.close()
        client.sendall(ask(2, b"clean", b"b"))
        asked = dict(base, asks_total=2, unanswered=1, questions=1, contents=2, content_bytes=6)
        said(cases, "a question", asked, {name: value for name, value in awaited(path, asked).items() if name != "services"} | {"services": 1})
        served(service, client, 29)
        granted = dict(base, asks_total=2, grants_total=1, contents=2, content_bytes=6)
        said(cases, "a grant", granted, awaited(path, granted))
        client.sendall(ask(3, b"aXXb", b"c"))
        served(service, client, 14)
        found = dict(granted, asks_total=3, denials_total=2, contents=3, content_bytes=10)
        said(cases, "an infection", found, awaited(path, found))
        client.close()
        service.end.close()
        guard.await_line(b"service lost\n")
        limit = time.time() + SECONDS
        while (got := figures_at(path))["clients"] and time.time() < limit:
            time.sleep(0.01)
        cases.same("all have left", [got[name] for name in ("ready", "services", "clients", "unanswered", "questions", "service_seconds", "version")], [0, 0, 0, 0, 0, 0, 7])


def late(cases, program):
    """Answers after the time was up; times, and memory."""
    with Guard(program, "--wait", "1") as guard:
        path = guard.opens + ".status"
        service = Service(guard, 7, b"XX")
        guard.await_line(b"connected\n")
        client = connected(guard.opens)
        client.sendall(ask(4, b"slow", b"d"))
        cases.same("a time-out", heard(client, 14), frame(3, number(4), b"\5"))
        got = figures_at(path)
        cases.same("it is counted", [got[name] for name in ("asks_total", "denials_total", "timeouts_total")], [1, 1, 1])
        cases.check("times and memory", got["uptime_seconds"] >= 1 and got["service_seconds"] <= got["uptime_seconds"] and 1 << 20 < got["memory_bytes"] < 1 << 28, got)
        service.end.close()


def parts(cases, program):
    """The second connection of the service, and contents in parts without an answer."""
    with Guard(program) as guard:
        path = guard.opens + ".status"
        service = Service(guard, 7, b"XX")
        guard.await_line(b"service of version 7 connected\n")
        second = connected(guard.service + ".parts")
        base = {"ready": 1, "version": 7, "services": 1}
        said(cases, "one that has not greeted takes no parts", base, awaited(path, base))
        second.sendall(greeting(7))
        base["parts"] = 1
        said(cases, "one that has takes them", base, awaited(path, base))
        client = connected(guard.opens)
        client.sendall(frame(5, number(1), b"\0") + frame(6, number(1), b"A"))
        base |= {"clients": 1, "asks_total": 1, "unanswered": 1, "open_contents": 1}
        said(cases, "a content that is open", base, awaited(path, base))
        client.sendall(frame(7, number(1), b"\1", number(1)))
        cases.same("it is given up", heard(client, 14), frame(3, number(1), b"\15"))
        base = {name: figure for name, figure in base.items() if name not in ("unanswered", "open_contents")} | {"denials_total": 1}
        said(cases, "none is open", base, awaited(path, base))
        second.close()
        del base["parts"]
        said(cases, "the connection is gone", base, awaited(path, base))
        service.end.close()


def sets(cases, program):
    """Since when a version grants, and how many signatures it has, as far as the file of --names has its set."""
    with tempfile.TemporaryDirectory() as folder:
        names = os.path.join(folder, "names.avsig")

        def put(version, count):
            with open(names + ".new", "wb") as file:
                file.write(b"avsig 1\nversion %d\n" % version + b"".join(b"Name.%d %04x\n" % (place, 0x5858 + place) for place in range(count)))
            os.rename(names + ".new", names)

        put(7, 3)
        with Guard(program, "--names", names) as guard:
            path, begun = guard.opens + ".status", int(time.time())
            two = lambda: [figures_at(path)[name] for name in ("signatures", "version_time_seconds")]
            cases.same("before the first version", two(), [0, 0])
            service = Service(guard, 7, b"XX")
            guard.await_line(b"connected\n")
            count, first = two()
            cases.check("the first version", (count, begun <= first <= time.time()) == (3, True), (count, first))
            time.sleep(1.1)
            cases.same("it stays", two(), [3, first])
            put(9, 5)
            service.learn(8, b"YY")
            client = connected(guard.opens)
            client.sendall(ask(1, b"A", b"a"))
            served(service, client, 29)
            count, second = two()
            cases.check("a version of another set", count == 0 and first < second <= time.time(), (count, first, second))
            service.learn(9, b"YY")
            client.sendall(ask(2, b"B", b"b"))
            served(service, client, 29)
            cases.same("the set of this version", two()[0], 5)
            service.end.close()


def served(service, client, count):
    """So many bytes of a client, whose contents the service judges meanwhile."""
    import select
    got, limit = b"", time.time() + SECONDS
    while len(got) < count and time.time() < limit:
        ready = select.select([service.end, client], [], [], 0.1)[0]
        if service.end in ready:
            service.turn()
        if client in ready:
            got += client.recv(count - len(got))
    return got


def let_through(cases, program):
    with Guard(program, "--open") as guard:
        client = connected(guard.opens)
        client.sendall(ask(1, b"A", b"a"))
        heard(client, 22)
        wanted = {"clients": 1, "contents": 1, "content_bytes": 1, "asks_total": 1, "unscanned_total": 1}
        cases.same("let through", awaited(guard.opens + ".status", wanted), wanted)


def forms(cases, program):
    """The three forms and the statuses, with a service and without."""
    with Guard(program) as guard:
        told = b"avguard: %s: no service is connected\n" % os.fsencode(guard.opens)
        status, out, err = run(program, "status", guard.opens)
        lines = [line.split(" ") for line in out.decode().splitlines()]
        cases.same("no service", (status, [line[0] for line in lines], err), (4, NAMES, told))
        cases.check("numbers", all(len(line) == 2 and line[1].isdigit() for line in lines), lines)
        status, out, err = run(program, "status", "--json", guard.opens)
        cases.same("an object without a service", (status, list(json.loads(out)), out.count(b"\n"), err), (4, NAMES, 1, told))
        status, out, err = run(program, "metrics", guard.opens)
        cases.same("metrics without a service", (status, err), (0, b""))
        service = Service(guard, 9, b"XX")
        guard.await_line(b"connected\n")
        status, out, err = run(program, "status", guard.opens)
        text = dict(line.split(" ") for line in out.decode().splitlines())
        cases.same("with a service", (status, text["ready"], text["version"], err), (0, "1", "9", b""))
        status, out, err = run(program, "status", "--json", guard.opens)
        found = json.loads(out)
        cases.same("an object", (status, found["ready"], found["version"], err), (0, 1, 9, b""))
        status, out, err = run(program, "metrics", guard.opens)
        metrics = out.decode().splitlines()
        names = [line.split(" ")[0] for line in metrics[2::3]]
        cases.same("metrics", (status, len(metrics), names, err), (0, 3 * len(NAMES), ["avguard_" + name for name in NAMES], b""))
        kinds = {line.split(" ")[2]: line.split(" ")[3] for line in metrics[1::3]}
        cases.same("types", kinds, {"avguard_" + name: "counter" if name.endswith("_total") else "gauge" for name in NAMES})
        cases.check("helps", all(line.startswith(f"# HELP {name} ") for line, name in zip(metrics[0::3], names)), metrics[0::3])
        with open("/dev/full", "wb") as full:
            done = subprocess.run([program_beside(program, "avguard"), "status", guard.opens], stdout=full, stderr=subprocess.PIPE, timeout=SECONDS)
        cases.same("a full device", (done.returncode, done.stderr.count(b"\n")), (4, 1))
        service.end.close()


def crowds(cases, program):
    """Who connects and reads nothing, or is many, keeps nobody from a report or an answer."""
    with Guard(program) as guard:
        path = guard.opens + ".status"
        figures_at(path)
        held = []
        for _ in range(2000):
            end = socket.socket(socket.AF_UNIX)
            end.settimeout(SECONDS)
            try:
                end.connect(path)
                held.append(end)
            except OSError:
                end.close()
                break
        begun = time.time()
        got = figures_at(path)
        cases.check("2,000 who read nothing", isinstance(got, dict) and time.time() - begun < 2, f"{len(held)} {time.time() - begun}")
        client = connected(guard.opens)
        client.sendall(ask(1, b"A", b"a"))
        cases.same("an answer beside them", heard(client, 14), frame(3, number(1), b"\3"))
        for end in held:
            end.close()
        with socket.socket(socket.AF_UNIX) as end:
            end.settimeout(SECONDS)
            end.connect(path)
            try:
                end.sendall(b"x" * 1000000)
            except OSError:
                pass
        stop = threading.Event()

        def flood():
            while not stop.is_set():
                try:
                    bytes_at(path)
                except OSError:
                    pass

        threads = [threading.Thread(target=flood) for _ in range(8)]
        for thread in threads:
            thread.start()
        slowest = 0
        for tag in range(2, 200):
            begun = time.time()
            client.sendall(ask(tag, b"A", b"a"))
            heard(client, 14)
            slowest = max(slowest, time.time() - begun)
        stop.set()
        for thread in threads:
            thread.join()
        cases.check("answers beside a flood of reports", slowest < 1, f"{slowest}")


def no_guard(cases, program):
    """A guard that is not there, and peers that are none."""
    with tempfile.TemporaryDirectory() as folder:
        opens = os.path.join(folder, "opens")
        path = opens + ".status"
        for command in ("status", "metrics"):
            begun = time.time()
            got = run(program, command, "--wait", "1", opens)
            cases.same(f"{command} without a guard", got, (4, b"", b"avguard: %s: no guard listens\n" % os.fsencode(path)))
            cases.check(f"{command} waits", 0.9 < time.time() - begun < 4, time.time() - begun)
        report = b"\3" + bytes(168)
        for name, text, fine in (("nothing", b"", False), ("a byte less", report[:-1], False), ("a byte more", report + b"\0", False), ("another format", b"\2" + report[1:], False),
                                 ("text", b"ready 1\n", False), ("a report", report, True)):
            for size in (1, 169, 4096):
                with socket.socket(socket.AF_UNIX) as door:
                    door.bind(path)
                    door.listen(4)

                    def speak():
                        end = door.accept()[0]
                        for at in range(0, len(text), size):
                            try:
                                end.sendall(text[at:at + size])
                            except OSError:
                                break
                        end.close()

                    thread = threading.Thread(target=speak)
                    thread.start()
                    status, out, err = run(program, "metrics", "--wait", "5", opens)
                    thread.join()
                os.unlink(path)
                lost = (4, b"", b"avguard: %s: the guard was lost\n" % os.fsencode(path))
                cases.check(f"{name}, {size} bytes at a time", (status, err) == (0, b"") if fine else (status, out, err) == lost, f"{status} {out!r} {err!r}")
        with socket.socket(socket.AF_UNIX) as door:
            door.bind(path)
            door.listen(4)
            begun = time.time()
            got = run(program, "status", "--wait", "1", opens)
            cases.check("a peer that says nothing", got == (4, b"", b"avguard: %s: the guard was lost\n" % os.fsencode(path)) and time.time() - begun < 5, f"{got}")
        os.unlink(path)


def paths(cases, program):
    """A path for opens so long that there is no room for the other one."""
    with tempfile.TemporaryDirectory() as folder:
        avguard = program_beside(program, "avguard")
        for size, has in ((100, True), (101, False), (107, False)):
            opens = os.path.join(folder, "o" * (size - len(folder) - 1))
            process = subprocess.Popen([avguard, "run", opens, os.path.join(folder, "s")], stderr=subprocess.PIPE)
            limit = time.time() + SECONDS
            while not os.path.exists(opens) and time.time() < limit:
                time.sleep(0.01)
            client = connected(opens)
            client.sendall(ask(1, b"A", b"a"))
            cases.same(f"OPENS of {size} bytes", heard(client, 14), frame(3, number(1), b"\3"))
            status, out, err = run(program, "metrics", opens)
            told = b"avguard: %s.status: the path of a socket has 1 to 107 bytes\n" % os.fsencode(opens)
            cases.same(f"its metrics at {size} bytes", (status, out == b"", err), (0, False, b"") if has else (2, True, told))
            process.kill()
            cases.same(f"its lines at {size} bytes", process.communicate(timeout=SECONDS)[1], b"" if has else told)
        status, out, err = run(program, "status", "x" * 108)
        cases.same("108 bytes", (status, out, err), (2, b"", b"avguard: %s: the path of a socket has 1 to 107 bytes\n" % (b"x" * 108)))
    with tempfile.TemporaryDirectory() as folder:
        opens, service = os.path.join(folder, "opens"), os.path.join(folder, "service")
        with open(opens + ".status", "w") as file:
            file.write("mine")
        done = subprocess.run([avguard, "run", opens, service], stdout=subprocess.PIPE, stderr=subprocess.PIPE, timeout=SECONDS)
        told = b"avguard: %s.status: the file that is there is no socket\n" % os.fsencode(opens)
        cases.same("a file in its place", (done.returncode, done.stdout, done.stderr), (4, b"", told))
        cases.same("nothing is left", os.listdir(folder), ["opens.status"])
        cases.same("the file stays", open(opens + ".status").read(), "mine")


def main():
    if len(sys.argv) != 2:
        sys.exit("usage: tests/status.py PROGRAM")
    cases = Cases()
    for part in (figures, late, let_through, parts, sets, forms, crowds, no_guard, paths):
        try:
            part(cases, os.path.abspath(sys.argv[1]))
        except Exception as fault:
            cases.check(part.__name__, False, f"{type(fault).__name__}: {fault}")
    print(f"{cases.passed} passed, {cases.failed} failed")
    sys.exit(1 if cases.failed else 0)


main()
