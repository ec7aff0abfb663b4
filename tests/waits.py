#!/usr/bin/env python3
"""`avguard run`: who waits and for how long, who is let in and who is turned away, and what is believed of a service: `waits.py PROGRAM`.

Each case waits for what is visible: an answer, a line, the end of a connection. The last line says how many passed and how many failed."""
import fcntl, os, re, select, socket, struct, subprocess, sys, tempfile, time

from cases import Cases
from guard import SECONDS, Guard, Service, ask, connected, frame, frames, heard, hello, is_silent, message, number, rest, verdict
from programs import program_beside

F_SETPIPE_SZ = 1031


def greeted(guard, version=1, port=1):
    """A service that greets at a port, and then says nothing."""
    end = connected(guard.service)
    end.sendall(hello(version, port))
    guard.await_line(b"%s of version %d connected\n" % (b"service" if port == 1 else b"spare", version))
    return end


def serves(service, *ends, seconds=SECONDS):
    """Lets a service judge until each of these ends has heard something."""
    limit, waiting = time.time() + seconds, set(ends)
    while waiting and time.time() < limit:
        for ready in select.select([service, *waiting], [], [], 0.05)[0]:
            if ready is service:
                service.turn()
            else:
                waiting.discard(ready)
    return not waiting


def told(end):
    """The next answer."""
    head = heard(end, 4)
    return verdict(heard(end, struct.unpack(">I", head)[0])) if len(head) == 4 else None


def nobody_is_forgotten(cases, program):
    with Guard(program, "--questions", "1", clamd=False) as guard:
        service = Service(guard, 1, b"XX")
        guard.await_line(b"connected\n")
        line = [connected(guard.opens) for _ in range(4)]
        for place, end in enumerate(line):
            end.sendall(b"".join(ask(tag, b"%d in line %d" % (place, tag)) for tag in range(16)))
        select.select([service], [], [], SECONDS)
        drips = [connected(guard.opens) for _ in range(63)]
        for byte in ask(1, b"a content that comes byte by byte, and never whole .. ..")[:60]:
            for end in drips:
                end.sendall(bytes([byte]))
        honest = connected(guard.opens)
        honest.sendall(ask(7, b"honest"))
        for end in drips:
            end.close()
        cases.check("an honest ask behind a full line and 63 that left is answered", serves(service, honest, *line), "no answer")
        cases.same("so it is", told(honest), (7, "granted", (2, 1)))
        for place, end in enumerate(line):
            limit, got, data = time.time() + SECONDS, {}, b""
            while len(got) < 16 and time.time() < limit:
                for ready in select.select([service, end], [], [], 0.05)[0]:
                    if ready is service:
                        service.turn()
                    else:
                        found, data = frames(data + end.recv(65536))
                        got.update((tag, what) for tag, what, _ in map(verdict, found))
            cases.same(f"all asks of client {place} are answered", got, {tag: "granted" for tag in range(16)})


def what_is_begun_ends(cases, program):
    with Guard(program, "--wait", "1") as guard:
        whole = ask(1, b"A" * 1000)
        half, drip, content, idle = connected(guard.opens), connected(guard.opens), connected(guard.clamd), connected(guard.opens)
        half.sendall(whole[:500])
        content.sendall(b"zINSTREAM\0\0\0\1\0abc")
        begun, place = time.time(), 0
        while time.time() - begun < 6:
            try:
                drip.sendall(whole[place:place + 1])
            except OSError:
                break
            place += 1
            if select.select([drip], [], [], 0.3)[0]:
                break
        cases.check("a byte now and then prolongs no ask", time.time() - begun < 5, f"{place} bytes were taken")
        cases.same("half an ask is closed", rest(half), b"")
        cases.same("half a content is told so and closed", rest(content), b"COMMAND READ TIMED OUT\0")
        idle.sendall(ask(2, b"B"))
        cases.same("an idle client is not", told(idle), (2, "denied", 3))


def known_contents_do_not_wait(cases, program):
    with Guard(program, "--questions", "1", clamd=False) as guard:
        service = Service(guard, 1, b"XX")
        guard.await_line(b"connected\n")
        first = connected(guard.opens)
        first.sendall(ask(1, b"known"))
        serves(service, first)
        cases.same("it is known now", told(first), (1, "granted", (2, 1)))
        others = [connected(guard.opens) for _ in range(20)]
        for place, end in enumerate(others):
            end.sendall(ask(1, b"new %d" % place))
        select.select([service], [], [], SECONDS)
        first.sendall(ask(2, b"known"))
        cases.same("a known content is answered though 20 new ones wait for a service that rests", told(first), (2, "granted", (2, 1)))


def a_hung_service_gives_way(cases, program):
    with Guard(program, "--wait", "1", clamd=False) as guard:
        hung = greeted(guard)
        successor = Service(guard, 1, b"XX")
        client = connected(guard.opens)
        client.sendall(b"".join(ask(tag, b"hung %d" % tag) for tag in range(8)))
        for tag in range(8):
            cases.same(f"question {tag} times out", told(client), (tag, "denied", 5))
        cases.check("it is reported", guard.await_line(b"avguard: the service answered none of 8 questions in a row\n"), guard.lines())
        cases.check("the one that stood by is the service", guard.await_line(b"service of version 1 connected\n", 2), guard.lines())
        cases.same("the hung one is closed", rest(hung)[-1:] is not None, True)
        client.sendall(ask(9, b"after"))
        serves(successor, client)
        cases.same("it serves", told(client), (9, "granted", (2, 1)))
    with Guard(program, "--wait", "1", clamd=False) as guard:
        first, second = greeted(guard), Service(guard, 1, b"XX")
        first.close()
        cases.check("a lost service is reported", guard.await_line(b"avguard: service lost\n"), guard.lines())
        cases.check("it gives way at once", guard.await_line(b"service of version 1 connected\n", 2), guard.lines())
        second.close()


def a_quiet_service_leaves_its_questions(cases, program):
    """Of two services one that answers nothing is lost after half of the wait, and nothing is denied."""
    for port, name, other in ((1, b"service", 2), (2, b"spare", 1)):
        with Guard(program, "--wait", "4", clamd=False) as guard:
            hung = greeted(guard, port=port)
            client = connected(guard.opens)
            if port == 1:
                judge = Service(guard, 1, b"XX", port=other)
                guard.await_line(b"avguard: spare of version 1 connected\n")
                client.sendall(ask(1, b"first") + ask(2, b"second"))
            else:
                client.sendall(ask(1, b"first") + ask(2, b"second"))
                select.select([hung], [], [], SECONDS)
                judge = Service(guard, 1, b"XX", port=other)
            begun, got = time.time(), []
            while len(got) < 2 and time.time() - begun < SECONDS:
                for ready in select.select([judge, client], [], [], 0.05)[0]:
                    if ready is judge:
                        judge.turn()
                    else:
                        got.append(told(client))
            took = time.time() - begun
            cases.same(f"port {port}: both asks", sorted(got), [(1, "granted", (2, 1)), (2, "granted", (2, 1))])
            cases.check(f"port {port}: after half of the wait", 1 < took < 3.9, f"{took:.1f} s")
            cases.check(f"port {port}: it is reported", guard.await_line(b"avguard: the %s answered no question for half of --wait\navguard: %s lost\n" % (name, name)), guard.lines())
            rest(hung)
            client.sendall(ask(3, b"third"))
            serves(judge, client)
            cases.same(f"port {port}: the other serves", told(client), (3, "granted", (2, 1)))


def two_services_are_updated(cases, program):
    """One after the other, with a client that asks all the time: nothing is denied, whichever is first."""
    for first, second in ((1, 2), (2, 1)):
        with Guard(program, "--wait", "10", clamd=False) as guard:
            services = {port: Service(guard, 1, b"XX", port=port) for port in (1, 2)}
            guard.await_line(b" connected\n", 2)
            client, got = connected(guard.opens), []
            for tag in range(30):
                if tag == 10:
                    services[first].learn(2, b"YY")
                if tag == 20 and second in services:
                    services[second].learn(2, b"YY")
                client.sendall(ask(tag, b"content %d" % tag))
                until = time.time() + SECONDS
                while time.time() < until:
                    ready = select.select([client, *services.values()], [], [], 0.1)[0]
                    for service in [it for it in services.values() if it in ready]:
                        if not service.turn():
                            services = {port: it for port, it in services.items() if it is not service}
                    if client in ready:
                        got.append(told(client))
                        break
            cases.same(f"port {first} is first: no ask is denied", [(tag, what) for tag, what, _ in got], [(tag, "granted") for tag in range(30)])
            cases.same(f"port {first} is first: the versions", [version for _, _, (_, version) in got], [1] * 10 + [2] * 20)
            cases.same(f"port {first} is first: those that stay", sorted(services), [1, 2] if first == 1 else [2])
            if first == 2:
                back = Service(guard, 2, b"YY", port=1)
                cases.check("the first one comes back with the newer set", guard.await_line(b"avguard: service of version 2 connected\n"), guard.lines())
                back.close()


def a_port_has_one_service(cases, program):
    with Guard(program, "--wait", "20", clamd=False) as guard:
        path = guard.write("set", b"avsig 1\nversion 1\nx 5858\n")
        spare, waits = greeted(guard, port=2), connected(guard.service)
        waits.sendall(hello(1, 2))
        cases.check("a second spare stands by", is_silent(waits), "it was told something")
        done = subprocess.run([program, "service", "--spare", "--wait", "5", guard.service, path], capture_output=True, timeout=SECONDS)
        cases.same("a third one", (done.returncode, done.stderr), (1, b"avscan: %s: refused: a service and one that stands by are there\n" % guard.service.encode()))
        first = greeted(guard)
        cases.check("the first port has a place of its own", b"avguard: service of version 1 connected\n" in guard.lines(), guard.lines())
        spare.close()
        cases.check("who stood by is the spare", guard.await_line(b"avguard: spare of version 1 connected\n", 2), guard.lines())
        first.sendall(message(8, number(7), port=2))
        cases.same("a service that names the other port is closed", rest(first), b"")
        cases.check("it is lost", guard.await_line(b"avguard: service lost\n"), guard.lines())
        waits.close()
        guard.await_line(b"avguard: spare lost\n", 2)
        client = connected(guard.opens)
        client.sendall(ask(1, b"nobody"))
        cases.same("without either nothing is judged", told(client), (1, "denied", 3))
        silent = [connected(guard.service) for _ in range(2)]
        cases.check("two that do not greet are waited for", all(map(is_silent, silent)), "they were told something")
        cases.same("a third that comes meanwhile is turned away", rest(connected(guard.service)), struct.pack(">IBBQ", 10, 255, 3, 0))


def who_is_turned_away(cases, program):
    with Guard(program, "--wait", "20", clamd=False) as guard:
        path = guard.write("old", b"avsig 1\nversion 1\nx 5858\n")
        newer = greeted(guard, 5)
        newer.close()
        guard.await_line(b"service lost\n")

        def service(at, *words):
            done = subprocess.run([program, "service", "--wait", "5", *words, at, path], capture_output=True, timeout=SECONDS)
            return done.returncode, done.stdout, done.stderr

        said = lambda at, why: (1, b"", b"avscan: %s: refused: %s\n" % (at.encode(), why))
        cases.same("an older set", service(guard.service), said(guard.service, b"version 1 is older than 5"))
        cases.same("at the socket for opens", service(guard.opens), said(guard.opens, b"no scanning service is taken at this socket"))
        one, two = greeted(guard, 5), connected(guard.service)
        two.sendall(hello(6))
        cases.check("one stands by", is_silent(two), "it was told something")
        cases.same("a third one", service(guard.service), said(guard.service, b"a service and one that stands by are there"))
        one.close()
        two.close()
    with Guard(program, "--least", "5", "--most-version", "9", clamd=False) as guard:
        path = guard.write("old", b"avsig 1\nversion 4\nx 5858\n")
        cases.same("a set below --least", subprocess.run([program, "service", guard.service, path], capture_output=True).stderr, b"avscan: %s: refused: version 4 is older than 5\n" % guard.service.encode())
        path = guard.write("new", b"avsig 1\nversion 10\nx 5858\n")
        cases.same("a set above --most-version", subprocess.run([program, "service", guard.service, path], capture_output=True).stderr, b"avscan: %s: refused: version 10 is above 9\n" % guard.service.encode())
        cases.check("both are reported", guard.await_line(b"service of version 4 is older than 5\n") and guard.await_line(b"service of version 10 is above 9\n"), guard.lines())
        service = greeted(guard, 9)
        service.sendall(message(8, number(10)))
        cases.check("nor does a connected one rise above it", guard.await_line(b"service lost\n"), guard.lines())


def the_floor_is_kept(cases, program):
    with tempfile.TemporaryDirectory() as folder:
        state = os.path.join(folder, "state")
        with Guard(program, "--state", state, clamd=False) as guard:
            greeted(guard, 7).close()
            guard.await_line(b"service lost\n")
            cases.same("the version that was believed is kept", open(state, "rb").read(), b"version 7\n")
            cases.same("nothing else is left", os.listdir(folder), ["state"])
        with Guard(program, "--state", state, clamd=False) as guard:
            old = connected(guard.service)
            old.sendall(hello(6))
            cases.check("an older set is turned away after a restart", guard.await_line(b"service of version 6 is older than 7\n"), guard.lines())
            greeted(guard, 8)
            limit = time.time() + SECONDS
            while open(state, "rb").read() != b"version 8\n" and time.time() < limit:
                time.sleep(0.01)
            cases.same("a newer one is kept", open(state, "rb").read(), b"version 8\n")
        with Guard(program, "--state", os.path.join(folder, "none", "state"), clamd=False) as guard:
            greeted(guard, 3)
            line = b"avguard: %s: cannot write that version 3 was believed\n" % os.path.join(folder, "none", "state").encode()
            cases.check("a file that can't be written is reported", guard.await_line(line), guard.lines())
        for content in (b"", b"version\n", b"version 7", b"version 07\n", b"version 7\n\n", b"x" * 100):
            open(state, "wb").write(content)
            done = subprocess.run([program_beside(program, "avguard"), "run", "--state", state, os.path.join(folder, "o"), os.path.join(folder, "s")], capture_output=True, timeout=SECONDS)
            cases.same(f"a file that says {content[:20]!r}", (done.returncode, done.stderr), (4, b"avguard: %s: is no file that a guard keeps a version in\n" % state.encode()))


def a_prepared_reply_is_none(cases, program):
    for turn in range(6):
        with Guard(program, "--wait", "2", clamd=False) as guard:
            service = greeted(guard)
            service.sendall(message(7, number(1), number(1), b"\0", number(1)))
            client = connected(guard.opens)
            client.sendall(ask(1, b"never judged"))
            cases.same("a reply that came before its question grants nothing", told(client), (1, "denied", 5))


def good_before_bad(cases, program):
    with Guard(program, clamd=False) as guard:
        service, client = Service(guard, 1, b"XX"), connected(guard.opens)
        guard.await_line(b"connected\n")
        client.sendall(ask(1, b"one") + ask(2, b"two XX") + frame(9, number(3)))
        limit, got = time.time() + SECONDS, b""
        client.setblocking(False)
        while time.time() < limit:
            for ready in select.select([service, client], [], [], 0.05)[0]:
                if ready is service:
                    service.turn()
                    continue
                piece = client.recv(65536)
                got += piece
                if not piece:
                    limit = 0
        cases.same("what was asked before a bad frame is answered before the end", [verdict(body) for body in frames(got)[0]], [(1, "granted", (2, 1)), (2, "denied", 2)])


def places_are_kept(cases, program):
    with Guard(program, clamd=False, descriptors=64) as guard:
        idle = [connected(guard.opens) for _ in range(100)]
        service = Service(guard, 1, b"XX")
        cases.check("a service is let in where idle clients have all places", guard.await_line(b"connected\n"), guard.lines())
        client = connected(guard.opens)
        client.sendall(ask(1, b"new"))
        cases.check("so is a client", serves(service, client), guard.lines())
        cases.same("it is answered", told(client), (1, "granted", (2, 1)))
        cases.check("the longest idle one is closed for it", rest(idle[0], 5) == b"", "it is not")
        cases.check("that is reported", guard.await_line(b"avguard: the longest idle client was closed: all places are taken\n"), guard.lines())
        service.close()
        guard.await_line(b"service lost\n")
        again = Service(guard, 1, b"XX")
        cases.check("a service is let in again", guard.await_line(b"connected\n", 2), guard.lines())
        again.close()
    with tempfile.TemporaryDirectory() as folder:
        words = ["prlimit", "--nofile=18:18", program_beside(program, "avguard"), "run", os.path.join(folder, "o"), os.path.join(folder, "s")]
        done = subprocess.run(words, capture_output=True, timeout=SECONDS)
        cases.same("too few descriptors", (done.returncode, done.stderr, os.listdir(folder)), (4, b"avguard: a guard needs 19 descriptors (ulimit -n)\n", []))


def standard_error_keeps_nobody(cases, program):
    reader, writer = os.pipe()
    fcntl.fcntl(writer, F_SETPIPE_SZ, 4096)
    with Guard(program, clamd=False, stderr=writer) as guard:
        os.close(writer)
        client = connected(guard.opens)
        for turn in range(3000):
            end = connected(guard.service)
            end.settimeout(SECONDS)
            end.sendall(hello(1))
            end.shutdown(socket.SHUT_WR)
            rest(end)
            end.close()
        client.sendall(ask(1, b"a"))
        cases.same("a client is answered though nobody reads standard error", told(client), (1, "denied", 3))
        said, limit = b"", time.time() + SECONDS
        while b" lines were dropped\n" not in said and time.time() < limit:
            if select.select([reader], [], [], 0.2)[0]:
                said += os.read(reader, 65536)
            client.sendall(ask(2, b"a"))
            told(client)
        cases.check("what was dropped is counted once it is read, as avguard: 12 lines were dropped", re.search(rb"avguard: (\d+) lines were dropped\n", said), said[-300:])
    os.close(reader)


def sockets_are_made_safely(cases, program):
    with Guard(program, "--mode", "666") as guard:
        for path in (guard.opens, guard.service, guard.service + ".parts", guard.clamd, guard.opens + ".status"):
            connected(path).close()
        modes = lambda guard: [os.stat(path).st_mode & 0o777 for path in (guard.opens, guard.clamd, guard.opens + ".status", guard.service, guard.service + ".parts")]
        cases.same("--mode is not of the service's socket", modes(guard), [0o666, 0o666, 0o666, 0o600, 0o600])
    with Guard(program, "--service-mode", "660") as guard:
        for path in (guard.opens, guard.service, guard.service + ".parts", guard.clamd, guard.opens + ".status"):
            connected(path).close()
        cases.same("--service-mode is of it alone", modes(guard), [0o600, 0o600, 0o600, 0o660, 0o660])
        cases.same("nothing else is left", sorted(os.listdir(guard.folder)), ["c", "log", "o", "o.status", "s", "s.parts"])
    with tempfile.TemporaryDirectory() as folder:
        path = os.path.join(folder, "o")
        listener = socket.socket(socket.AF_UNIX)
        listener.bind(path)
        listener.listen(0)
        waiting = []
        for _ in range(100):
            end = socket.socket(socket.AF_UNIX)
            end.setblocking(False)
            waiting.append(end)
            try:
                end.connect(path)
            except BlockingIOError:
                break
        open(os.path.join(folder, "a"), "wb").write(b"A")
        for at, *words in ([program_beside(program, "avguard"), "run", path, os.path.join(folder, "s")], [program, "filter", "--wait", "30", path, os.path.join(folder, "a")]):
            begun, name = time.time(), os.path.basename(at)
            done = subprocess.run([at, *words], capture_output=True, timeout=SECONDS)
            cases.same(f"{name} {words[0]} where somebody listens whose line is full", (done.returncode, done.stderr.splitlines()[-1:]), (4, [f"{name}: {path}: another filter waits there".encode()]))
            cases.check(f"{name} {words[0]} says so at once", time.time() - begun < 20, f"{time.time() - begun:.1f} s")
        cases.same("nothing is left beside it", sorted(os.listdir(folder)), ["a", "o"])


def main():
    if len(sys.argv) != 2:
        sys.exit("usage: tests/waits.py PROGRAM")
    cases, program = Cases(), os.path.abspath(sys.argv[1])
    for part in (nobody_is_forgotten, what_is_begun_ends, known_contents_do_not_wait, a_hung_service_gives_way,
                 a_quiet_service_leaves_its_questions, two_services_are_updated, a_port_has_one_service, who_is_turned_away, the_floor_is_kept,
                 a_prepared_reply_is_none, good_before_bad, places_are_kept, standard_error_keeps_nobody, sockets_are_made_safely):
        begun = time.time()
        try:
            part(cases, program)
        except Exception as fault:
            cases.check(part.__name__, False, f"{type(fault).__name__}: {fault}")
        print(f"{part.__name__}: {time.time() - begun:.1f} s", file=sys.stderr)
    print(f"{cases.passed} passed, {cases.failed} failed")
    sys.exit(1 if cases.failed else 0)


if __name__ == "__main__":
    main()
