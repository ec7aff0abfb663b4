#!/usr/bin/env python3
"""`avscan service SOCKET SET --watch SECONDS` as a process: which states of the file it takes and which it does not, what it says of each
on standard error, and what the filter hears, byte by byte. A filter of bytes stands at the socket, and in one case a guard that is asked
all the while. Each case has a folder and a thread of its own, since most of its time is waiting between looks.
The last line says how many passed and how many failed."""
import concurrent.futures, os, select, shutil, socket, struct, subprocess, sys, tempfile, threading, time

from cases import Cases
from programs import program_beside
from guard import connected, frame, frames, hello, message, number

SECONDS = 60
QUIET = 3.3           # longer than three looks: nothing is taken that is not taken by then
SCAN, CHUNK, READ, REPLY, UPDATED = 1, 2, 6, 7, 8


def signatures(version, *patterns):
    return b"avsig 1\nversion %d\n" % version + b"".join(b"s%d %s\n" % (place, pattern.hex().encode()) for place, pattern in enumerate(patterns))


def scan(seq, length):
    return message(SCAN, number(1), number(seq), number(seq), number(2), number(length))


def read(seq, length):
    return message(READ, number(1), number(seq), number(0), struct.pack(">I", length))


def chunk(seq, content):
    return message(CHUNK, number(1), number(seq), number(0), content)


def clean(seq, version):
    return message(REPLY, number(1), number(seq), b"\0", number(version))


def infected(seq, version, index, end):
    return message(REPLY, number(1), number(seq), b"\1", number(version), struct.pack(">I", index), number(end))


def updated(version):
    return message(UPDATED, number(version))


class Service:
    """A service that watches a file in a folder of its own, and the filter that it speaks to."""

    def __init__(self, program, content, *words, environment=None):
        self.room = tempfile.TemporaryDirectory()
        self.folder, self.program = self.room.name, program
        self.set, self.socket = os.path.join(self.folder, "set"), os.path.join(self.folder, "s")
        self.write(self.set, content)
        door = socket.socket(socket.AF_UNIX)
        door.bind(self.socket)
        door.listen()
        self.log = open(os.path.join(self.folder, "log"), "w+b")
        self.process = subprocess.Popen([program, "service", self.socket, self.set, *(words or ("--watch", "1"))], stdin=subprocess.DEVNULL, stdout=subprocess.PIPE, stderr=self.log, env=environment)
        self.end, self.had = None, b""
        limit = time.time() + SECONDS
        while self.end is None and self.process.poll() is None and time.time() < limit:
            if select.select([door], [], [], 0.02)[0]:
                self.end, _ = door.accept()
        door.close()

    def __enter__(self):
        return self

    def __exit__(self, *fault):
        self.process.kill()
        self.process.communicate()
        if self.end is not None:
            self.end.close()
        self.log.close()
        self.room.cleanup()

    def write(self, path, content):
        with open(path, "wb") as file:
            file.write(content)

    def put(self, content):
        """Another file in its place, at once."""
        beside = self.set + ".new"
        self.write(beside, content)
        os.rename(beside, self.set)

    def say(self, *sent):
        self.end.sendall(b"".join(sent))

    def hear(self, wanted, seconds=SECONDS):
        """So many bytes as are wanted, or what came in the time."""
        limit = time.time() + seconds
        while len(self.had) < len(wanted) and select.select([self.end], [], [], max(0, limit - time.time()))[0]:
            more = self.end.recv(65536)
            if not more:
                break
            self.had += more
        got, self.had = self.had[:len(wanted)], self.had[len(wanted):]
        return got

    def is_silent(self, seconds=QUIET):
        return not self.had and not select.select([self.end], [], [], seconds)[0]

    def lines(self):
        with open(self.log.name, "rb") as log:
            return log.read()

    def await_lines(self, wanted):
        limit = time.time() + SECONDS
        while self.lines() != wanted and time.time() < limit and self.process.poll() is None:
            time.sleep(0.01)
        return self.lines()

    def told(self, line):
        """A line that names the signature file."""
        return line % os.fsencode(self.set)

    def judge(self, seq, content, reply):
        """Whether the service replies so to a content."""
        self.say(scan(seq, len(content)))
        wanted = read(seq, len(content))
        got = self.hear(wanted)
        self.say(chunk(seq, content))
        return (got, self.hear(reply)) == (wanted, reply)

    def close(self):
        """Closes the connection: how the service ends."""
        self.end.shutdown(socket.SHUT_WR)
        out, _ = self.process.communicate(timeout=SECONDS)
        return self.process.returncode, out

    def memory(self):
        with open(f"/proc/{self.process.pid}/status") as status:
            return next(int(line.split()[1]) for line in status if line.startswith("VmRSS:"))

    def descriptors(self):
        return len(os.listdir(f"/proc/{self.process.pid}/fd"))

    def seconds(self):
        """The processor's seconds that it took so far."""
        with open(f"/proc/{self.process.pid}/stat") as stat:
            words = stat.read().rpartition(")")[2].split()
        return (int(words[11]) + int(words[12])) / os.sysconf("SC_CLK_TCK")


X, Y = signatures(1, b"XX"), signatures(2, b"AB")


def a_newer_set_begins_the_jobs_anew(cases, program):
    with Service(program, X) as service:
        cases.same("a watching service greets", service.hear(hello(1)), hello(1))
        service.say(scan(1, 3))
        cases.same("a watching service reads", service.hear(read(1, 3)), read(1, 3))
        service.put(Y)
        wanted = bytes.fromhex("0000000a 0801 0000000000000002 0000001e 0601 0000000000000001 0000000000000001 0000000000000000 00000003")
        cases.same("Updated, and the job's read again", service.hear(wanted), wanted)
        service.say(chunk(1, b"ABC"))
        reply = infected(1, 2, 0, 2)
        cases.same("the reply is of the newer version", service.hear(reply), reply)
        cases.check("a rename is taken once", service.is_silent())
        cases.same("a watching service ends as another one", service.close(), (0, b"closed\n"))
        cases.same("the version is said", service.lines(), b"avscan: version 2, 1 signatures\n")


def appends_are_taken_once_behind_the_last(cases, program):
    for pause in (0.06, 0.7):
        with Service(program, X) as service:
            service.hear(hello(1))
            with open(service.set, "wb") as file:
                file.write(b"avsig 1\nversion 2\n")
                file.flush()
                for place in range(8):
                    time.sleep(pause)
                    file.write(b"s%d %02x%02x\n" % (place, 0x41 + place, 0x41 + place))
                    file.flush()
            cases.same(f"eight appends {pause} s apart are taken", service.hear(updated(2)), updated(2))
            cases.check(f"eight appends {pause} s apart are taken whole", service.judge(1, b"xxHH", infected(1, 2, 7, 4)))
            cases.check(f"eight appends {pause} s apart are taken once", service.is_silent())
            cases.same(f"eight appends {pause} s apart are told once", service.lines(), b"avscan: version 2, 8 signatures\n")


def a_copy_that_stays_cut_is_told_and_not_taken(cases, program):
    with Service(program, X) as service:
        service.hear(hello(1))
        whole = signatures(2, b"AB", b"CD")
        service.write(service.set, whole[:-3])
        cases.same("a cut copy is told", service.await_lines(b"avscan: set line 4: kind 8\n"), b"avscan: set line 4: kind 8\n")
        cases.check("a cut copy is told once, and the filter hears nothing", service.is_silent() and service.lines().count(b"\n") == 1)
        cases.check("the service goes on under the set that it has", service.judge(1, b"XX", infected(1, 1, 0, 2)))
        service.write(service.set, whole)
        cases.same("the whole copy is taken", service.hear(updated(2)), updated(2))
        cases.check("the whole copy is judged by", service.judge(2, b"XXCD", infected(2, 2, 1, 4)))
        cases.same("both are told", service.lines(), b"avscan: set line 4: kind 8\navscan: version 2, 2 signatures\n")


def older_versions_and_the_same_one_are_told(cases, program):
    with Service(program, signatures(3, b"XX")) as service:
        service.hear(hello(3))
        service.put(signatures(2, b"AB"))
        told = service.told(b"avscan: %s: version 2 is not above 3\n")
        cases.same("an older version is told", service.await_lines(told), told)
        service.put(signatures(3, b"AB"))
        told += service.told(b"avscan: %s: version 3 is not above 3\n")
        cases.same("the same version is told", service.await_lines(told), told)
        cases.check("neither is taken", service.judge(1, b"ABXX", infected(1, 3, 0, 4)))
        service.put(signatures(18446744073709551615, b"AB"))
        cases.same("the greatest version is taken", service.hear(updated(18446744073709551615)), updated(18446744073709551615))
        service.put(signatures(5, b"AB"))
        told += b"avscan: version 18446744073709551615, 1 signatures\n" + service.told(b"avscan: %s: version 5 is not above 18446744073709551615\n")
        cases.same("a version below the greatest is told", service.await_lines(told), told)


def bad_files_are_told_and_the_service_goes_on(cases, program):
    with Service(program, X) as service:
        service.hear(hello(1))
        told = b""
        for content, line in ((b"avsig 3\nversion 2\n", b"avscan: set line 1: kind 1\n"), (b"", b"avscan: set line 1: kind 8\n"), (b"avsig 1\nversion 2\na 4\n", b"avscan: set line 3: kind 4\n"),
                              (signatures(2) + b"a 41\n" * (1 << 18), service.told(b"avscan: %s: TooLarge\n"))):
            service.put(content)
            told += line
            cases.same(f"a bad file is told: {line}", service.await_lines(told), told)
            cases.check(f"the service goes on behind {line}", service.judge(told.count(b"\n"), b"XX", infected(told.count(b"\n"), 1, 0, 2)))
        os.unlink(service.set)
        os.symlink("/proc/self/mem", service.set)
        told += service.told(b"avscan: %s: cannot read\n")
        cases.same("a file that can't be read is told", service.await_lines(told), told)
        os.unlink(service.set)
        service.put(Y)
        cases.same("a good file behind bad ones is taken", service.hear(updated(2)), updated(2))


def a_file_that_goes_away_is_no_set(cases, program):
    with Service(program, X) as service:
        service.hear(hello(1))
        aside = service.set + ".aside"
        os.rename(service.set, aside)
        cases.check("a file that is gone is waited for", service.is_silent() and service.lines() == b"")
        os.rename(aside, service.set)
        again = service.told(b"avscan: %s: version 1 is not above 1\n")
        told = again
        cases.same("the same file back again is read, and is nothing new", service.await_lines(told), told)
        for make in (os.mkdir, os.mkfifo):
            os.rename(service.set, aside)
            make(service.set)
            cases.check(f"{make.__name__}: what is no regular file is not read", service.is_silent() and service.lines() == told)
            (os.rmdir if make is os.mkdir else os.unlink)(service.set)
            os.rename(aside, service.set)
            told += again
            cases.same(f"{make.__name__}: the file behind it is", service.await_lines(told), told)
        cases.check("the service goes on meanwhile", service.judge(1, b"XX", infected(1, 1, 0, 2)))
        os.unlink(service.set)
        service.put(Y)
        cases.same("another file in its place is taken", service.hear(updated(2)), updated(2))
        cases.same("its version is told", service.lines(), told + b"avscan: version 2, 1 signatures\n")


def a_file_that_is_written_in_place_with_its_time_put_back_is_taken(cases, program):
    with Service(program, X) as service:
        service.hear(hello(1))
        before = os.stat(service.set)
        with open(service.set, "r+b") as file:
            file.write(Y)
        os.utime(service.set, ns=(before.st_atime_ns, before.st_mtime_ns))
        after = os.stat(service.set)
        cases.check("its length and time are as they were", (before.st_size, before.st_mtime_ns) == (after.st_size, after.st_mtime_ns))
        cases.same("it is taken all the same", service.hear(updated(2)), updated(2))


def a_set_without_signatures_is_told_and_not_taken(cases, program):
    empty = b"avsig 1\nversion 2\n"
    with Service(program, X) as service:
        service.hear(hello(1))
        service.put(empty)
        told = service.told(b"avscan: %s: version 2 has no signatures\n")
        cases.same("it is told", service.await_lines(told), told)
        cases.check("the service goes on under the set that it has", service.judge(1, b"XX", infected(1, 1, 0, 2)))
    with Service(program, X, "--watch", "1", "--allow-empty") as service:
        service.hear(hello(1))
        service.put(empty)
        cases.same("with --allow-empty it is taken", service.hear(updated(2)), updated(2))
        told = service.told(b"avscan: %s: version 2 has no signatures\n") + b"avscan: version 2, 0 signatures\n"
        cases.same("and told too", service.await_lines(told), told)


def many_versions_leave_no_memory_but_their_sets(cases, program):
    """Each automaton has some 2.4 MiB here, and each set some 50 KiB."""
    def patterns(version):
        return [struct.pack(">IIQ", version, place, 0x5a5a5a5a5a5a5a5a) for place in range(300)]
    with Service(program, signatures(1, *patterns(1))) as service:
        service.hear(hello(1))
        sizes, open_then = [], service.descriptors()
        for version in range(2, 12):
            service.put(signatures(version, *patterns(version)))
            cases.same(f"version {version} is taken", service.hear(updated(version)), updated(version))
            cases.check(f"version {version} is judged by", service.judge(version, patterns(version)[299], infected(version, version, 299, 16)))
            sizes.append(service.memory())
        cases.check("memory grows by the sets alone", sizes[-1] - sizes[1] < 8 * 256, f"KiB: {sizes}")
        cases.same("no descriptor is lost", service.descriptors(), open_then)


def an_idle_service_waits_and_does_not_spin(cases, program):
    with Service(program, X, "--watch", "1", "--wait", "1") as service:
        service.hear(hello(1))
        before = service.seconds()
        cases.check("an idle filter is waited for longer than --wait", service.is_silent(6) and service.process.poll() is None)
        cases.check("an idle service that watches takes next to no time", service.seconds() - before < 0.1, f"{service.seconds() - before} s of 6")
        service.put(Y)
        cases.same("an idle service looks at its file", service.hear(updated(2)), updated(2))
    with Service(program, X, "--watch", "1", "--wait", "1") as service:
        service.hear(hello(1))
        service.say(scan(1, 3)[:6])
        service.process.wait(SECONDS)
        lines = service.lines()
        wanted = b"avscan: " + os.fsencode(service.socket) + b": the filter was lost\n"
        cases.same("a message that is not whole within --wait is a lost filter", (service.process.returncode, lines), (4, wanted))
    with Service(program, X, "--watch", "86400") as service:
        service.hear(hello(1))
        service.put(Y)
        cases.check("nobody looks before it is time", service.is_silent(4) and service.lines() == b"")


def a_busy_service_looks_at_its_file(cases, program):
    with Service(program, X) as service:
        service.hear(hello(1))
        service.put(Y)
        limit, seq, seen = time.time() + 30, 0, False
        while time.time() < limit and not seen:
            seq += 1
            service.say(scan(seq, 3))
            got = service.hear(read(seq, 3))
            seen = got[:5] == updated(2)[:5]
            if not seen:
                service.say(chunk(seq, b"xyz"))
                got = service.hear(clean(seq, 1))
                seen = got[:5] == updated(2)[:5]
        cases.check("a service that is never idle takes a newer set", seen, f"{seq} scans")


def memory_that_is_refused_is_told(cases, program, refused_at):
    """The Nth request for memory behind the start is refused: the set is taken or it is told that it was not, and the service goes on
    under the one that it has, or ends with that line."""
    with tempfile.TemporaryDirectory() as work:
        library = os.path.join(work, "fail_nth.so")
        subprocess.run(["cc", "-shared", "-fPIC", "-O1", "-o", library, os.path.join(os.path.dirname(os.path.abspath(__file__)), "fail_nth.c"), "-ldl"], check=True)
        for nth in refused_at:
            with Service(program, X, environment=dict(os.environ, LD_PRELOAD=library, FAIL_NTH=str(nth))) as service:
                if service.end is None or service.hear(hello(1)) != hello(1):
                    cases.same(f"request {nth} refused: no service", (service.process.wait(SECONDS), service.lines()), (3, b"avscan: no memory\n"))
                    continue
                service.put(Y)
                limit = time.time() + SECONDS
                while not service.lines().endswith(b"\n") and time.time() < limit and service.process.poll() is None:
                    time.sleep(0.01)
                lines, status = service.lines(), service.process.poll()
                if lines == b"avscan: version 2, 1 signatures\n":
                    holds = service.hear(updated(2)) == updated(2) and service.judge(1, b"AB", infected(1, 2, 0, 2))
                elif status is None:
                    holds = lines == b"avscan: no memory\n" and service.judge(1, b"XX", infected(1, 1, 0, 2))
                else:
                    holds = (status, lines) == (3, b"avscan: no memory\n")
                cases.check(f"request {nth} refused", holds, f"status {status}, {lines!r}")


def a_service_without_standard_error_says_its_lines_nowhere(cases, program):
    """Above all not to the filter, whose connection would else have the number of standard error."""
    with tempfile.TemporaryDirectory() as folder:
        without = os.path.join(folder, "without")
        # (a process of its own writes it: a child that another thread forks meanwhile would hold it open, and it could not be run)
        script = f"#!/bin/sh\nexec '{program}' \"$@\" 2>&-\n"
        subprocess.run(["sh", "-c", 'cat > "$0" && chmod 700 "$0"', without], input=script.encode(), check=True)
        with Service(without, X) as service:
            service.hear(hello(1))
            service.put(Y)
            cases.same("a service without standard error takes a newer set", service.hear(updated(2)), updated(2))
            cases.check("and says nothing else to the filter", service.is_silent() and service.judge(1, b"AB", infected(1, 2, 0, 2)))


def a_guard_is_asked_all_the_while(cases, program):
    with tempfile.TemporaryDirectory() as folder:
        path = lambda name: os.path.join(folder, name)
        with open(path("set"), "wb") as file:
            file.write(X)
        guard = subprocess.Popen([program_beside(program, "avguard"), "run", path("o"), path("s")], stderr=subprocess.PIPE)
        connected(path("o")).close()
        service = subprocess.Popen([program, "service", path("s"), path("set"), "--watch", "1"], stdout=subprocess.PIPE, stderr=subprocess.PIPE)
        end, versions, had, denied = connected(path("o")), [], b"", 0
        limit, tag = time.time() + 30, 0
        while time.time() < limit and (not versions or versions[-1] != 2):
            tag += 1
            content = b"content %d" % tag
            end.sendall(frame(1, number(tag), b"\0", content))
            while True:
                answers, had = frames(had)
                if answers:
                    break
                had += end.recv(65536)
            answer = answers[0]
            if answer[0] == 2:
                versions.append(struct.unpack(">Q", answer[17:25])[0])
                if len(versions) == 5:
                    with open(path("new"), "wb") as file:
                        file.write(Y)
                    os.rename(path("new"), path("set"))
            elif versions:
                denied += 1
            else:
                time.sleep(0.01)
        cases.check("each ask is granted, by the first version and then by the second", denied == 0 and versions == sorted(versions) and set(versions) == {1, 2}, f"{denied} denied, {sorted(set(versions))}")
        end.sendall(frame(1, number(0), b"\0", b"XX AB"))
        while not (answers := frames(had)[0]):
            had += end.recv(65536)
        cases.same("what the newer set knows is denied", answers[0], b"\3" + number(0) + b"\2")
        end.close()
        guard.kill()
        told = guard.communicate()[1]
        connections = b"avguard: service of version 1 connected\n", b"avguard: parts connected\n"
        cases.same("the guard keeps its service and its parts", sorted(told.splitlines(True)), sorted(connections))
        out, err = service.communicate(timeout=SECONDS)
        cases.same("the service ends with the guard", (service.returncode, out, err), (0, b"closed\n", b"avscan: version 2, 1 signatures\n"))


def main():
    if len(sys.argv) != 2:
        sys.exit("usage: tests/watch.py PROGRAM")
    program, cases = os.path.abspath(sys.argv[1]), Cases()
    parts = [a_newer_set_begins_the_jobs_anew, appends_are_taken_once_behind_the_last, a_copy_that_stays_cut_is_told_and_not_taken, older_versions_and_the_same_one_are_told,
             bad_files_are_told_and_the_service_goes_on, a_file_that_goes_away_is_no_set, a_file_that_is_written_in_place_with_its_time_put_back_is_taken,
             a_set_without_signatures_is_told_and_not_taken, many_versions_leave_no_memory_but_their_sets, an_idle_service_waits_and_does_not_spin,
             a_busy_service_looks_at_its_file, a_service_without_standard_error_says_its_lines_nowhere, a_guard_is_asked_all_the_while]
    jobs = [(part, ()) for part in parts] + [(memory_that_is_refused_is_told, (range(first, 100, 10),)) for first in range(1, 11)]

    def tried(job):
        part, more = job
        begun = time.time()
        try:
            part(cases, program, *more)
        except Exception as fault:
            cases.check(part.__name__, False, f"{type(fault).__name__}: {fault}")
        print(f"{part.__name__}: {time.time() - begun:.1f} s", file=sys.stderr)

    with concurrent.futures.ThreadPoolExecutor(len(jobs)) as pool:
        list(pool.map(tried, jobs))
    print(f"{cases.passed} passed, {cases.failed} failed")
    sys.exit(1 if cases.failed else 0)


if __name__ == "__main__":
    main()
