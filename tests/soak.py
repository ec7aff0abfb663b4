#!/usr/bin/env python3
"""`avguard run` for long, beside everything that happens to it: `soak.py PROGRAM [SECONDS]`, 60 s if none are said; `make soak HOURS=H` runs it for hours.

A guard with a scanning service of the product that watches its signature file. Four honest clients ask all the time, about contents that are
known, new, and infected. Meanwhile newer signature files are put in place, the service is killed, stopped for a while and begun again, and
hostile clients and services say broken frames, half of an ask, or nothing at all, and leave.
Each answer is looked at: a grant names a version, and no signature of that version stands in the content; it never names an older version than
the client's grant before; a content with a signature of every set is never granted; each ask has one answer. Memory and descriptors are read each second: in
the last third of the time neither the guard nor the service holds more than in the third before it, but for what a moment needs.

Then the same for half as long with two services, the second with `--spare`. One of them at a time is killed, ended or stopped, and begun again
once that was seen; newer sets are put in place for one after the other. Not one honest ask is denied but for what a set finds.
The last line says how many passed and how many failed."""
import itertools, os, random, signal, subprocess, sys, threading, time

from cases import Cases
from guard import SETTLED, Guard, ask, connected, heard, message
from watch import signatures

SECONDS = 60
HONEST = 4
HOSTILE = 2
ALWAYS = b"ALWAYSFOUND"
PATIENCE = 60         # seconds in which an answer comes, also while the service is stopped
# Bytes that a moment may need beside what is held: 4 MiB of output, contents and audits on their way.
SLACK = 4 * 1024      # KiB
GRANTED, DENIED = 2, 3


def pattern_of(version):
    """The signature that a set of this version has beside that of every set, and no other one."""
    return b"SIGNATURE%dEND" % version


class Soak:
    def __init__(self, program, guard, until):
        self.program, self.guard, self.until, self.ended = program, guard, until, threading.Event()
        self.version, self.scanner, self.wrong, self.counts, self.lock = 0, None, [], {}, threading.Lock()
        self.set, self.words = os.path.join(guard.folder, "set"), []

    def goes_on(self):
        return time.time() < self.until and not self.ended.is_set()

    def count(self, what, by=1):
        with self.lock:
            self.counts[what] = self.counts.get(what, 0) + by

    def fault(self, text):
        with self.lock:
            self.wrong.append(text)

    def publish(self):
        """A newer signature file by a rename, as a user puts one in place."""
        self.version += 1
        path = self.guard.write("set.new", signatures(self.version, ALWAYS, pattern_of(self.version)))
        os.rename(path, self.set)
        self.count("sets")

    def start(self):
        words = [self.program, "service", "--watch", "1", *self.words, self.guard.service, self.set]
        with open(self.set + ".lines", "ab") as lines:
            self.scanner = subprocess.Popen(words, stdin=subprocess.DEVNULL, stdout=subprocess.DEVNULL, stderr=lines)

    def lines(self):
        """What the services of this set have said."""
        with open(self.set + ".lines", "rb") as lines:
            return lines.read()

    def end_service(self):
        self.scanner.kill()
        self.scanner.wait()

    def disturb(self):
        """What happens to the service and its signature file."""
        noise = random.Random(1)
        while self.goes_on():
            self.ended.wait(noise.uniform(0.5, 3))
            what = noise.choice(("publish", "publish", "kill", "stop", "ends"))
            if what == "publish":
                self.publish()
            elif what == "kill":
                self.end_service()
                self.ended.wait(noise.choice((0, 0, 0.5)))
                self.start()
                self.count("services killed")
            elif what == "stop":
                self.scanner.send_signal(signal.SIGSTOP)
                self.ended.wait(noise.uniform(0.1, 1.5))
                self.scanner.send_signal(signal.SIGCONT)
                self.count("services stopped for a while")
            elif self.scanner.poll() is not None:
                self.start()
                self.count("services that had ended")

    def be_honest(self, place):
        noise, end, tag, floor = random.Random(100 + place), None, 0, 0
        known = [b"known %d " % i + bytes(i * 997 % 60_000) for i in range(30)]
        while self.goes_on():
            end = end or connected(self.guard.opens)
            tag += 1
            version = noise.randrange(max(1, self.version - 3), self.version + 2)
            content, found = noise.choice(((noise.choice(known), 0), (noise.randbytes(noise.randrange(1, 20_000)), 0), (b"x" * noise.randrange(300) + ALWAYS, 1), (noise.randbytes(50) + pattern_of(version), 0)))
            end.settimeout(PATIENCE)
            try:
                end.sendall(ask(tag, content))
            except OSError as fault:
                self.fault(f"client {place} could not ask: {fault}")
                return
            got = heard(end, 14, PATIENCE)
            got += heard(end, 15, PATIENCE) if got[4:5] == bytes([GRANTED]) else b""
            floor = self.look(place, tag, content, found, floor, got)
            if noise.random() < 0.01:
                end.close()
                end = None
        if end:
            end.close()

    def look(self, place, tag, content, found, floor, got):
        """Whether an answer is right: the version of the client's last grant behind it."""
        if len(got) < 14 or int.from_bytes(got[5:13], "big") != tag:
            self.fault(f"client {place}, ask {tag}: {got!r}")
            self.ended.set()
            return floor
        if got[4] == DENIED:
            self.count(f"denied {got[13]}")
            if got[13] == 2 and not found and b"SIGNATURE" not in content:
                self.fault(f"client {place}: {content[:60]!r} was denied as infected")
            return floor
        version = int.from_bytes(got[21:29], "big")
        self.count("granted")
        if found or pattern_of(version) in content:
            self.fault(f"client {place}: {content[:60]!r} was granted under version {version}")
        if version < floor or version > self.version:
            self.fault(f"client {place}: version {version} behind {floor}, and {self.version} is the newest")
        return version

    def be_hostile(self, place):
        noise = random.Random(200 + place)
        said = [ask(1, b"abc"), message(7, bytes(8), bytes(8)), b"zINSTREAM\0" + (5).to_bytes(4, "big") + b"ab", noise.randbytes(40), ask(7, bytes(900_000))]
        while self.goes_on():
            data = bytearray(noise.choice(said))
            for _ in range(noise.randrange(0, 3)):
                data[noise.randrange(min(len(data), 64))] = noise.randrange(256)
            try:
                end = connected(noise.choice((self.guard.opens, self.guard.clamd, self.guard.service)))
                end.settimeout(1)
                end.sendall(data[:noise.randrange(0, len(data) + 1)])
                self.ended.wait(noise.choice((0, 0, 0, 0.2)))
                end.close()
            except OSError:
                pass
            self.count("hostile exchanges")

    def sample(self):
        """Memory in KiB and descriptors of the guard, and memory of the service, each second."""
        found = []
        while self.goes_on():
            self.ended.wait(1)
            if self.guard.process.poll() is not None:
                self.fault(f"the guard ended: {self.guard.process.returncode} {self.guard.lines()[-300:]!r}")
                self.ended.set()
                break
            found.append((self.guard.memory(), self.guard.descriptors()))
        return found


# What befalls one of two services, in turn. Each comes once at least, however slow the machine is.
KINDS = ("kill", "stop", "end", "publish")


class Pair(Soak):
    """Two services, of which one at a time is killed, ended, stopped or told of a newer set."""

    def __init__(self, program, guard, until):
        super().__init__(program, guard, until)
        self.halves = [Soak(program, guard, until), Soak(program, guard, until)]
        self.halves[1].words, self.halves[1].set = ["--spare"], self.set + ".spare"

    def publish(self):
        """A newer set for the first service and then for the spare, each by a rename."""
        self.version += 1
        for half in self.halves:
            path = self.guard.write("new", signatures(self.version, ALWAYS, pattern_of(self.version)))
            os.rename(path, half.set)
            if half.scanner:
                self.await_version(half)
        self.count("sets")

    def await_version(self, half):
        """Until a service has taken the newest set: the guard says so of its version, and the service of its own."""
        limit = time.time() + 20
        while time.time() < limit and half.scanner.poll() is None and b"version %d\n" % self.version not in half.lines():
            time.sleep(0.05)

    def start(self):
        for half in self.halves:
            half.start()
        self.guard.await_line(b" connected\n", 2)

    def end_service(self):
        for half in self.halves:
            half.end_service()

    def disturb(self):
        noise = random.Random(3)
        for turn, what in enumerate(itertools.cycle(KINDS)):
            if self.ended.is_set() or turn >= len(KINDS) and not self.goes_on():
                return
            self.ended.wait(noise.uniform(0.2, 1))
            half = noise.choice(self.halves)
            name = b"spare" if half.words else b"service"
            came, left = b"avguard: %s of version " % name, b"avguard: %s lost\n" % name
            before, gone = self.guard.lines().count(came), self.guard.lines().count(left)
            if what == "publish":
                self.publish()
                continue
            if what == "stop":
                half.scanner.send_signal(signal.SIGSTOP)
                self.ended.wait(noise.uniform(0.1, 7))
                half.scanner.send_signal(signal.SIGCONT)
                self.count("services stopped for a while")
                self.ended.wait(0.5)
                if half.scanner.poll() is None:
                    continue
            else:
                half.scanner.send_signal(signal.SIGKILL if what == "kill" else signal.SIGTERM)
                self.count("services killed" if what == "kill" else "services ended")
            half.scanner.wait()
            self.guard.await_line(left, gone + 1)
            half.start()
            self.guard.await_line(came, before + 1)


def pair(cases, program, seconds):
    """Two services, one of which may go at any time."""
    with Guard(program, "--wait", "10", "--keep", "2000000") as guard:
        soak = Pair(program, guard, time.time() + seconds)
        soak.publish()
        soak.start()
        threads = [threading.Thread(target=work) for work in (soak.disturb, *(lambda place=place: soak.be_honest(place) for place in range(HONEST)))]
        for thread in threads:
            thread.start()
        for thread in threads:
            thread.join(seconds + 2 * PATIENCE)
        soak.end_service()
        cases.check("two services: all clients came to their end", not any(thread.is_alive() for thread in threads))
        cases.check("two services: each answer is right", not soak.wrong, f"{len(soak.wrong)}: {soak.wrong[:3]}")
        denied = {what: count for what, count in soak.counts.items() if what.startswith("denied") and what != "denied 2"}
        cases.same("two services: nothing is denied that no set finds", denied, {})
        for what in ("granted", "denied 2", "sets", "services killed", "services ended", "services stopped for a while"):
            cases.check(f"two services: there were some: {what}", soak.counts.get(what, 0) > 0, f"{soak.counts}")
        print(f"soak of two services: {seconds:.0f} s; " + ", ".join(f"{what} {count}" for what, count in sorted(soak.counts.items())), file=sys.stderr)


def main():
    if len(sys.argv) not in (2, 3):
        sys.exit("usage: tests/soak.py PROGRAM [SECONDS]")
    program, seconds, cases = os.path.abspath(sys.argv[1]), float(sys.argv[2]) if len(sys.argv) == 3 else SECONDS, Cases()
    with Guard(program, "--wait", "5", "--keep", "2000000") as guard:
        for path in (guard.opens, guard.service, guard.clamd):
            connected(path).close()
        time.sleep(SETTLED)
        before = guard.descriptors()
        soak = Soak(program, guard, time.time() + seconds)
        soak.publish()
        soak.start()
        guard.await_line(b" connected\n")
        works = [soak.disturb, *(lambda place=place: soak.be_honest(place) for place in range(HONEST)), *(lambda place=place: soak.be_hostile(place) for place in range(HOSTILE))]
        threads = [threading.Thread(target=work) for work in works]
        for thread in threads:
            thread.start()
        found = soak.sample()
        for thread in threads:
            thread.join(2 * PATIENCE)
        soak.end_service()
        cases.check("all clients came to their end", not any(thread.is_alive() for thread in threads))
        cases.check("each answer is right", not soak.wrong, f"{len(soak.wrong)}: {soak.wrong[:3]}")
        for what in ("granted", "denied 2", "sets", "services killed", "services stopped for a while", "hostile exchanges"):
            cases.check(f"there were some: {what}", soak.counts.get(what, 0) > 0, f"{soak.counts}")
        third = len(found) // 3
        held = [max(it[0] for it in found[-2 * third:-third]), max(it[0] for it in found[-third:])]
        cases.check("memory does not grow", held[1] <= held[0] + SLACK, f"{held} KiB")
        limit = time.time() + 20
        while guard.descriptors() > before and time.time() < limit:
            time.sleep(0.1)
        cases.check("no descriptor is lost", guard.descriptors() <= before, f"{before} to {guard.descriptors()}")
        print(f"soak: {seconds:.0f} s; " + ", ".join(f"{what} {count}" for what, count in sorted(soak.counts.items())) + f"; {held[1]} KiB", file=sys.stderr)
    pair(cases, program, seconds / 2)
    print(f"{cases.passed} passed, {cases.failed} failed")
    sys.exit(1 if cases.failed else 0)


main()
