#!/usr/bin/env python3
"""`avguard run` beside clients that are greedy, slow, silent or gone, with honest ones beside them: `attacks.py PROGRAM [SECONDS]`.

Each attack runs for so many seconds (60) against a guard of its own, all at the same time. Meanwhile two honest clients ask, one about a content
that is known and one about new ones, and get each answer; and the guard's memory stays below the bound of docs/OPERATING.md. Then honest clients ask
beside 64 greedy connections: each answer is right, none takes as long as a wait, and the median takes at most 20 times as long as beside none, in the
best of three tries. That is required where four processors are free, for the guard, its service, the greedy ones and the honest one: on fewer the
service waits until the system takes the processor from the guard, whatever the guard does. The last line says how many passed and failed."""
import math, os, random, statistics, subprocess, sys, threading, time

from cases import Cases
from guard import MOST, Guard, ask, connected, frames, heard, verdict

SECONDS = 60
# The bound of docs/OPERATING.md in KiB: what a guard has that holds nothing, what is kept, the pool, what runs and waits for the service, and of
# each client its floor and its output, twice since lists grow by doubling.
FIXED, KEEP, POOL, SERVICE, A_CLIENT = 16 * 1024, 64 * 1024, 64 * 1024, 4 * 1024, 2 * (9 + 22)
CLIENTS = 1000
GREEDY = 64
WAIT = 10
RATIO = 20
TRIES = 3
NEEDED = 4
KINDS = ("known", "new")
SIGNATURES = b"avsig 1\nversion 1\nx 5858\n"


def bound(clients):
    return FIXED + KEEP + POOL + SERVICE + clients * A_CLIENT


class Served(Guard):
    """A guard with a service of the product."""

    def __init__(self, program, *words, **more):
        super().__init__(program, *words, **more)
        path = self.write("set", SIGNATURES)
        self.scanner = subprocess.Popen([program, "service", "--watch", "1", self.service, path], stdin=subprocess.DEVNULL, stdout=subprocess.DEVNULL, stderr=subprocess.DEVNULL)
        self.await_line(b"connected\n")

    def __exit__(self, *fault):
        self.scanner.kill()
        self.scanner.wait()
        super().__exit__(*fault)


class Honest:
    """A client that asks one thing after the other, and how long each answer took."""

    def __init__(self, guard, new):
        self.end, self.new, self.times, self.wrong, self.tag, self.noise = connected(guard.opens), new, [], [], 0, random.Random(7)

    def once(self):
        self.tag += 1
        infected = self.tag % 5 == 0
        content = (b"%d" % self.noise.randrange(1 << 60) if self.new else b"known") + (b"XX" if infected else b"")
        begun = time.perf_counter()
        self.end.sendall(ask(self.tag, content))
        got = heard(self.end, 14 if infected else 29)
        self.times.append(time.perf_counter() - begun)
        found = frames(got)[0]
        told = verdict(found[0]) if found else None
        wanted = (self.tag, "denied", 2) if infected else (self.tag, "granted", (2, 1))
        if told != wanted:
            self.wrong.append((told, wanted))

    def median(self):
        return statistics.median(self.times)


def blast(ends, data, until, reads=False):
    """Sends the same bytes on and on over connections that are never waited for. One that is closed is left."""
    for end in ends:
        end.setblocking(False)
    while time.time() < until and ends:
        for end in list(ends):
            try:
                if reads:
                    try:
                        end.recv(1 << 16)
                    except BlockingIOError:
                        pass
                end.send(data)
            except BlockingIOError:
                pass
            except OSError:
                ends.remove(end)
        if not reads:
            time.sleep(0.002)
    time.sleep(max(0.0, until - time.time()))


def many(path, count):
    ends = []
    for _ in range(count):
        try:
            ends.append(connected(path))
        except OSError:
            break
    return ends


def commands_unread(guard, until):
    """Sessions of clamd that ask for the version and never read."""
    while time.time() < until:
        ends = many(guard.clamd, 8)
        for end in ends:
            end.sendall(b"zIDSESSION\0")
        blast(ends, b"zVERSIONCOMMANDS\0" * 3000, min(until, time.time() + 10))


def answers_unread(guard, until):
    """Asks about one content, whose answers are never read."""
    while time.time() < until:
        blast(many(guard.opens, 8), ask(1, b"unread") * 3000, min(until, time.time() + 10))


def halves(guard, until):
    """Asks of 1 MiB that lack a byte, again and again."""
    whole = ask(1, b"A" * MOST)
    while time.time() < until:
        ends = many(guard.opens, CLIENTS)
        for end in ends:
            end.setblocking(False)
        left = {end: 0 for end in ends}
        limit = min(until, time.time() + 12)
        while left and time.time() < limit:
            for end in list(left):
                try:
                    left[end] += end.send(whole[left[end]:len(whole) - 1])
                    if left[end] >= len(whole) - 1:
                        left.pop(end)
                except BlockingIOError:
                    pass
                except OSError:
                    left.pop(end)
            time.sleep(0.01)
        time.sleep(max(0.0, min(1.0, until - time.time())))
        for end in ends:
            end.close()


def large_then_idle(guard, until):
    """Clients that asked once about 1 MiB, and stay."""
    kept = []
    while time.time() < until:
        if len(kept) < 500:
            end = connected(guard.opens)
            end.sendall(ask(1, b"%09d" % len(kept) + b"A" * (MOST - 9)))
            heard(end, 29)
            kept.append(end)
        else:
            time.sleep(0.1)


def single_bytes(guard, until):
    """Connections that say one byte at a time of an ask, and leave."""
    said = ask(1, b"drip")
    while time.time() < until:
        ends = many(guard.opens, 63)
        for place in range(len(said) - 1):
            for end in ends:
                try:
                    end.send(said[place:place + 1])
                except OSError:
                    pass
            time.sleep(0.001)
        for end in ends:
            end.close()


def churn(guard, until):
    """Connections that come and go, at both sockets."""
    while time.time() < until:
        for path in (guard.opens, guard.clamd):
            for end in many(path, 50):
                end.close()


def slow_reader(guard, until):
    """Sessions that ask much and read a byte now and then."""
    ends = many(guard.opens, 8)
    for end in ends:
        end.setblocking(False)
    while time.time() < until:
        for end in list(ends):
            try:
                end.send(ask(1, b"slow") * 500)
            except BlockingIOError:
                pass
            except OSError:
                ends.remove(end)
                continue
            try:
                end.recv(1)
            except BlockingIOError:
                pass
            except OSError:
                ends.remove(end)
        time.sleep(0.02)
        if not ends:
            ends = many(guard.opens, 8)
            for end in ends:
                end.setblocking(False)


ATTACKS = {commands_unread: 8, answers_unread: 8, halves: CLIENTS, large_then_idle: 500, single_bytes: 63, churn: 100, slow_reader: 8}


class At:
    """The sockets of a guard that an attack is told of."""

    def __init__(self, opens, clamd):
        self.opens, self.clamd = opens, clamd


def begun(attack, guard, until):
    """An attack in a process of its own, so that it takes nothing from the ones that measure."""
    return subprocess.Popen([sys.executable, os.path.abspath(__file__), "--attack", attack.__name__, guard.opens, guard.clamd, repr(until)])


def attacked(cases, program, attack, clients, seconds):
    name = attack.__doc__.rstrip(".")
    with Served(program, "--wait", str(WAIT), "--keep", "67108864") as guard:
        honest = [Honest(guard, False), Honest(guard, True)]
        until = time.time() + seconds
        attacker = begun(attack, guard, until)
        most = 0
        while time.time() < until:
            for client in honest:
                client.once()
            most = max(most, guard.memory())
            time.sleep(0.02)
        attacker.kill()
        attacker.wait()
        cases.check(f"{name}: the guard stays below its bound", most <= bound(clients + 10), f"{most} of {bound(clients + 10)} KiB")
        for client, what in zip(honest, KINDS):
            cases.check(f"{name}: an honest client hears each answer about {what} contents", not client.wrong and client.times, client.wrong[:3])
            cases.check(f"{name}: none takes as long as a wait", max(client.times) < WAIT, f"{max(client.times):.2f} s")
        cases.check(f"{name}: the guard goes on", guard.process.poll() is None, guard.process.poll())


def counted(cases, program, attack, clients, seconds):
    """The same. What breaks it off, an honest client that is closed above all, is a case that does not hold."""
    try:
        attacked(cases, program, attack, clients, seconds)
    except Exception as error:
        cases.check(attack.__doc__.rstrip("."), False, repr(error))


def greedy(guard, until):
    """64 connections that ask about new contents as fast as they can."""
    ends = many(guard.opens, GREEDY)
    noise = random.Random(3)
    for end in ends:
        end.setblocking(False)
    while time.time() < until:
        for end in ends:
            try:
                end.recv(1 << 16)
            except BlockingIOError:
                pass
            try:
                end.send(b"".join(ask(1, b"%d" % noise.randrange(1 << 60)) for _ in range(20)))
            except BlockingIOError:
                pass


def greedy_known(guard, until):
    """64 connections that ask about a known content as fast as they can."""
    ends = many(guard.opens, GREEDY)
    blast(ends, ask(1, b"known") * 50, until, reads=True)


def greedy_large(guard, until):
    """64 connections that ask about new contents of 1 MiB."""
    ends, noise = many(guard.opens, GREEDY), random.Random(4)
    left = {}
    for end in ends:
        end.setblocking(False)
    while time.time() < until:
        for end in ends:
            try:
                end.recv(1 << 16)
            except BlockingIOError:
                pass
            if not left.get(end):
                left[end] = ask(1, b"%d" % noise.randrange(1 << 60) + b"A" * (MOST - 30))
            try:
                left[end] = left[end][end.send(left[end]):]
            except BlockingIOError:
                pass


def multiples(cases, program, attack, seconds):
    """How long an honest client waits beside greedy ones for a known and for a new content, as multiples of what it waits beside none."""
    name = attack.__doc__.rstrip(".")
    with Served(program) as guard:
        honest = [Honest(guard, False), Honest(guard, True)]
        for _ in range(300):
            for client in honest:
                client.once()
        alone = [client.median() for client in honest]
        before = guard.memory()
        until = time.time() + seconds
        attacker = begun(attack, guard, until)
        time.sleep(1)
        for client in honest:
            client.times.clear()
        while time.time() < until - 0.5:
            for client in honest:
                client.once()
        crowded = [client.median() for client in honest]
        attacker.kill()
        attacker.wait()
        for client, what, one, other in zip(honest, KINDS, alone, crowded):
            print(f"{name}: {what} contents: a median of {one * 1e6:.0f} us alone and {other * 1e6:.0f} us beside them, {other / one:.1f} times", file=sys.stderr)
            cases.check(f"{name}: each answer about {what} contents is right", not client.wrong and client.times, client.wrong[:3])
            cases.check(f"{name}: none about {what} contents takes as long as a wait", max(client.times) < WAIT, f"{max(client.times):.2f} s")
        cases.check(f"{name}: memory", guard.memory() <= bound(GREEDY + 10), f"{before} to {guard.memory()} KiB")
        return [other / one for one, other in zip(alone, crowded)]


def free_processors():
    """How many processors do nothing, on the average of a second."""
    def idle():
        with open("/proc/stat") as file:
            return int(file.readline().split()[4]) / os.sysconf("SC_CLK_TCK")
    before = idle()
    time.sleep(1)
    return idle() - before


def beside(cases, program, attack, seconds):
    """That an honest client is not slowed beyond what is promised, in the best of so many tries."""
    least, can_tell = [math.inf] * len(KINDS), False
    for _ in range(TRIES):
        is_quiet = free_processors() > NEEDED - 0.5
        took = multiples(cases, program, attack, seconds)
        if is_quiet:
            least, can_tell = [min(pair) for pair in zip(least, took)], True
            if max(least) <= RATIO:
                break
    if not can_tell:
        print(f"{attack.__doc__.rstrip('.')}: fewer than {NEEDED} processors are free, so no time is required", file=sys.stderr)
        return
    for what, times in zip(KINDS, least):
        cases.check(f"{attack.__doc__.rstrip('.')}: {what} contents take at most {RATIO} times as long", times <= RATIO, f"{times:.1f} times")


def main():
    if len(sys.argv) == 6 and sys.argv[1] == "--attack":
        return globals()[sys.argv[2]](At(*sys.argv[3:5]), float(sys.argv[5]))
    if len(sys.argv) not in (2, 3):
        sys.exit("usage: tests/attacks.py PROGRAM [SECONDS]")
    cases, program = Cases(), os.path.abspath(sys.argv[1])
    seconds = float(sys.argv[2]) if len(sys.argv) == 3 else SECONDS
    lanes = [threading.Thread(target=counted, args=(cases, program, attack, clients, seconds)) for attack, clients in ATTACKS.items()]
    for lane in lanes:
        lane.start()
    for lane in lanes:
        lane.join()
    for attack in (greedy, greedy_known, greedy_large):
        beside(cases, program, attack, min(seconds, 10))
    print(f"{cases.passed} passed, {cases.failed} failed")
    sys.exit(1 if cases.failed else 0)


if __name__ == "__main__":
    main()
