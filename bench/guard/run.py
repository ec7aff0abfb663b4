#!/usr/bin/env python3
"""Times asks of `avguard run` with an `avscan service` behind it, beside clamd in the same run.

What one client waits for: a content of 1 KiB that was judged before, and ones of 1 KiB, 64 KiB and 1 MiB of random bytes that nobody has
seen, as asks; contents of 64 KiB, 1 MiB and 1 GiB in parts; a known content of 1 KiB while another client sends contents of 1 GiB; asks of
1 KiB a second with 1, 4 and 16 clients; the memory of the guard beside 1,000 clients that say nothing. guardtime.c asks.
clamd (where it is installed) has the same 1,000 random signatures of 16 bytes and its cache, and takes contents by INSTREAM: in one session, and
over a connection each. `avscan scan` with one thread reads the same sizes from files in memory; the time of a run over an empty file is taken
away. Rounds take turns, and of each figure the least round counts.

    run.py PROGRAM [MIB]      MIB in place of 1,024 for the longest content"""
import os, random, re, shutil, subprocess, sys, tempfile, time

HERE = os.path.dirname(os.path.abspath(__file__))
sys.path.insert(0, os.path.join(os.path.dirname(os.path.dirname(HERE)), "tests"))
from programs import program_beside
ROUNDS = 3
ASKS = (("known", 1 << 10, 2000), ("new", 1 << 10, 2000), ("new", 1 << 16, 400), ("new", 1 << 20, 100))
LONG = int(sys.argv[2]) if len(sys.argv) > 2 else 1024
PARTS = ((1 << 16, 400), (1 << 20, 100), (LONG << 20, 3))
MANY, CLIENTS, IDLE = 8000, (1, 4, 16), 1000
NAMES = {"guard": "avguard run", "parts": "avguard run, in parts", "scan": "avscan scan -j 1", "session": "clamd, one session", "once": "clamd, a connection each"}


class Daemons:
    """A guard with a service, and clamd where it is there, in a folder."""

    def __init__(self, program, folder):
        self.folder, self.processes, self.seed = folder, [], 0
        self.timer = os.path.join(folder, "guardtime")
        subprocess.run(["cc", "-O2", "-Wall", "-Wextra", "-Werror", "-pthread", "-o", self.timer, os.path.join(HERE, "guardtime.c")], check=True)
        chance = random.Random(3)
        patterns = [chance.randbytes(16).hex() for _ in range(1000)]
        rules = self.write("rules.avsig", "avsig 1\nversion 1\n" + "".join(f"s{i} {pattern}\n" for i, pattern in enumerate(patterns)))
        opens, service, clamd = (os.path.join(folder, name) for name in ("opens", "service", "clamd"))
        self.guard = self.start([program_beside(program, "avguard"), "run", opens, service], stderr=subprocess.PIPE)
        self.program, self.rules = program, rules
        self.start([program, "service", service, rules, "--watch", "60"], stdout=subprocess.DEVNULL)
        while b"parts connected" not in (line := self.guard.stderr.readline()):
            if not line:
                sys.exit("the guard ended")
        self.sockets = {"guard": opens}
        self.opens = opens
        if shutil.which("clamd"):
            os.mkdir(os.path.join(folder, "database"))
            self.write("database/own.ndb", "".join(f"S{i}:0:*:{pattern}\n" for i, pattern in enumerate(patterns)))
            lines = f"LocalSocket {clamd}\nDatabaseDirectory {folder}/database\nForeground yes\nMaxThreads 16\nStreamMaxLength {LONG + 1}M\nMaxScanSize {LONG + 1}M\nMaxFileSize {LONG + 1}M\nUser {os.environ.get('USER', 'root')}\n"
            daemon = self.start(["clamd", "-c", self.write("clamd.conf", lines)], stdout=subprocess.DEVNULL, stderr=subprocess.DEVNULL)
            limit = time.time() + 60
            while not os.path.exists(clamd):
                if time.time() > limit or daemon.poll() is not None:
                    sys.exit("clamd did not start")
                time.sleep(0.05)
            self.sockets.update(session=clamd, once=clamd)
        else:
            print("clamd is not installed: left out")

    def write(self, name, text):
        path = os.path.join(self.folder, name)
        with open(path, "w") as file:
            file.write(text)
        return path

    def start(self, words, **more):
        self.processes.append(subprocess.Popen(words, stdin=subprocess.DEVNULL, **more))
        return self.processes[-1]

    def end(self):
        for process in self.processes:
            process.terminate()
            process.wait()

    def time(self, way, what, size, count, *clients):
        """The numbers that guardtime prints, the least first. No two calls send the same random bytes."""
        self.seed += 1
        words = [self.timer, way, self.sockets.get(way, self.opens), what, str(size), str(count), str(self.seed), *map(str, clients)]
        return sorted(float(line) for line in subprocess.run(words, stdout=subprocess.PIPE, check=True, text=True).stdout.split())

    def scan(self, size, count):
        """The nanoseconds that `avscan scan` takes for each of so many files of random bytes, in memory."""
        with tempfile.TemporaryDirectory(dir="/dev/shm" if os.path.isdir("/dev/shm") else None) as folder:
            files = [os.path.join(folder, f"f{i}") for i in range(count)]
            for path in files + [empty := os.path.join(folder, "empty")]:
                with open(path, "wb") as file:
                    left = 0 if path == empty else size
                    while left > 0:
                        left -= file.write(random.randbytes(min(left, 1 << 24)))
            taken = []
            for words in ([empty], files):
                begun = time.perf_counter()
                subprocess.run([self.program, "scan", "-j", "1", "--max-size", str(max(size, 1)), self.rules, *words], stdout=subprocess.DEVNULL, check=True)
                taken.append(time.perf_counter() - begun)
            return (taken[1] - taken[0]) / count * 1e9

    def memory(self):
        with open(f"/proc/{self.guard.pid}/status") as file:
            return int(re.search(r"VmRSS:\s+(\d+)", file.read())[1])


def idle(daemons):
    """The guard's memory before and beside clients that say nothing."""
    before = daemons.memory()
    words = [daemons.timer, "guard", daemons.sockets["guard"], "idle", str(IDLE)]
    with subprocess.Popen(words, stdin=subprocess.PIPE, stdout=subprocess.PIPE, text=True) as holder:
        holder.stdout.readline()
        daemons.time("guard", "known", 1024, 10)
        beside = daemons.memory()
        holder.stdin.close()
    return before, beside


def in_parts(daemons):
    """Contents that nobody has seen, by each way that takes them."""
    for size, count in PARTS:
        ways = ["parts", *(way for way in daemons.sockets if way != "guard")]
        rounds = {way: [] for way in ways + ["scan"]}
        for _ in range(ROUNDS):
            for way in ways:
                rounds[way].append(daemons.time(way, "new", size, count))
            rounds["scan"].append([daemons.scan(size, count)])
        for way, times in rounds.items():
            middle = min(one[len(one) // 2] for one in times)
            print(f"parts {size:>13,} bytes, {NAMES[way]:<24} median {middle / 1000:>11.1f} us, {size / middle:.2f} GB/s")


def beside_a_long_one(daemons):
    """A known content of 1 KiB, alone and while one client and four clients send contents of 1 GiB."""
    for clients in (0, 1, 4):
        words = [daemons.timer, "parts", daemons.opens, "known", str(LONG << 20), "1000000"]
        long = [subprocess.Popen([*words, str(1000 + i)], stdout=subprocess.DEVNULL) for i in range(clients)]
        time.sleep(3 if clients else 0)
        times = daemons.time("guard", "known", 1 << 10, 2000)
        for process in long:
            process.kill()
            process.wait()
        print(f"known 1,024 bytes beside {clients} clients that send {LONG} MiB each: median {times[len(times) // 2] / 1000:.1f} us, p99 {times[len(times) * 99 // 100] / 1000:.1f} us")


def measure(daemons):
    before, beside = idle(daemons)
    print(f"memory of the guard: {before:,} KiB, {beside:,} KiB beside {IDLE:,} idle clients")
    for what, size, count in ASKS:
        rounds = {way: [] for way in daemons.sockets}
        for _ in range(ROUNDS):
            for way in rounds:
                rounds[way].append(daemons.time(way, what, size, count))
        for way, times in rounds.items():
            middle, late = (min(one[int(len(one) * part)] for one in times) / 1000 for part in (0.5, 0.99))
            print(f"{what:>5} {size:>9,} bytes, {NAMES[way]:<24} median {middle:>9.1f} us, p99 {late:>9.1f} us")
    in_parts(daemons)
    beside_a_long_one(daemons)
    for what in ("known", "new"):
        for clients in CLIENTS:
            best = {way: min(daemons.time(way, f"rate-{what}", 1024, MANY, clients)[0] for _ in range(ROUNDS)) for way in daemons.sockets}
            print(f"{what:>5}     1,024 bytes, {clients:>2} clients: " + ", ".join(f"{NAMES[way]} {MANY / nanoseconds * 1e9:,.0f} a second" for way, nanoseconds in best.items()))


def main():
    program = os.path.abspath(sys.argv[1])
    with tempfile.TemporaryDirectory() as folder:
        print(f"load {os.getloadavg()[0]:.2f} on {os.cpu_count()} processors; the least of {ROUNDS} rounds")
        daemons = Daemons(program, folder)
        try:
            measure(daemons)
        finally:
            daemons.end()
        print(f"load {os.getloadavg()[0]:.2f} at the end")


main()
