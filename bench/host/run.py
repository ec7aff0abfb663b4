#!/usr/bin/env python3
"""Times cold opens, of files that nobody has judged, through the whole of `avscan host`, beside clamd over its socket in the same run.

Files of 1 KiB, 64 KiB and 1 MiB of random bytes, no two alike, under 1,000 random signatures of 16 bytes. An open's time is the time
of a run over many files less that over one, divided by their difference: it has the reading of the file, its way into the volume, and
the audits of both sides. clamd (where it is installed) has the same signatures, no cache, and scans the same files by their paths, one
session a client; and so do `avscan filter` and `avscan service`, two processes that meet at a socket. clamonacc (where it is installed and the kernel lets it hold opens) holds each first open of as many such files in a
folder that it watches, until a clamd with a cache has judged it. Peak memory is that of the process beside the files' bytes. Then 20,000
files of 512 KiB, 10 GiB in all, and the peak of memory. Also 1, 2
and 4 openers with as many workers over files of 1 KiB, and as many clients of clamd."""
import os, random, shutil, socket, subprocess, sys, tempfile, threading, time

HERE = os.path.dirname(os.path.abspath(__file__))
ROUNDS = 5
# A file's size, how many there are, and the most that an open may take, as a part of clamd's time.
SIZES = ((1 << 10, 2000, 0.15), (1 << 16, 400, 0.12), (1 << 20, 60, 0.12))
MANY, MOST_MEMORY = 4000, 64 << 20
# Opens a second of four openers, as times those of clamd's four clients, and the most that two processes may take of one's time.
LEAST_RATE, MOST_APART = 3, 1.3
# How many first opens clamonacc holds at most.
HELD = 200
# Many files of this size, whose contents are those of a few: how many, and how many make more groups than one.
LINKED, LINKS, FEW = 1 << 19, 20_000, 100
# What a group of files holds at most.
GROUP = 8 << 20


def build_spawn(folder):
    program = os.path.join(folder, "spawn")
    subprocess.run(["cc", "-O1", "-o", program, os.path.join(os.path.dirname(HERE), "spawn.c")], check=True)
    return program


def write_files(folder, size, count, chance):
    names = []
    for i in range(count):
        names.append(os.path.join(folder, f"f{size}-{i}"))
        with open(names[-1], "wb") as file:
            file.write(chance.randbytes(size))
    return names


def write_rules(folder, patterns):
    rules = os.path.join(folder, "rules.avsig")
    with open(rules, "w") as file:
        file.write("avsig 1\nversion 1\n" + "".join(f"s{i} {pattern.hex()}\n" for i, pattern in enumerate(patterns)))
    return rules


def host(spawn, program, rules, names, crew):
    """Seconds, and bytes of peak memory."""
    words = [spawn, os.devnull, program, "host", rules, *names, "--openers", str(crew), "--workers", str(crew), "--quiet"]
    nanoseconds, _, kibibytes, status = subprocess.run(words, stdout=subprocess.PIPE, text=True, check=True).stdout.split()[:4]
    if status != "0":
        sys.exit(f"avscan host ended with {status}")
    return float(nanoseconds) / 1e9, int(kibibytes) * 1024


def apart(program, folder, rules, names):
    """Seconds that a filter takes with a service in a process of its own."""
    path = os.path.join(folder, "filter.socket")
    quiet = {"stdout": subprocess.DEVNULL, "stdin": subprocess.DEVNULL}
    service = subprocess.Popen([program, "service", "--wait", "20", path, rules], **quiet)
    begun = time.perf_counter()
    status = subprocess.run([program, "filter", "--wait", "20", "--quiet", path, *names], **quiet).returncode
    seconds = time.perf_counter() - begun
    if status or service.wait():
        sys.exit(f"avscan filter ended with {status}, avscan service with {service.returncode}")
    return seconds


class Clamd:
    """The daemon with the same signatures, in a folder of its own."""

    def __init__(self, folder, patterns, lines):
        self.path = os.path.join(folder, "clamd.socket")
        rules = os.path.join(folder, "rules")
        os.mkdir(rules)
        with open(os.path.join(rules, "own.ndb"), "w") as file:
            file.writelines(f"S{i}:0:*:{pattern.hex()}\n" for i, pattern in enumerate(patterns))
        self.conf = os.path.join(folder, "clamd.conf")
        with open(self.conf, "w") as file:
            file.write(f"LocalSocket {self.path}\nDatabaseDirectory {rules}\nForeground yes\nMaxThreads 8\n{lines}")
        self.process = subprocess.Popen(["clamd", "-c", self.conf], stdout=subprocess.DEVNULL, stderr=subprocess.DEVNULL)
        limit = time.time() + 60
        while not os.path.exists(self.path):
            if time.time() > limit or self.process.poll() is not None:
                raise OSError("clamd did not start")
            time.sleep(0.05)

    def scan(self, names):
        """Scans files one after the other in one session."""
        with socket.socket(socket.AF_UNIX) as session:
            session.connect(self.path)
            session.sendall(b"zIDSESSION\0")
            for name in names:
                session.sendall(b"zSCAN " + name.encode() + b"\0")
                answer = b""
                while not answer.endswith(b"\0"):
                    answer += session.recv(4096)
                if b": OK" not in answer:
                    raise OSError(f"clamd: {answer!r}")

    def time(self, names, clients):
        threads = [threading.Thread(target=self.scan, args=(names[i::clients],)) for i in range(clients)]
        begun = time.perf_counter()
        for thread in threads:
            thread.start()
        for thread in threads:
            thread.join()
        return time.perf_counter() - begun

    def end(self):
        self.process.terminate()
        self.process.wait()


class Clamonacc:
    """Opens that clamonacc holds: a folder that it watches, and a clamd under a user whose own opens it lets pass."""

    def __init__(self, folder, patterns, chance):
        os.chmod(folder, 0o755)
        daemon, self.watched, self.chance = os.path.join(folder, "onaccess"), os.path.join(folder, "watched"), chance
        os.mkdir(daemon)
        os.mkdir(self.watched)
        shutil.chown(daemon, "clamav")
        lines = f"User clamav\nOnAccessIncludePath {self.watched}\nOnAccessPrevention yes\nOnAccessExcludeUname clamav\n"
        self.clamd = Clamd(daemon, patterns, lines)
        words = ["clamonacc", "--foreground", "-c", self.clamd.conf]
        self.process = subprocess.Popen(words, stdout=subprocess.DEVNULL, stderr=subprocess.DEVNULL)
        time.sleep(3)

    def is_running(self):
        return self.process.poll() is None

    def first_opens(self, size, count):
        """The seconds of each first open, the least first."""
        seconds = []
        for name in write_files(self.watched, size, count, self.chance):
            begun = time.perf_counter()
            file = os.open(name, os.O_RDONLY)
            seconds.append(time.perf_counter() - begun)
            os.close(file)
            os.unlink(name)
        return sorted(seconds)

    def end(self):
        self.process.terminate()
        self.process.wait()
        self.clamd.end()


def goal(holds, what):
    print(f"{'met   ' if holds else 'MISSED'} {what}")


def main():
    program = os.path.abspath(sys.argv[1])
    chance = random.Random(3)
    with tempfile.TemporaryDirectory() as folder:
        spawn = build_spawn(folder)
        patterns = [chance.randbytes(16) for _ in range(1000)]
        rules = write_rules(folder, patterns)
        print(f"load {os.getloadavg()[0]:.2f} on {os.cpu_count()} processors; the least of {ROUNDS} rounds")
        clamd = None
        if shutil.which("clamd"):
            clamd = Clamd(folder, patterns, f"DisableCache yes\nUser {os.environ.get('USER', 'root')}\n")
        else:
            print("clamd is not installed: left out")
        try:
            measure(folder, spawn, program, rules, chance, clamd)
        finally:
            if clamd:
                clamd.end()
        measure_groups(folder, spawn, program, rules, chance)
        measure_held(folder, patterns, chance)
        print(f"load {os.getloadavg()[0]:.2f} at the end")


def measure(folder, spawn, program, rules, chance, clamd):
    for size, count, most in SIZES:
        names = write_files(folder, size, count, chance)
        alone = min(host(spawn, program, rules, names[:1], 1)[0] for _ in range(ROUNDS))
        runs = [host(spawn, program, rules, names, 1) for _ in range(ROUNDS)]
        ours = (min(seconds for seconds, _ in runs) - alone) / (count - 1)
        memory = max(peak for _, peak in runs) - size * count
        few = min(apart(program, folder, rules, names[:1]) for _ in range(ROUNDS))
        theirs_apart = (min(apart(program, folder, rules, names) for _ in range(ROUNDS)) - few) / (count - 1)
        line = f"{size:>9,} bytes: {ours * 1e6:9.1f} us an open, {memory / (1 << 20):6.1f} MiB beside {count} files"
        if clamd:
            theirs = min(clamd.time(names, 1) for _ in range(ROUNDS)) / count
            line += f"; clamd {theirs * 1e6:9.1f} us, ratio {ours / theirs:.2f}"
        print(line)
        print(f"{'':16} {theirs_apart * 1e6:9.1f} us an open of filter and service, {theirs_apart / ours:.2f} times host's")
        goal(theirs_apart <= MOST_APART * ours, f"{size:,} bytes: filter and service take at most {MOST_APART} times host's")
        if clamd:
            goal(ours <= most * theirs, f"{size:,} bytes: at most {most} of clamd's time")
        goal(memory <= MOST_MEMORY, f"{size:,} bytes: at most {MOST_MEMORY >> 20} MiB beside volume and automaton")
        for name in names:
            os.unlink(name)
    names = write_files(folder, 1 << 10, MANY, chance)
    for crew in (1, 2, 4):
        alone = min(host(spawn, program, rules, names[:1], crew)[0] for _ in range(ROUNDS))
        ours = (MANY - 1) / (min(host(spawn, program, rules, names, crew)[0] for _ in range(ROUNDS)) - alone)
        line = f"{crew} openers and workers: {ours:9,.0f} opens of 1 KiB a second"
        if clamd:
            theirs = MANY / min(clamd.time(names, crew) for _ in range(ROUNDS))
            line += f"; clamd with {crew} clients {theirs:9,.0f}, {ours / theirs:.2f} times"
        print(line)
        if clamd and crew == 4:
            goal(ours >= LEAST_RATE * theirs, f"4 openers: at least {LEAST_RATE} times clamd's 4 clients")


def measure_groups(folder, spawn, program, rules, chance):
    """Memory of a host that opens many files, group by group."""
    contents = write_files(folder, LINKED, 50, chance)
    names = [os.path.join(folder, f"link{i}") for i in range(LINKS)]
    for i, name in enumerate(names):
        os.link(contents[i % len(contents)], name)
    listed = os.path.join(folder, "list")
    with open(listed, "w") as file:
        file.writelines(f"{name}\n" for name in names)
    _, alone = host(spawn, program, rules, contents[:1], 1)
    _, few = host(spawn, program, rules, names[:FEW], 1)
    seconds, many = host(spawn, program, rules, ["--files-from", listed], 1)
    print(f"{LINKS:,} files of {LINKED:,} bytes: {seconds:.1f} s, {many / (1 << 20):.1f} MiB; {FEW} of them {few / (1 << 20):.1f} MiB, one file {alone / (1 << 20):.1f} MiB")
    goal(many <= alone + GROUP + MOST_MEMORY, f"{LINKS:,} files: at most {MOST_MEMORY >> 20} MiB beside automaton and one group")
    goal(many <= few + (8 << 20), f"{LINKS:,} files: the memory of {FEW}, and 8 MiB at most")
    for name in [*names, *contents]:
        os.unlink(name)


def measure_held(folder, patterns, chance):
    if not shutil.which("clamonacc") or os.geteuid():
        print("clamonacc is not installed, or this is not root: left out")
        return
    clamonacc = Clamonacc(folder, patterns, chance)
    try:
        if not clamonacc.is_running():
            print("clamonacc ended at its start: left out")
            return
        for size, count, _ in SIZES:
            seconds = clamonacc.first_opens(size, min(count, HELD))
            least, middle, most = (it * 1e6 for it in (seconds[0], seconds[len(seconds) // 2], seconds[-1]))
            print(f"{size:>9,} bytes: clamonacc {middle:9.1f} us a first open, {least:.1f} at least and {most:.1f} at most")
    finally:
        clamonacc.end()


if __name__ == "__main__":
    main()
