#!/usr/bin/env python3
"""Times a scan of a tree: `avscan scan -r -i` with 1, 2 and 4 threads beside `cat` of the same files, `grep -rF` for the same strings,
and `rg -uuu -a -F` and `yara -r` with as many threads, `clamdscan -m` and `clamscan -r` where they are installed, all in one run over the
same tree.

usage: tree.py PROGRAM [FOLDER]

FOLDER is /usr where it isn't said. The set are ten random patterns of 16 bytes, for grep as ten hexadecimal words, so that nothing is
found; cat writes to /dev/null. Each is run once so that what it reads is in memory as far as that holds it, and then ROUNDS times; the
least time gone by counts. clamdscan and clamscan take minutes, and are run once, after the others. clamd has four threads, and no cache.
Files a second and bytes a second are of the regular files that avscan scans; the others read the same tree. Peak memory is of the
process alone. Of each number of threads a line says whether avscan took at most half of rg's time. The exit status is 1 where avscan did
not scan or name each regular file, else 0."""
import os, random, shutil, stat, subprocess, sys, tempfile, time

ROUNDS = 3
THREADS = (1, 2, 4)
# What avscan may take of rg's time with as many threads.
GOAL = 0.5
MOST = 1 << 40
HERE = os.path.dirname(os.path.abspath(__file__))


def files_of(folder):
    """The regular files below a folder, links not followed, and their bytes."""
    files = []
    for path, folders, names in os.walk(os.fsencode(folder)):
        for name in names:
            own = os.path.join(path, name)
            mode = os.lstat(own)
            if stat.S_ISREG(mode.st_mode):
                files.append((own, mode.st_size))
    return files


def put(folder, name, text):
    path = os.path.join(folder, name)
    with open(path, "wb") as file:
        file.write(text)
    return path


def jobs(folder, tree, program, files):
    """What is timed: a name, a command, the statuses that are no fault, and how often it is run before and while it is timed."""
    random.seed(16)
    patterns = [bytes(random.randrange(256) for _ in range(16)) for _ in range(10)]
    signatures = put(folder, "set.avsig", b"avsig 1\nversion 1\n" + b"".join(b"s%d %s\n" % (i, p.hex().encode()) for i, p in enumerate(patterns)))
    words = put(folder, "words", b"".join(p.hex().encode() + b"\n" for p in patterns))
    listed = put(folder, "list", b"\0".join(path for path, _ in files))
    often, once = (1, ROUNDS), (0, 1)
    for threads in THREADS:
        yield f"avscan scan -j {threads}", [program, "scan", "-r", "-i", "-j", str(threads), "--max-size", str(MOST), signatures, tree], (0,), often
    yield "cat", ["xargs", "-0", "-a", listed, "cat", "--"], (0,), often
    yield "grep -rF", ["grep", "-rF", "-f", words, "--", tree], (0, 1, 2), often
    if shutil.which("rg"):
        for threads in THREADS:
            yield f"rg -uuu -a -F -j {threads}", ["rg", "-uuu", "-a", "-F", "-j", str(threads), "-f", words, "--", tree], (0, 1, 2), often
    if shutil.which("yara"):
        rules = put(folder, "rules.yar", b"".join(b"rule s%d { strings: $a = { %s } condition: $a }\n" % (i, p.hex().encode()) for i, p in enumerate(patterns)))
        for threads in THREADS:
            yield f"yara -r -p {threads}", ["yara", "-r", "-p", str(threads), rules, tree], (0,), often
    database = put(folder, "set.ndb", b"".join(b"s%d:0:*:%s\n" % (i, p.hex().encode()) for i, p in enumerate(patterns)))
    if shutil.which("clamd") and shutil.which("clamdscan"):
        conf = os.path.join(folder, "clamd.conf")
        with Clamd(folder, conf, database):
            yield "clamdscan -m", ["clamdscan", "-m", "-i", "--no-summary", "-c", conf, tree], (0, 1, 2), once
    if shutil.which("clamscan"):
        limits = ["--max-filesize=2000M", "--max-scansize=2000M"]
        yield "clamscan -r", ["clamscan", "-r", "-i", "--no-summary", *limits, f"--database={database}", tree], (0, 1, 2), once


class Clamd:
    """A clamd with these signatures, four threads and no cache, until it is left."""

    def __init__(self, folder, conf, database):
        self.conf, self.socket, base = conf, os.path.join(folder, "clamd.socket"), os.path.join(folder, "base")
        os.mkdir(base)
        shutil.copy(database, base)
        lines = f"LocalSocket {self.socket}\nDatabaseDirectory {base}\nForeground yes\nMaxThreads 4\nDisableCache yes\nMaxFileSize 2000M\nMaxScanSize 2000M\nMaxDirectoryRecursion 64\n"
        put(folder, "clamd.conf", (lines + f"User {os.environ.get('USER', 'root')}\n").encode())

    def __enter__(self):
        self.process = subprocess.Popen(["clamd", "-c", self.conf], stdout=subprocess.DEVNULL, stderr=subprocess.DEVNULL)
        for _ in range(600):
            if os.path.exists(self.socket):
                return
            time.sleep(0.1)
        sys.exit("clamd did not start")

    def __exit__(self, *_):
        self.process.terminate()
        self.process.wait()


def main():
    if len(sys.argv) not in (2, 3):
        sys.exit("usage: tree.py PROGRAM [FOLDER]")
    program, tree = os.path.abspath(sys.argv[1]), sys.argv[2] if len(sys.argv) == 3 else "/usr"
    files = files_of(tree)
    count, size = len(files), sum(length for _, length in files)
    print(f"load {os.getloadavg()[0]:.2f} on {os.cpu_count()} processors; {tree}: {count:,} files, {size:,} bytes; the least of {ROUNDS} rounds")
    for name in ("rg", "yara", "clamscan"):
        if not shutil.which(name):
            print(f"{name} is not installed")
    with tempfile.TemporaryDirectory() as folder:
        spawn, out = os.path.join(folder, "spawn"), os.path.join(folder, "out")
        subprocess.run(["cc", "-O2", "-o", spawn, os.path.join(HERE, os.pardir, "spawn.c")], check=True)
        least = {}
        for name, command, fine, (before, rounds) in jobs(folder, tree, program, files):
            costs = []
            for _ in range(before + rounds):
                target = "/dev/null" if name == "cat" else out
                done = subprocess.run([spawn, target, *command], stdout=subprocess.PIPE, stderr=subprocess.DEVNULL, check=True)
                gone, used, peak, status = done.stdout.split()
                if int(status) not in fine:
                    print(f"{name}: status {int(status)}")
                costs.append((float(gone) * 1e-9, float(used) * 1e-9, int(peak)))
            gone, used, peak = min(costs[before:])
            least[name] = gone
            print(f"{name:22} {gone:7.2f} s, {used:7.2f} s of processor, {count / gone:9,.0f} files a second, {size / gone * 1e-9:6.2f} GB/s, peak {peak:9,} KiB")
        for threads in THREADS:
            ours, theirs = least[f"avscan scan -j {threads}"], least.get(f"rg -uuu -a -F -j {threads}")
            if theirs:
                print(f"{'met   ' if ours <= GOAL * theirs else 'MISSED'} {threads} threads: {ours / theirs:.2f} of rg's time, goal at most {GOAL}")
        words = [program, "scan", "-r", "-i", "--summary", "--max-size", str(MOST), os.path.join(folder, "set.avsig"), tree]
        print(f"load {os.getloadavg()[0]:.2f} at the end")
        told = subprocess.run(words, stdout=subprocess.DEVNULL, stderr=subprocess.PIPE).stderr.splitlines()[-1].decode()
        print(told)
        scanned, missed = int(told.split()[1]), int(told.split()[-3])
    sys.exit(0 if scanned + missed == count else 1)


main()
