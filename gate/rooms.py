"""The crates of this repository, as crates.txt lists them, the prover's command for one of them, and how many are at work at once.

`rt` lets one run at a time work on a crate and on all below it. So crates are proved by the prover's own command, side by side, over
libraries that an earlier proof built. A room is a copy of a crate and of those below it.
"""
import functools
import hashlib
import os
import re
import shutil
import subprocess
import threading
import time

TOP = os.path.dirname(os.path.dirname(os.path.abspath(__file__)))
CRATES = f"{TOP}/crates"
# What a crate is made of.
PARTS = ("src", "specs", "proofs")
# A process of the prover takes up to so many mebibytes, as seen: what is not free is not handed out.
MEBIBYTES = 3_000


def lines():
    """The line of crates.txt for each crate, lowest first."""
    with open(f"{TOP}/crates.txt", encoding="utf-8") as file:
        return {line.partition(":")[0].split()[0]: line for line in file if ":" in line and not line.startswith("#")}


def listed():
    """The crates of this repository that each one names."""
    all_lines = lines()
    return {name: [it for it in line.partition(":")[2].split() if it in all_lines] for name, line in all_lines.items()}


def below(crates, names):
    """All that these crates stand on, and they themselves, lowest first."""
    found, waiting = set(), list(names)
    while waiting:
        name = waiting.pop()
        if name not in found:
            found.add(name)
            waiting += crates[name]
    return [it for it in crates if it in found]


def above(crates, name):
    """A crate and all that stand on it, lowest first."""
    return [it for it in crates if name in below(crates, [it])]


def is_program(crate):
    return os.path.isfile(f"{CRATES}/{crate}/src/main.rt")


def size(crate):
    """The lines of a crate's code and proofs, to which the time of its proof is about proportional."""
    count = 0
    for part in PARTS:
        for at, _, files in os.walk(f"{CRATES}/{crate}/{part}"):
            for name in files:
                with open(f"{at}/{name}", "rb") as file:
                    count += file.read().count(b"\n")
    return count


def behind(tasks):
    """For each task its size and that of the longest chain of tasks that wait for it."""
    longest = {}
    for key in reversed(tasks):
        waiting = [longest[it] for it, (_, waits) in tasks.items() if key in waits]
        longest[key] = tasks[key][0] + max(waiting, default=0)
    return longest


def free():
    """Mebibytes of memory that are free now."""
    with open("/proc/meminfo", encoding="utf-8") as file:
        return int(re.search(r"MemAvailable:\s+(\d+)", file.read())[1]) // 1024


def processors():
    return len(os.sched_getaffinity(0))


def put_up(room, crate, crates):
    """Makes the folder a room for a crate: its sources and those of the crates below it. Gives the crate's folder there."""
    lower = [it for it in below(crates, [crate]) if it != crate]
    all_lines = lines()
    os.makedirs(room, exist_ok=True)
    shutil.copy(f"{TOP}/HANDLES", room)
    with open(f"{room}/crates.txt", "w", encoding="utf-8") as file:
        file.writelines(all_lines[name] for name in (*lower, crate))
    for name in (*lower, crate):
        for part in PARTS:
            if os.path.isdir(f"{CRATES}/{name}/{part}"):
                shutil.copytree(f"{CRATES}/{name}/{part}", f"{room}/crates/{name}/{part}")
    return f"{room}/crates/{crate}"


@functools.cache
def kit():
    """The folder of the kit."""
    return os.path.dirname(subprocess.run(["rt", "doc"], capture_output=True, text=True, check=True).stdout.strip())


def library(crate, libraries=CRATES):
    """Where a library lies once it is built."""
    return f"{libraries}/{crate}/out/rlib/{crate}.rlib"


def prover_words(verb, crate, crates, libraries=CRATES, jobs=1, keeps=True):
    """The command by which the prover itself works on a crate in the folder that it is run in, over libraries that are built. It keeps
    there what it proves, unless it is not to."""
    named = lines()[crate].partition(":")[2].split()
    root = "src/main.rt" if is_program(crate) else "src/lib.rt"
    words = [f"{kit()}/bin/rattle", verb, "--crate-name", crate, root, "--jobs", str(jobs)]
    words += ["--incremental", "out/incremental"] if keeps else ["--statements"] * (not is_program(crate))
    for name in ("std", *named):
        words += ["--extern", f"{name}={library(name, libraries) if name in crates else f'{kit()}/rlibs/{name}.rlib'}"]
    for name in below(crates, [crate]):
        words += ["-L", f"dependency={os.path.dirname(library(name, libraries))}"] * (name != crate)
        words += ["--links", f"{name}="] * (name == crate or is_program(crate))
    words += ["-L", f"dependency={kit()}/rlibs"]
    return [*words, "--antt-project", f"{kit()}/rattle/logic/antt-project.json", "--logic-built", f"{kit()}/logic_built"]


def linked(program):
    """Makes a program of its object file, PROGRAM.o, and says whether that could be done."""
    words = [f"{kit()}/bin/rattle-link", "--target", "x86_64-unknown-linux-gnu", "--toolchain", f"{kit()}/toolchain", "-o", program]
    return not subprocess.call([*words, f"{program}.o", f"{kit()}/c/libos_c.a", f"{kit()}/c/liblibc_c.a"])


def made(crate):
    """What a proof of a crate makes: its library or, of a program, the program."""
    return f"{CRATES}/{crate}/out/{crate}" if is_program(crate) else library(crate)


def key(crate, crates):
    """A digest of all that a crate's library or program is made of: its sources, the kit, and the libraries below it as they were
    built, of each of which the file `format` has the sums. None where one of them is not there."""
    digest = hashlib.sha256(lines()[crate].encode())
    formats = [f"{library(it)}/format" for it in below(crates, [crate]) if it != crate]
    walked = [f"{at}/{name}" for part in PARTS for at, _, names in os.walk(f"{CRATES}/{crate}/{part}") for name in names]
    for path in [f"{kit()}/KIT-ID", *formats, *sorted(walked)]:
        try:
            with open(path, "rb") as file:
                text = file.read()
        except FileNotFoundError:
            return None
        digest.update(f"{os.path.relpath(path, TOP)} {len(text)}\n".encode() + text)
    return digest.hexdigest()


@functools.cache
def definitions(crate):
    """A digest of what a proof over a crate rests on: its line of crates.txt, its code but tests, and its specs."""
    digest = hashlib.sha256(lines()[crate].encode())
    walked = [f"{at}/{name}" for part in ("src", "specs") for at, _, names in os.walk(f"{CRATES}/{crate}/{part}") for name in names]
    for path in sorted(it for it in walked if "tests" not in os.path.splitext(it)[0].split("/src/")[-1].split("/")):
        with open(path, "rb") as file:
            text = file.read()
        digest.update(f"{os.path.relpath(path, TOP)} {len(text)}\n".encode() + text)
    return digest.hexdigest()


def is_made(crate, crates):
    """Whether what a proof of a crate makes is there, made of what is there now."""
    try:
        with open(f"{CRATES}/{crate}/out/made-of", encoding="utf-8") as file:
            return os.path.exists(made(crate)) and file.read() == key(crate, crates)
    except FileNotFoundError:
        return False


def note_made(crate, said):
    """Notes of what a crate's library or program was made."""
    with open(f"{CRATES}/{crate}/out/made-of", "w", encoding="utf-8") as file:
        file.write(said)


def note(file, kind, crate, count, seconds, used, mebibytes):
    """Adds a line to a file of times, if one is named: what was done, the crate, of how many things, seconds, processor seconds and the
    mebibytes of the largest process."""
    if file:
        with open(file, "a", encoding="utf-8") as times:
            times.write(f"{kind} {crate} {count} {seconds:.0f} {used:.0f} {mebibytes}\n")


class Job:
    """A command in the background, with what it wrote, its time and its memory once it is over."""

    def __init__(self, words, folder, log, ended=None, jobs=1):
        self.words, self.begun, self.log, self.jobs, self.is_over = words, time.time(), log, jobs, False
        with open(log, "w", encoding="utf-8") as file:
            self.process = subprocess.Popen(words, cwd=folder, stdin=subprocess.DEVNULL, stdout=file, stderr=subprocess.STDOUT)
        if ended:
            threading.Thread(target=self.wait, args=(ended,), daemon=True).start()

    def wait(self, ended=None):
        """Waits for its end, and tells it to who is named."""
        _, status, used = os.wait4(self.process.pid, 0)
        self.process.returncode = self.status = os.waitstatus_to_exitcode(status)
        self.seconds, self.used = time.time() - self.begun, used.ru_utime + used.ru_stime
        self.mebibytes = used.ru_maxrss // 1024
        self.is_over = True
        if ended:
            with ended:
                ended.notify()

    def said(self):
        with open(self.log, encoding="utf-8", errors="replace") as file:
            return file.read()


def in_lanes(tasks, begin, ended_with, count, until=float("inf")):
    """Begins tasks side by side, each once those it waits for have ended well, first those with the most behind them, and none once
    the clock (seconds since 1970) is past `until`. What the most waits for has half of the processors, though others are at work.

    `tasks` has for each key its size and what it waits for, later ones behind; `begin(key, jobs, ended)` begins one and gives its
    Job; `ended_with(key, job)` says whether it ended well. `count` is how many processors there are. Gives the keys that were not begun.
    """
    first, left, running, done, ended = behind(tasks), list(tasks), {}, set(), threading.Condition()
    while left or running:
        open_now = [] if time.time() > until else left
        ready = sorted((it for it in open_now if done.issuperset(tasks[it][1])), key=lambda it: -first[it])
        if not ready and not running:
            break
        for at, key in enumerate(ready):
            idle = count - sum(job.jobs for job in running.values())
            young = sum(job.jobs for job in running.values() if time.time() - job.begun < 30)
            room = free() // MEBIBYTES - young
            if running and (idle <= 0 or room <= 0):
                break
            is_longest = first[key] >= max(first[it] for it in (*left, *running))
            fair = max(idle // (len(ready) - at), count // 2 if is_longest else 1)
            left.remove(key)
            running[key] = begin(key, max(1, min(fair, room, 4)), ended)
        with ended:
            ended.wait_for(lambda: any(job.is_over for job in running.values()), timeout=20)
        for key in [it for it, job in running.items() if job.is_over]:
            if ended_with(key, running.pop(key)):
                done.add(key)
    return left
