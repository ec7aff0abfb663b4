"""Clients that hear of newer signatures, for clients.py: programs in C, C++ and Python that print each version, and the helper for fanotify,
which has the kernel remember grants with -k. A guard of bytes names its versions and counts what it is asked. The helper also runs over a guard
of the product, if that one names them."""
import mmap, os, re, shutil, socket, struct, subprocess, sys, threading, time

SECONDS = 60
AGAIN = 20  # seconds within which the helper asks once more for versions, and forgets what was deleted


# Programs that print each version that a guard names, and `-` if none comes for a moment.
IN_C = """#include "avask.h"
#include <inttypes.h>
#include <stdio.h>
int main(int count, char **words) {
    uint64_t version;
    int guard = av_connect(words[1]), told = AV_LOST;
    if (count == 2 && guard >= 0 && av_wait(guard, 1) == 0) told = av_watch(guard);
    while (told != AV_LOST) {
        told = av_version(guard, 100, &version);
        if (told == AV_VERSION) printf("%" PRIu64 "\\n", version);
        if (told == AV_OPEN) puts("-");
        fflush(stdout);
    }
    puts("lost");
    return 0;
}
"""
IN_PYTHON = """import sys
from ask import Guard, Lost
with Guard(sys.argv[1], seconds=1) as guard:
    try:
        for version in guard.versions(0.1):
            print("-" if version is None else version, flush=True)
    except Lost:
        print("lost")
"""


def frame(kind, *fields):
    body = bytes([kind]) + b"".join(fields)
    return struct.pack(">I", len(body)) + body


class Naming:
    """A guard of bytes that names its version to those who ask for it, unless it is an older one. It denies what has XX in it, in parts or not,
    and counts what it is asked."""

    def __init__(self, path, version=1, is_older=False, first=None):
        self.version, self.answers_by, self.is_older, self.first = version, version, is_older, first
        # of each connection over which versions are named, the tag of what it asks for and the version that it has
        self.asked, self.watching, self.ends, self.lock = 0, {}, [], threading.Lock()
        self.listener = socket.socket(socket.AF_UNIX)
        self.listener.bind(path)
        self.listener.listen(64)
        threading.Thread(target=self.serve, daemon=True).start()

    def serve(self):
        while True:
            try:
                end, _ = self.listener.accept()
            except OSError:
                return
            self.ends.append(end)
            threading.Thread(target=self.attend, args=(end,), daemon=True).start()

    def attend(self, end):
        try:
            with end.makefile("rb") as sent:
                self.hear(end, sent)
        except OSError:
            pass
        self.watching.pop(end, None)
        end.close()

    def hear(self, end, sent):
        content = b""
        while len(head := sent.read(4)) == 4:
            body = sent.read(*struct.unpack(">I", head))
            kind, tag = body[0], body[1:9]
            if kind == 8 and len(body) == 17 and not self.is_older:
                if self.first:
                    end.sendall(self.first)
                    continue
                with self.lock:
                    self.watching[end] = tag, *struct.unpack(">Q", body[9:])
                    self.tell(end)
            elif kind in (1, 5):
                content = body[10 + body[9]:]
            elif kind == 6:
                content += body[9:]
            elif kind != 7:
                return
            if kind in (1, 7):
                self.asked += 1
                end.sendall(frame(3, tag, b"\2") if b"XX" in content else frame(2, tag, struct.pack(">QQ", 2, self.answers_by)))

    def tell(self, end):
        """Names the version to a connection, once, if that asked for a newer one than it has."""
        tag, known = self.watching[end] or (None, self.version)
        if known < self.version:
            self.watching[end] = None
            end.sendall(frame(9, tag, struct.pack(">Q", self.version)))

    def rise(self, version):
        """Names a newer version, and answers by it from then on."""
        with self.lock:
            self.version = version
            for end in list(self.watching):
                self.tell(end)
        self.answers_by = version

    def lose(self):
        """Closes the connections over which it names versions."""
        for end in list(self.watching):
            end.shutdown(socket.SHUT_RDWR)

    def close(self):
        self.listener.shutdown(socket.SHUT_RDWR)
        self.listener.close()
        for end in self.ends:
            try:
                end.shutdown(socket.SHUT_RDWR)
            except OSError:
                pass


def programs_of_versions(room, client):
    """Programs that have a client built in, by their language."""
    programs = {"Python": [sys.executable, "-c", IN_PYTHON]}
    for name, compiler, suffix, standard in (("C", "cc", "c", "c11"), ("C++", "c++", "cc", "c++11")):
        if shutil.which(compiler):
            source, made = room.write(f"versions.{suffix}", IN_C.encode()), os.path.join(room.folder, f"versions.{suffix}.out")
            words = [compiler, f"-std={standard}", "-D_GNU_SOURCE", "-Wall", "-Wextra", "-pedantic", "-Werror", "-I", client, "-o", made, source]
            subprocess.run(words, check=True)
            programs[name] = [made]
    return programs


def named(cases, room, client):
    """What programs hear of versions, and how it ends."""
    for name, words in programs_of_versions(room, client).items():
        def started(guard):
            return room.start(*words, room.opens, stdout=subprocess.PIPE, env={**os.environ, "PYTHONPATH": client, "PYTHONDONTWRITEBYTECODE": "1"})

        def ended(guard):
            guard.close()
            os.unlink(room.opens)

        guard = Naming(room.opens, version=0)
        program = started(guard)
        cases.same(f"no service has connected yet, {name}", program.stdout.readline(), b"-\n")
        for version in (1, 2, 2**64 - 1):
            guard.rise(version)
            while (line := program.stdout.readline()) == b"-\n":
                pass
            cases.same(f"version {version}, {name}", line, b"%d\n" % version)
        guard.lose()
        cases.same(f"the guard is lost, {name}", program.communicate(timeout=SECONDS)[0].replace(b"-\n", b""), b"lost\n")
        ended(guard)
        good = frame(9, struct.pack(">QQ", 0, 1))
        for what, first in (("half a frame", good[:9]), ("another kind", good[:4] + b"\2" + good[5:]), ("a frame that is too long", b"\0\0\0\x12" + good[4:] + b"0"), ("who is asked here", frame(255, bytes([4] + 8 * [0])))):
            guard = Naming(room.opens, first=first)
            cases.same(f"a guard that sends {what}, {name}", started(guard).communicate(timeout=SECONDS)[0], b"lost\n")
            ended(guard)
        guard = Naming(room.opens, is_older=True)
        cases.same(f"a guard that names no versions, {name}", started(guard).communicate(timeout=SECONDS)[0], b"lost\n")
        ended(guard)


def remembered(process):
    """How many files the kernel remembers for a process that marks."""
    count = 0
    for end in os.listdir(f"/proc/{process}/fd"):
        try:
            with open(f"/proc/{process}/fdinfo/{end}") as file:
                count += len(re.findall(r"ignored_mask:[0-9a-f]*[1-9a-f]", file.read()))
        except OSError:
            pass
    return count


def await_that(holds, seconds=AGAIN):
    limit = time.time() + seconds
    while not (is_so := holds()) and time.time() < limit:
        time.sleep(0.005)
    return is_so


def opens(path):
    """Whether a file may be opened."""
    try:
        os.close(os.open(path, os.O_RDONLY))
        return True
    except PermissionError:
        return False


class Watched:
    """A folder under the helper, beside a guard that counts."""

    def __init__(self, cases, room, guard, holder):
        self.cases, self.room, self.guard, self.process = cases, room, guard, holder.process

    def write(self, name, content):
        """A new file. The kernel never remembered it, and its writing asks nobody about a content."""
        path = os.path.join(self.room.folder, "watched", name)
        with open(os.path.join(self.room.folder, "new"), "wb") as file:
            file.write(content)
        os.rename(file.name, path)
        return path

    def count(self):
        return remembered(self.process.pid)

    def unasked(self, path):
        """Whether a file may be opened, and nobody is asked."""
        before = self.guard.asked
        return opens(path) and self.guard.asked == before

    def open(self, what, path, may=True, asked=1, remembered=None):
        """Opens a file: whether it may be opened, how often the guard is asked, and how many files the kernel remembers then."""
        before = self.guard.asked
        self.cases.same(what, (opens(path), self.guard.asked - before), (may, asked))
        if remembered is not None:
            self.cases.check(f"{what}: {remembered} remembered", await_that(lambda: self.count() == remembered), f"{self.count()}")


def is_remembered(cases, room, holder):
    """Whether the kernel remembers a file of this folder at all: not where the file system or the rights of this process don't let it."""
    path = Watched(cases, room, None, holder).write("first", b"first")
    return await_that(lambda: opens(path) and remembered(holder.process.pid) > 0)


def changes(cases, it):
    """Whatever may change a content has the kernel ask again."""
    for name, content in (("small", b"ABC"), ("parts", bytes(200_000))):
        path = it.write(name, content)
        before = it.count()
        it.open(f"{name}: the first open is asked about", path, remembered=before + 1)
        for time_of in ("second", "third"):
            it.open(f"{name}: the {time_of} is not", path, asked=0)
        with open(path, "ab") as file:
            file.write(b"more")
        it.open(f"{name}: after a write", path, remembered=before + 1)
        it.open(f"{name}: and not once more", path, asked=0)
        with open(path, "ab") as file:
            file.write(b"XX")
        for _ in range(2):
            it.open(f"{name}: a denial is not remembered", path, False, remembered=before)
        os.truncate(path, 3)
        it.open(f"{name}: after a truncation", path, remembered=before + 1)
        os.close(os.open(path, os.O_RDONLY | os.O_TRUNC))
        it.open(f"{name}: after a truncation by an open for reading", path)
        os.unlink(path)


def mapped(cases, it):
    """A file is not remembered while someone can write to it, even if only by a mapping."""
    path = it.write("mapped", b"A" * 5000)
    before = it.count()
    it.open("it is remembered", path, remembered=before + 1)
    with open(path, "r+b") as file:
        with mmap.mmap(file.fileno(), 0) as memory:
            it.open("while it is mapped and not changed", path, remembered=before)
            it.open("and once more", path)
            file.close()
            memory[4000:4002] = b"XX"
            it.open("a change by the mapping alone", path, False)
            memory[4000:4002] = b"AA"
            it.open("and back", path, remembered=before)
    it.open("without the mapping", path, remembered=before + 1)
    it.open("it is remembered again", path, asked=0)
    try:
        os.close(os.open(path, os.O_WRONLY | os.O_NONBLOCK))
        cases.check("a writer that waits for nothing has to come again", False)
    except BlockingIOError:
        cases.check("and may come again", await_that(lambda: can_write(path)))
    os.unlink(path)


def can_write(path):
    try:
        os.close(os.open(path, os.O_WRONLY | os.O_NONBLOCK))
        return True
    except BlockingIOError:
        return False


def versions(cases, it):
    """Newer signatures, named or seen in an answer, and the loss of the one who names them."""
    guard, paths = it.guard, [it.write(f"version {n}", b"ABC") for n in range(3)]
    for path in paths:
        it.open("before newer signatures", path)
    cases.check("all are remembered", await_that(lambda: it.count() >= 3), f"{it.count()}")
    guard.rise(2)
    cases.check("newer signatures come: none is", await_that(lambda: it.count() == 0), f"{it.count()}")
    for n, path in enumerate(paths):
        it.open("after newer signatures", path, remembered=n + 1)
        it.open("and once more", path, asked=0)
    guard.answers_by = 3
    it.open("an answer names newer signatures: the others are forgotten", it.write("version 3", b"ABC"), remembered=1)
    it.open("and asked about", paths[0], remembered=2)
    guard.rise(3)
    it.open("the guard names them as well", paths[0], asked=0)
    guard.answers_by = 2
    it.open("an answer by older ones is not remembered", paths[1])
    it.open("so it is asked about again", paths[1], remembered=2)
    guard.answers_by = 3
    guard.lose()
    cases.check("the guard names no versions any more: none is remembered", await_that(lambda: it.count() == 0), f"{it.count()}")
    it.open("nor then", paths[0], remembered=0)
    cases.check("until it does again", await_that(lambda: opens(paths[0]) and it.count() == 1), f"{it.count()}")
    it.open("from then on they are", paths[0], asked=0)
    for path in paths:
        os.unlink(path)


def bounds(cases, it, most):
    """No more files than -k says, and none that was deleted."""
    paths = [it.write(f"many {n}", b"ABC") for n in range(3 * most)]
    for path in paths + paths:
        cases.check("each of many may be opened", opens(path))
    cases.check("as many are remembered as may be", await_that(lambda: it.count() == most), f"{it.count()}")
    cases.check("the last of them too", await_that(lambda: it.unasked(paths[-1])))
    for path in paths:
        os.unlink(path)
    cases.check("no deleted file stays open", await_that(lambda: not deleted(it.process.pid)), deleted(it.process.pid))


def deleted(process):
    """The deleted files that a process has open. What it closes meanwhile is none of them."""
    names = []
    for end in os.listdir(f"/proc/{process}/fd"):
        try:
            names.append(os.readlink(f"/proc/{process}/fd/{end}"))
        except OSError:
            pass
    return [name for name in names if name.endswith(" (deleted)")]


def rushed(cases, it):
    """Opens beside writes through another name of the file, at which nobody holds them: what was written is judged, and no writer waits long. The
    kernel lets opens pass while it destroys a mark of their file, which this finds."""
    path, stop, faults, turns = it.write("rushed", b"A" * 100), threading.Event(), [], [0, 0]
    os.link(path, outside := os.path.join(it.room.folder, "rushed"))

    def read():
        while not stop.is_set():
            opens(path)
            turns[0] += 1

    readers = [threading.Thread(target=read) for _ in range(3)]
    for reader in readers:
        reader.start()
    limit = time.time() + 4
    while time.time() < limit:
        begun = time.time()
        with open(outside, "r+b") as file:
            file.write(b"XX" if turns[1] % 2 else b"AA")
        if (taken := time.time() - begun) > 20:
            faults.append(f"a writer waited {taken:.1f} s")
        if opens(path) == (turns[1] % 2):
            faults.append(f"turn {turns[1]}: an open of {'XX' if turns[1] % 2 else 'AA'} was judged wrongly")
        turns[1] += 1
    stop.set()
    for reader in readers:
        reader.join()
    cases.same(f"opens and writes side by side, {turns}", faults, [])
    os.unlink(path)


def kept(cases, room, holder_of):
    """All of this. `holder_of` starts the helper over the folder with options."""
    os.mkdir(os.path.join(room.folder, "watched"))
    guard, most = Naming(room.opens), 8
    holder = holder_of("-k", str(most))
    if holder.process.poll() is not None:
        print(f"the helper for fanotify was not run: {holder.lines().decode().strip()}", file=sys.stderr)
        return
    if not is_remembered(cases, room, holder):
        print("the kernel remembers no grant here: -k was not tried", file=sys.stderr)
        return
    if shutil.which("setpriv"):
        words = ["setpriv", "--bounding-set=-dac_override,-dac_read_search", room.holder, "-k", "1", room.opens, "watched"]
        done = subprocess.run(words, cwd=room.folder, capture_output=True, timeout=SECONDS)
        wanted = (4, b"avguard-onaccess: CAP_DAC_READ_SEARCH: Operation not permitted\n")
        cases.same("-k without the right to read each file", (done.returncode, done.stderr), wanted)
    it = Watched(cases, room, guard, holder)
    changes(cases, it)
    mapped(cases, it)
    rushed(cases, it)
    versions(cases, it)
    bounds(cases, it, most)
    cases.check("it runs still", holder.process.poll() is None, holder.lines())
    holder.end()
    guard.close()
    os.unlink(room.opens)
    older(cases, room, holder_of)
    of_a_mount(cases, room, holder_of)
    of_the_product(cases, room, holder_of)


def older(cases, room, holder_of):
    """A guard that names no versions: nothing is remembered."""
    guard = Naming(room.opens, is_older=True)
    holder = holder_of("-k", "8")
    it = Watched(cases, room, guard, holder)
    path = it.write("older", b"ABC")
    for _ in range(3):
        it.open("a guard that names no versions is asked each time", path, remembered=0)
    holder.end()
    guard.close()
    os.unlink(room.opens)


def of_a_mount(cases, room, holder_of):
    """With -m, files in folders of a mount are remembered too."""
    watched = os.path.join(room.folder, "watched")
    if subprocess.run(["mount", "--bind", watched, watched], capture_output=True).returncode:
        print("nothing can be mounted here: -m was not tried with -k", file=sys.stderr)
        return
    try:
        guard = Naming(room.opens)
        holder = holder_of("-m", "-k", "8")
        it, path = Watched(cases, room, guard, holder), os.path.join(watched, "inner", "file")
        os.mkdir(os.path.dirname(path))
        with open(path, "wb") as file:
            file.write(b"ABC")
        cases.check("a file of a mount is remembered", await_that(lambda: opens(path) and it.count() == 1), f"{it.count()}")
        it.open("its next open is not asked about", path, asked=0)
        with open(path, "ab") as file:
            file.write(b"more")
        it.open("after a write it is", path, remembered=1)
        guard.rise(2)
        cases.check("newer signatures come: it is forgotten", await_that(lambda: it.count() == 0), f"{it.count()}")
        it.open("and asked about", path, remembered=1)
        it.open("once", path, asked=0)
        holder.end()
        guard.close()
        os.unlink(room.opens)
    finally:
        subprocess.run(["umount", "-l", watched], check=True)


def names_versions(path):
    """Whether a guard names its version."""
    with socket.socket(socket.AF_UNIX) as end:
        end.settimeout(SECONDS)
        end.connect(path)
        end.sendall(frame(8, struct.pack(">QQ", 0, 0)))
        return end.recv(5) == b"\0\0\0\x11\x09"


def of_the_product(cases, room, holder_of):
    """The same of a guard and a service of the product."""
    room.guard()
    if not names_versions(room.opens):
        print("this guard names no versions: -k was not tried with it", file=sys.stderr)
        return
    holder = holder_of("-k", "8")
    watched = Watched(cases, room, None, holder)
    clean, later = watched.write("clean", b"ABC"), watched.write("later", b"A letter with YYY in it")
    is_remembered(cases, room, holder)
    cases.same("what may be opened", (opens(clean), opens(later), opens(clean), opens(later)), (True,) * 4)
    cases.check("both are remembered", await_that(lambda: watched.count() >= 2), f"{watched.count()}")
    with open(clean, "ab") as file:
        file.write(b"XX")
    cases.same("a write is seen", (opens(clean), opens(clean), opens(later)), (False, False, True))
    room.write("next", b"avsig 1\nversion 2\nTest.Y 595959\n")
    os.rename(os.path.join(room.folder, "next"), os.path.join(room.folder, "set.avsig"))
    cases.check("newer signatures are seen", await_that(lambda: not opens(later)))
    cases.same("and judge", (opens(clean), opens(later)), (True, False))
    room.scanner.kill()
    room.scanner.wait()
    cases.check("without a service the helper runs still", holder.process.poll() is None, holder.lines())
    holder.end()
