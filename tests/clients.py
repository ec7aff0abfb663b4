#!/usr/bin/env python3
"""The clients of examples/ beside `avguard ask`, over one guard and service: what they print, and how they end; and programs that have
them built in.

The client in C and that in Python are asked about files that are clean, infected, empty, as long as an ask may be, longer, not there; with
no guard, one that lets through, one that goes away or says what is no answer, and stopped while they wait. A guard of bytes answers contents
in parts early, with each cause of theirs, or never. The helper for fanotify holds `cat` of clean and of infected files, `cp` of a library,
python3 and a file of 4 GiB, where the machine lets it. With -k it has the kernel remember what was granted (kept.py). clamdscan, clamonacc, rspamd and pyclamd ask at --clamd, where they are
installed (Debian: clamdscan, clamav-daemon, rspamd, python3-pyclamd); each that was not run is named.
The last line says how many passed and how many failed."""
import filecmp, glob, os, re, shutil, signal, socket, struct, subprocess, sys, tempfile, threading, time

import kept
from cases import Cases
from programs import program_beside

ROOT = os.path.dirname(os.path.dirname(os.path.abspath(__file__)))
SECONDS = 60
MOST = 1 << 20
SET = b"avsig 1\nversion 1\nTest.X 5858\n"
GRANTED, INFECTED = b" granted generation 2 version 1\n", b" denied cause 2\n"
# A grant of the ask with tag 0.
GRANT = bytes.fromhex("00000019" "02") + struct.pack(">QQQ", 0, 2, 1)
CLIENT = os.path.join(ROOT, "examples", "client")
# Programs that ask about each of their words, with no longer wait than a second: one in C that is C++ as well, and one in Python.
IN_C = b"""#include "avask.h"
#include <stdio.h>
int main(int count, char **words) {
    struct av_answer answer;
    int guard = av_connect(words[1]);
    if (guard < 0 || av_wait(guard, 1) < 0) return 4;
    for (int i = 2; i < count; i++) printf("%d\\n", av_ask(guard, words[i], strlen(words[i]), &answer));
    return 0;
}
"""
IN_PYTHON = """import sys
from ask import Guard, Lost
with Guard(sys.argv[1], seconds=1) as guard:
    for word in sys.argv[2:]:
        try:
            print({"granted": 2, "denied": 3}[guard.judged(word.encode()).split()[0]])
        except Lost:
            print(-1)
"""
# The same of contents in parts of 1,000 bytes, of which each word is a length: how often it is sent, and what is said of it. A content whose
# length is odd is given up.
PARTS_IN_C = b"""#include "avask.h"
#include <stdio.h>
#include <stdlib.h>
int main(int count, char **words) {
    static char content[1000];
    struct av_content parts;
    struct av_answer answer;
    int guard = av_connect(words[1]);
    if (guard < 0 || av_wait(guard, 1) < 0) return 4;
    for (int i = 2; i < count; i++) {
        long left = atol(words[i]), odd = left % 2;
        int said = av_begin(&parts, guard);
        for (; said == AV_OPEN && left > 0; left -= 1000) said = av_part(&parts, content, left < 1000 ? (size_t)left : 1000);
        said = odd ? av_give_up(&parts, &answer) : av_end(&parts, &answer);
        printf("%d %s\\n", said, said == AV_DENIED ? av_why(answer.cause) : "-");
    }
    return 0;
}
"""
PARTS_IN_PYTHON = """import sys
from ask import Guard, Lost, WHY, cause_of
with Guard(sys.argv[1], seconds=1) as guard:
    for word in sys.argv[2:]:
        try:
            content, left = guard.begin(7), int(word)
            while left > 0 and content.part(bytes(min(left, 1000))) is None:
                left -= 1000
            words = content.give_up() if int(word) % 2 else content.end()
            print({"granted": 2, "denied": 3}[words.split()[0]], WHY.get(cause_of(words), "-"))
        except Lost:
            print(-1, "-")
"""
FILES = {"clean": b"ABC", "infected": b"A letter with XX in it", "empty": b"", "small": b"A" * 65536, "parts": b"A" * 65537, "most": b"A" * MOST, "last": b"A" * (MOST - 2) + b"XX",
         "long": b"XX" + b"A" * MOST, "longer": b"A" * (3 * MOST + 1), "tail": b"A" * 3 * MOST + b"XX"}


class Room:
    """A folder with files to ask about, the clients, and a guard and a service that are started in it."""

    def __init__(self, program, folder):
        self.program, self.avguard, self.folder, self.begun = program, program_beside(program, "avguard"), folder, []
        self.opens, self.service, self.clamd = (os.path.join(folder, name) for name in ("o", "s", "c"))
        for name, content in {**FILES, "set.avsig": SET}.items():
            self.write(name, content)
        os.mkdir(os.path.join(folder, "folder"))
        self.ask, self.holder = os.path.join(folder, "ask"), os.path.join(folder, "avguard-onaccess")
        build(os.path.join(CLIENT, "ask.c"), self.ask)
        build(os.path.join(ROOT, "examples", "fanotify", "avguard-onaccess.c"), self.holder)

    def write(self, name, content):
        path = os.path.join(self.folder, name)
        with open(path, "wb") as file:
            file.write(content)
        return path

    def clients(self, wait=SECONDS):
        """The name of each and the words that start it; `avguard ask` is the one that the others are compared with."""
        return (("avguard", [self.avguard, "ask", "-k", "--wait", str(wait)]), ("ask", [self.ask]), ("ask.py", [sys.executable, os.path.join(CLIENT, "ask.py")]))

    def start(self, *words, **more):
        process = subprocess.Popen(words, cwd=self.folder, stdin=subprocess.DEVNULL, **more)
        self.begun.append(process)
        return process

    def guard(self, *words, service=True):
        """A guard, with a service that has said which version it has."""
        guard = self.start(self.avguard, "run", *words, self.opens, self.service, stderr=subprocess.PIPE)
        if service:
            self.scanner = self.start(self.program, "service", "--watch", "1", self.service, "set.avsig", stdout=subprocess.DEVNULL, stderr=subprocess.DEVNULL)
            while b"parts connected" not in (line := guard.stderr.readline()):
                if not line:
                    raise OSError("the guard ended")
        else:
            await_path(self.opens)
        return guard

    def end_others(self, stays):
        """Ends what was started but this."""
        self.begun.remove(stays)
        self.end()
        self.begun.append(stays)

    def end(self):
        """Ends what was started."""
        for process in self.begun:
            process.kill()
            process.communicate()
        self.begun.clear()
        for path in (self.opens, self.service, self.clamd):
            if os.path.exists(path):
                os.unlink(path)


def build(source, program):
    subprocess.run(["cc", "-std=c11", "-O1", "-Wall", "-Wextra", "-Werror", "-pthread", "-o", program, source], check=True)


def await_path(path):
    limit = time.time() + SECONDS
    while not os.path.exists(path) and time.time() < limit:
        time.sleep(0.002)


def ended(process):
    out, err = process.communicate(timeout=SECONDS)
    return process.returncode, out, err


def run(room, words, *more):
    return ended(room.start(*words, *more, stdout=subprocess.PIPE, stderr=subprocess.PIPE))


def same(cases, room, what, words, wanted, wait=SECONDS):
    """Each client ends so: status, standard output, and the lines of standard error behind the client's name and a colon."""
    status, out, err = wanted
    for name, client in room.clients(wait):
        front = name.encode() + b": "
        cases.same(f"{what}, {name}", run(room, client, *words), (status, out, b"".join(front + line for line in err)))


def embedded(cases, room):
    """Programs that have the clients built in: what they are told, and that a guard which is stopped doesn't keep them."""
    programs = {"Python": [sys.executable, "-c", IN_PYTHON]}
    for name, compiler, source, standard in (("C", "cc", "in.c", "c11"), ("C++", "c++", "in.cc", "c++11")):
        if shutil.which(compiler) is None:
            print(f"{compiler} is not installed: {name} was not tried")
            continue
        made = os.path.join(room.folder, source + ".out")
        words = [compiler, f"-std={standard}", "-D_GNU_SOURCE", "-Wall", "-Wextra", "-pedantic", "-Werror", "-I", CLIENT]
        cases.same(f"{name} takes avask.h", run(room, [*words, "-o", made, room.write(source, IN_C)]), (0, b"", b""))
        programs[name] = [made]
    guard = room.guard()
    for name, words in in_parts(cases, room).items():
        more = {"env": {**os.environ, "PYTHONPATH": CLIENT, "PYTHONDONTWRITEBYTECODE": "1"}}
        asked = room.start(*words, room.opens, "0", "500", "3000000", "200001", "1000", stdout=subprocess.PIPE, stderr=subprocess.PIPE, **more)
        cases.same(f"contents in parts of a program in {name}", ended(asked), (0, b"2 -\n2 -\n2 -\n3 given up\n2 -\n", b""))
        guard.send_signal(signal.SIGSTOP)
        asked = room.start(*words, room.opens, "3000000", stdout=subprocess.PIPE, stderr=subprocess.PIPE, **more)
        cases.same(f"a guard that is stopped amid them, a program in {name}", ended(asked), (0, b"-1 -\n", b""))
        guard.send_signal(signal.SIGCONT)
    for name, words in programs.items():
        more = {"env": {**os.environ, "PYTHONPATH": CLIENT, "PYTHONDONTWRITEBYTECODE": "1"}}
        asked = room.start(*words, room.opens, "ABC", "XX", "", stdout=subprocess.PIPE, stderr=subprocess.PIPE, **more)
        cases.same(f"a program in {name}", ended(asked), (0, b"2\n3\n2\n", b""))
        guard.send_signal(signal.SIGSTOP)
        asked = room.start(*words, room.opens, "ABC", stdout=subprocess.PIPE, stderr=subprocess.PIPE, **more)
        cases.same(f"a guard that is stopped, a program in {name}", ended(asked), (0, b"-1\n", b""))
        guard.send_signal(signal.SIGCONT)


def in_parts(cases, room):
    """Programs that send contents in parts."""
    programs = {"Python": [sys.executable, "-c", PARTS_IN_PYTHON]}
    for name, compiler, source, standard in (("C", "cc", "parts.c", "c11"), ("C++", "c++", "parts.cc", "c++11")):
        if shutil.which(compiler):
            made = os.path.join(room.folder, source + ".out")
            words = [compiler, f"-std={standard}", "-D_GNU_SOURCE", "-Wall", "-Wextra", "-pedantic", "-Werror", "-I", CLIENT]
            cases.same(f"{name} takes the parts of avask.h", run(room, [*words, "-o", made, room.write(source, PARTS_IN_C)]), (0, b"", b""))
            programs[name] = [made]
    return programs


def answers(cases, room):
    room.guard()
    lines = {"clean": GRANTED, "infected": INFECTED, "empty": GRANTED, "small": GRANTED, "parts": GRANTED, "most": GRANTED, "last": INFECTED, "long": INFECTED, "longer": GRANTED, "tail": INFECTED}
    for _ in range(2):
        for name, line in lines.items():
            same(cases, room, f"a file, {name}", [room.opens, name], (0, name.encode() + line, b""))
    all_lines = b"".join(name.encode() + line for name, line in lines.items())
    same(cases, room, "all files", [room.opens, *lines], (0, all_lines, b""))
    same(cases, room, "a file twice", [room.opens, "clean", "clean"], (0, b"clean" + GRANTED + b"clean" + GRANTED, b""))
    same(cases, room, "not there", [room.opens, "gone"], (4, b"", [b"gone: cannot read\n"]))
    same(cases, room, "a folder", [room.opens, "folder"], (4, b"", [b"folder: cannot read\n"]))
    faults = [b"folder: cannot read\n", b"gone: cannot read\n"]
    same(cases, room, "some can be asked about", [room.opens, "clean", "folder", "tail", "gone", "empty"], (4, b"clean" + GRANTED + b"tail" + INFECTED + b"empty" + GRANTED, faults))
    many = ["clean", "infected", "empty"] * 50 + ["parts", "tail"] + ["empty", "clean"] * 50
    same(cases, room, "252 files", [room.opens, *many], (0, b"".join(name.encode() + lines[name] for name in many), b""))
    with open("/dev/full", "wb") as full:
        for name, client in room.clients():
            process = room.start(*client, room.opens, "clean", stdout=full, stderr=subprocess.PIPE)
            cases.same(f"on a full device, {name}", ended(process), (4, None, name.encode() + b": device\n"))


def statuses(cases, room):
    """What `ask` ends with: 0 where each file was judged, so that `ask OPENS FILE && open FILE` opens no file that nobody judged."""
    guard = room.guard("--wait", "1", service=False)
    ask = [room.avguard, "ask", room.opens]
    rows = [(["clean"], 4, b"clean denied cause 3\n"), (["--found-status", "clean"], 4, b"clean denied cause 3\n"), (["-i", "--found-status", "clean"], 4, b"clean denied cause 3\n"),
            (["-k", "clean", "gone"], 4, b"clean denied cause 3\n")]
    for words, status, lines in rows:
        got = run(room, ask, *words)
        cases.same(f"ask {words} at a guard without a service", got[:2], (status, lines))
    stopped = room.start(room.program, "service", "--watch", "1", room.service, "set.avsig", stdout=subprocess.DEVNULL, stderr=subprocess.DEVNULL)
    while b"parts connected" not in (line := guard.stderr.readline()):
        if not line:
            raise OSError("the guard ended")
    rows = [(["--found-status", "clean"], 0, b"clean" + GRANTED), (["--found-status", "clean", "infected"], 5, b"clean" + GRANTED + b"infected" + INFECTED), (["clean", "infected"], 0, b"clean" + GRANTED + b"infected" + INFECTED),
            (["-k", "--found-status", "infected", "gone"], 6, b"infected" + INFECTED), (["-k", "infected", "gone"], 4, b"infected" + INFECTED), (["-k", "--found-status", "longer", "tail"], 5, b"longer" + GRANTED + b"tail" + INFECTED)]
    for words, status, lines in rows:
        got = run(room, ask, *words)
        cases.same(f"ask {words}", got[:2], (status, lines))
    stopped.send_signal(signal.SIGSTOP)
    room.write("other", b"B" * 1000)
    rows = [(["small"], 4, b"small denied cause 5\n"), (["--found-status", "infected", "other"], 6, b"infected" + INFECTED + b"other denied cause 5\n"), (["last"], 4, b"last denied cause 6\n")]
    for words, status, lines in rows:
        got = run(room, ask, *words)
        cases.same(f"ask {words} at a guard whose service hangs", got[:2], (status, lines))
    stopped.send_signal(signal.SIGCONT)


def let_through(cases, room):
    room.guard("--open", service=False)
    same(cases, room, "no service, a guard that lets through", [room.opens, "clean"], (4, b"clean unscanned generation 2 cause 3\n", b""))


def denied(cases, room):
    room.guard(service=False)
    same(cases, room, "no service", [room.opens, "clean"], (4, b"clean denied cause 3\n", b""))


def nobody(cases, room):
    at = room.opens.encode()
    same(cases, room, "no guard", [room.opens, "clean"], (4, b"", [at + b": no guard listens\n"]), wait=1)
    socket.socket(socket.AF_UNIX).bind(room.opens)
    same(cases, room, "a socket that was left over", [room.opens, "clean"], (4, b"", [at + b": no guard listens\n"]), wait=1)
    for path in ("", "x" * 108):
        same(cases, room, f"a path of {len(path)} bytes", [path, "clean"], (2, b"", [path.encode() + b": the path of a socket has 1 to 107 bytes\n"]))
    for name, client in room.clients():
        for words in ([], [room.opens]):
            status, out, err = run(room, client, *words)
            cases.check(f"{len(words)} words, {name}", (status, out) == (2, b"") and err, f"{status}, {out!r}, {err!r}")


class Stand:
    """A guard of bytes: each client that comes is sent these once it has sent an ask, and is closed."""

    def __init__(self, path, said, delay=0.0):
        self.said, self.delay = said, delay
        self.listener = socket.socket(socket.AF_UNIX)
        self.listener.bind(path)
        self.listener.listen(8)
        threading.Thread(target=self.serve, daemon=True).start()

    def serve(self):
        while True:
            try:
                end, _ = self.listener.accept()
            except OSError:
                return
            end.recv(4)
            time.sleep(self.delay)
            end.sendall(self.said)
            time.sleep(0.05)
            end.close()

    def close(self):
        self.listener.shutdown(socket.SHUT_RDWR)
        self.listener.close()


def answer(kind, *fields):
    """The answer of the content with this tag."""
    return lambda tag: struct.pack(">I", 1 + len(tag) + sum(map(len, fields))) + bytes([kind]) + tag + b"".join(fields)


def denial(cause):
    return answer(3, bytes([cause]))


GRANTS = answer(2, struct.pack(">QQ", 2, 1))
AT_END = -1


class Scripted(Stand):
    """A guard of bytes that takes contents in parts. Of each it says what its script has next: after so many parts, or AT_END. It grants asks, and
    keeps of each content how it ended, with its count, and whether that is the count of what came."""

    def __init__(self, path, *script):
        self.script, self.ends, self.asks = list(script), [], 0
        super().__init__(path, b"")

    def exactly(self, end, count):
        data = b""
        while len(data) < count:
            piece = end.recv(count - len(data))
            if not piece:
                raise OSError
            data += piece
        return data

    def serve(self):
        while True:
            try:
                end, _ = self.listener.accept()
            except OSError:
                return
            try:
                self.attend(end)
            except OSError:
                pass
            end.close()

    def attend(self, end):
        parts = count = 0
        when, said = AT_END, GRANTS
        while True:
            body = self.exactly(end, struct.unpack(">I", self.exactly(end, 4))[0])
            kind, tag = body[0], body[1:9]
            if kind == 1:
                self.asks += 1
                end.sendall(GRANTS(tag))
            elif kind == 5:
                parts, count = 0, 0
                when, said = self.script.pop(0)
            elif kind == 6:
                parts, count = parts + 1, count + len(body) - 9
            else:
                self.ends.append((body[9], struct.unpack(">Q", body[10:])[0], count))
            if kind in (5, 6) and parts == when or kind == 7 and when == AT_END:
                end.sendall(said(tag))


def parts_of_bytes(cases, room):
    """What each client does with the answers that only contents in parts have, and with those that come before the end."""
    size = len(FILES["longer"])
    whole = (0, size, size)
    rows = [("granted at its end", [(AT_END, GRANTS)], ["longer"], 0, b"longer" + GRANTED, [whole]), ("newer signatures come three times", [(AT_END, denial(11))] * 3 + [(AT_END, GRANTS)], ["longer"], 0, b"longer" + GRANTED, [whole] * 4),
            ("newer signatures come four times", [(AT_END, denial(11))] * 4, ["longer"], 4, b"longer denied cause 11\n", [whole] * 4), ("it is too large", [(AT_END, denial(12))], ["longer"], 4, b"longer denied cause 12\n", [whole]),
            ("no parts are taken", [(0, denial(14))] * 9, ["most", "longer", "most"], 4, b"most" + GRANTED + b"longer denied cause 14\n" + b"most" + GRANTED, None),
            ("a signature is found in the first part", [(1, denial(2))] * 2, ["longer", "longer"], 0, b"longer denied cause 2\n" * 2, None)]
    for what, script, files, status, lines, ends in rows:
        for name, client in room.clients():
            stand = Scripted(room.opens, *script)
            cases.same(f"{what}, {name}", run(room, client, room.opens, *files), (status, lines, b""))
            # (avguard hears answers between contents alone, so that it sends all of a content that was answered early)
            right = stand.ends == ends if ends else all((how == 1 or name == "avguard") and said == count for how, said, count in stand.ends)
            cases.check(f"{what}: how they end, {name}", right, f"{stand.ends}")
            cases.same(f"{what}: what goes as an ask, {name}", stand.asks, 2 if "most" in files else 0)
            stand.close()
            os.unlink(room.opens)
    for what, script in (("a grant before the end", [(1, GRANTS)]), ("a guard that knows no parts", [])):
        for name, client in room.clients()[1:]:
            stand = Scripted(room.opens, *script) if script else Stand(room.opens, bytes.fromhex("0000000aff040000000000000000"))
            cases.same(f"{what}, {name}", run(room, client, room.opens, "longer"), (4, b"", name.encode() + b": " + room.opens.encode() + b": the guard was lost\n"))
            stand.close()
            os.unlink(room.opens)


def strangers(cases, room):
    lost = [room.opens.encode() + b": the guard was lost\n"]
    rows = [("nothing", b""), ("half a frame", GRANT[:10]), ("a frame that is too long", b"\xff" * 4 + GRANT[4:]), ("a frame of no bytes", bytes(4)),
            ("another kind", GRANT[:4] + b"\x09" + GRANT[5:]), ("a denial that is too long", GRANT[:4] + b"\3" + GRANT[5:])]
    for what, said in rows:
        stand = Stand(room.opens, said)
        for name, client in room.clients()[1:]:
            cases.same(f"a guard that says {what}, {name}", run(room, client, room.opens, "clean"), (4, b"", name.encode() + b": " + lost[0]))
        stand.close()
        os.unlink(room.opens)
    stand = Stand(room.opens, b"")
    unheard = b"avguard: %s: the guard gave no answer: it was lost, or has no room for another client\n" % room.opens.encode()
    cases.same("a guard that says nothing, avguard", run(room, [room.avguard, "ask"], room.opens, "clean"), (4, b"", unheard))
    stand.close()
    os.unlink(room.opens)
    stand = Stand(room.opens, GRANT)
    gone = b"avguard: %s: the guard was lost\n" % room.opens.encode()
    cases.same("a guard that goes away, avguard", run(room, [room.avguard, "ask"], room.opens, "clean", "clean"), (4, b"clean" + GRANTED, gone))
    for name, client in room.clients()[1:]:
        cases.same(f"a guard that goes away, {name}", run(room, client, room.opens, "clean", "clean"), (4, b"clean" + GRANTED, name.encode() + b": " + lost[0]))
    stand.close()
    os.unlink(room.opens)


def stopped(cases, room):
    stand = Stand(room.opens, GRANT, delay=0.5)
    for name, client in room.clients()[1:]:
        process = room.start(*client, room.opens, "clean", stdout=subprocess.PIPE, stderr=subprocess.PIPE)
        for _ in range(10):
            time.sleep(0.01)
            process.send_signal(signal.SIGSTOP)
            time.sleep(0.01)
            process.send_signal(signal.SIGCONT)
        cases.same(f"stopped and continued, {name}", ended(process), (0, b"clean" + GRANTED, b""))
    stand.close()


def cat(room, path):
    return subprocess.run(["cat", path], stdin=subprocess.DEVNULL, capture_output=True, timeout=SECONDS).stdout


def library():
    """A library of this machine, of 1 to 4 MiB, in which the signature does not occur."""
    for path in sorted(glob.glob("/usr/lib/*/lib*.so*")):
        if os.path.isfile(path) and MOST < os.path.getsize(path) < 4 * MOST:
            with open(path, "rb") as file:
                if b"XX" not in file.read():
                    return os.path.realpath(path)
    return None


def content_of(path):
    with open(path, "rb") as file:
        return file.read()


class Holder:
    """The helper for fanotify, over one folder, with what it writes about denials."""

    def __init__(self, room, watched, *words):
        self.room, self.log = room, open(os.path.join(room.folder, "denials"), "w+b")
        self.process = room.start(room.holder, *words, room.opens, watched, stderr=self.log)
        limit = time.time() + SECONDS
        while self.process.poll() is None and time.time() < limit and not is_marked(self.process.pid):
            time.sleep(0.01)

    def lines(self):
        return content_of(self.log.name)

    def end(self):
        self.process.kill()
        self.process.wait()
        self.room.begun.remove(self.process)
        self.log.close()


def reports_ready(cases, room, watched):
    """A unit of Type=notify gets one datagram once the folder is held, at a path or at an abstract name. Nobody need listen there."""
    path = os.path.join(room.folder, "notify")
    for name, address in ((path, path), (f"@vizdroun-{os.getpid()}", f"\0vizdroun-{os.getpid()}")):
        with socket.socket(socket.AF_UNIX, socket.SOCK_DGRAM) as notify:
            notify.bind(address)
            notify.settimeout(SECONDS)
            process = room.start("env", f"NOTIFY_SOCKET={name}", room.holder, room.opens, watched)
            cases.same("systemd hears that the folder is held", (notify.recv(100), is_marked(process.pid)), (b"READY=1", True))
            room.begun.remove(process)
            process.kill()
            process.wait()
    with open(os.path.join(room.folder, "unheard"), "w+b") as said:
        process = room.start("env", f"NOTIFY_SOCKET={path}.none", room.holder, room.opens, watched, stderr=said)
        limit = time.time() + SECONDS
        while time.time() < limit and not content_of(said.name).endswith(b"\n"):
            time.sleep(0.01)
        cases.same("nobody listens", (content_of(said.name), process.poll()), (b"avguard-onaccess: NOTIFY_SOCKET: No such file or directory\n", None))
        room.begun.remove(process)
        process.kill()
        process.wait()


def held(cases, room):
    watched = os.path.join(room.folder, "watched")
    os.mkdir(watched)
    paths = {name: os.path.join("watched", name) for name in FILES}
    for name, path in paths.items():
        room.write(path, FILES[name])
        paths[name] = os.path.join(room.folder, path)
    paths["outside"] = os.path.join(room.folder, "infected")

    def opened():
        """Of each file whether `cat` shows all of it."""
        return {name: cat(room, path) == FILES.get(name, FILES["infected"]) for name, path in paths.items()}

    guard = room.guard()
    holder = Holder(room, watched)
    if holder.process.poll() is not None:
        print(f"the helper for fanotify was not run: {holder.lines().decode().strip()}", file=sys.stderr)
        return
    wanted = {name: b"XX" not in content for name, content in FILES.items()} | {"outside": True}
    cases.same("what may be opened", opened(), wanted)
    cases.same("and once more", opened(), wanted)
    line = rb'avguard-onaccess: answer=denied cause=2 why="infected" process=\d+ program="cat" path="%s"\n'
    found = all(len(re.findall(line % re.escape(paths[name].encode()), holder.lines())) == 2 for name in FILES if not wanted[name])
    cases.check("each denial has a line with cause, process and path", found and holder.lines().count(b"\n") == 2 * list(wanted.values()).count(False), holder.lines())
    forged = room.write("watched/a\navguard-onaccess: \"\\", FILES["infected"])
    cases.check("a file whose name has a line's end is denied", not can_open(forged))
    cases.check("no name forges a line", holder.lines().endswith(b'/watched/a\\x0aavguard-onaccess: \\x22\\x5c"\n'), holder.lines()[-200:])
    room.write("other", b"A clean letter")
    os.rename(os.path.join(room.folder, "other"), paths["infected"])
    cases.same("a file that is replaced is judged anew", cat(room, paths["infected"]), b"A clean letter")
    os.rename(room.write("other", FILES["infected"]), paths["infected"])
    cases.check("and again", not can_open(paths["infected"]))
    programs_of_the_system(cases, room, watched)
    a_long_file_holds_one_thread(cases, room, watched, paths, guard)
    files_that_grow(cases, room, watched)
    holder.end()
    cases.check("from its end on all may be opened", can_open(paths["infected"]))
    reports_ready(cases, room, watched)
    holder = Holder(room, watched, "-j", "1", "-p", str(os.getpid()))
    cases.same("a process that passes", (can_open(paths["infected"]), cat(room, paths["infected"])), (True, b""))
    cases.same("one thread judges too", opened(), wanted)
    holder.end()
    room.end()
    holder = Holder(room, watched)
    cases.same("no guard", (can_open(paths["clean"]), can_open(paths["infected"])), (False, False))
    cases.check("that has a line", holder.lines().count(b'answer=denied why="no guard answers" ') == 2, holder.lines())
    room.guard()
    cases.same("a guard that comes later", (can_open(paths["clean"]), can_open(paths["infected"]), can_open(paths["longer"])), (True, False, True))
    room.scanner.kill()
    room.scanner.wait()
    holder.end()
    holder = Holder(room, watched, "-o")
    room.end_others(holder.process)
    cases.same("with -o and no guard", (can_open(paths["clean"]), can_open(paths["infected"])), (False, False))
    room.guard("--open", service=False)
    cases.same("with -o what the guard lets through passes", (can_open(paths["clean"]), can_open(paths["longer"])), (True, True))
    holder.end()
    holder = Holder(room, watched)
    cases.same("without it it does not", (can_open(paths["clean"]), can_open(paths["longer"])), (False, False))
    cases.check("that has lines", holder.lines().count(b'answer=denied cause=3 why="not connected" ') == 2, holder.lines())
    holder.end()


def programs_of_the_system(cases, room, watched):
    """A library and Python, opened by those who use them."""
    if (source := library()) is None:
        print("no library of 1 to 4 MiB without the signature is here: none was copied", file=sys.stderr)
    else:
        shutil.copy(source, copy := os.path.join(watched, "library"))
        begun = time.time()
        done = subprocess.run(["cp", copy, out := os.path.join(room.folder, "copy")], timeout=SECONDS)
        cases.check(f"cp of {os.path.getsize(source)} bytes of a library", done.returncode == 0 and filecmp.cmp(out, source, False), f"{done}, {time.time() - begun:.1f} s")
        cases.check("cat of it", cat(room, copy) == open(source, "rb").read())
    if b"XX" in open(os.path.realpath(sys.executable), "rb").read():
        print("the signature occurs in python3: it was not run", file=sys.stderr)
        return
    python = shutil.copy(os.path.realpath(sys.executable), os.path.join(watched, "python3"))
    done = subprocess.run([python, "-S", "-E", "-c", "print(6 * 7)"], capture_output=True, timeout=SECONDS, env={**os.environ, "PYTHONHOME": sys.base_prefix})
    cases.same("python3 runs from there", (done.returncode, done.stdout), (0, b"42\n"))
    with open(python, "ab") as file:
        file.write(b"XX")
    try:
        done = subprocess.run([python, "-c", "1"], capture_output=True, timeout=SECONDS).returncode
    except PermissionError:
        done = "denied"
    cases.same("and not with a signature at its end", done, "denied")


LONGEST = 4 << 30


def a_long_file_holds_one_thread(cases, room, watched, paths, guard):
    """A file of holes with a signature in its last bytes, as long as is judged in less than a minute, and small files meanwhile."""
    long, size = os.path.join(watched, "long of holes"), 1 << 28
    for tail in (b"", b"XX"):
        with open(long, "wb") as file:
            file.truncate(size)
            file.seek(size - len(tail))
            file.write(tail)
        begun, opens = time.time(), []
        opening = threading.Thread(target=lambda: opens.append(can_open(long)))
        opening.start()
        small = 0
        while opening.is_alive():
            small += can_open(paths["clean"]) + (not can_open(paths["infected"]))
            opening.join(0.01)
        taken = time.time() - begun
        cases.same(f"a file of {size} bytes of holes and {tail}", opens, [not tail])
        cases.check("small files are judged meanwhile", small >= 2, f"{small} in {taken:.1f} s")
        print(f"the helper: {size >> 20} MiB in {taken:.1f} s, {small} small opens meanwhile", file=sys.stderr)
        size = min(LONGEST, int(size * 40 / taken)) if taken < 40 else size
    memory = int(re.search(r"VmRSS:\s+(\d+)", open(f"/proc/{guard.pid}/status").read())[1])
    cases.check("the guard kept none of it", memory < 300_000, f"{memory} KiB")
    os.unlink(long)


def files_that_grow(cases, room, watched):
    """A file that grows without end is denied, and one that stops growing is not."""
    path, stop = os.path.join(watched, "log"), threading.Event()
    with open(path, "wb") as file:
        file.write(bytes(4 << 20))
        file.flush()

        def grow():
            while not stop.is_set():
                file.write(b"more")
                file.flush()

        growing = threading.Thread(target=grow)
        growing.start()
        done = subprocess.run(["cat", path], stdin=subprocess.DEVNULL, stdout=subprocess.DEVNULL, stderr=subprocess.DEVNULL, timeout=SECONDS)
        stop.set()
        growing.join()
    cases.check("a file that grows all the time is not opened", done.returncode != 0)
    cases.check("one that grew is", can_open(path))


def can_open(path):
    try:
        os.close(os.open(path, os.O_RDONLY))
        return True
    except PermissionError:
        return False


def is_marked(process):
    """Whether a process holds marks of fanotify."""
    for end in os.listdir(f"/proc/{process}/fd"):
        try:
            with open(f"/proc/{process}/fdinfo/{end}") as file:
                if "fanotify ino" in (text := file.read()) or "fanotify mnt_id" in text:
                    return True
        except OSError:
            pass
    return False


def versions(cases, room):
    """What programs hear of newer signatures."""
    kept.named(cases, room, CLIENT)


def remembered(cases, room):
    """What the helper has the kernel remember, with -k."""
    kept.kept(cases, room, lambda *words: Holder(room, "watched", *words))


def words_of_holder(cases, room):
    for words, status in (([], 2), (["x"], 2), (["-z", "o", "f"], 2), (["-p", "x", "o", "f"], 2), (["-p", "0", "o", "f"], 2), (["-j", "0", "o", "f"], 2), (["-j", "65", "o", "f"], 2), (["-j", "+1", "o", "f"], 2), (["-k", "0", "o", "f"], 2), (["-k", "65537", "o", "f"], 2), (["-h"], 0)):
        got, out, err = run(room, [room.holder], *words)
        text = out if status == 0 else err
        cases.check(f"avguard-onaccess {words}", got == status and text.startswith(b"usage: ") and not (out and err) or b"invalid option" in err, f"{got}, {out!r}, {err!r}")
    status, out, err = run(room, [room.holder], "o", "gone")
    cases.check("a folder that is not there", (status, out) == (4, b"") and err.startswith(b"avguard-onaccess: ") and err.count(b"\n") == 1, f"{status}, {out!r}, {err!r}")


def clamdscan(cases, room):
    if not shutil.which("clamdscan"):
        print("clamdscan is not installed: it was not run", file=sys.stderr)
        return
    with_clamd(room)
    room.write("clamd.conf", b"LocalSocket %s\nStreamMaxLength 100M\n" % room.clamd.encode())
    at = room.folder.encode() + b"/"
    rows = [("clean", 0, b"clean: OK\n"), ("infected", 1, b"infected: Test.X FOUND\n"), ("most", 0, b"most: OK\n"), ("last", 1, b"last: Test.X FOUND\n"),
            ("long", 1, b"long: Test.X FOUND\n"), ("longer", 0, b"longer: OK\n"), ("tail", 1, b"tail: Test.X FOUND\n")]
    for _ in range(2):
        for name, status, line in rows:
            got, out, err = run(room, ["clamdscan", "--config-file=clamd.conf", "--stream", "--no-summary", name])
            cases.check(f"clamdscan {name}", got == status and line in out.replace(at, b"") + err.replace(at, b""), f"{got}, {out!r}, {err!r}")
    for name in ("clean", "infected", "empty", "last"):
        room.write(os.path.join("folder", name), FILES[name])
    got, out, err = run(room, ["clamdscan", "--config-file=clamd.conf", "--stream", "--multiscan", "--no-summary", "folder"])
    found = sorted(out.replace(at, b"").splitlines())
    cases.check("clamdscan of a folder in one session", got == 1 and found == [b"folder/infected: Test.X FOUND", b"folder/last: Test.X FOUND"], f"{got}, {out!r}, {err!r}")
    for name, status, line in (("clean", 0, b"stream: OK\n"), ("infected", 1, b"stream: Test.X FOUND\n")):
        done = subprocess.run(["clamdscan", "--config-file=clamd.conf", "--no-summary", "-"], cwd=room.folder, input=FILES[name], capture_output=True, timeout=SECONDS)
        cases.same(f"clamdscan of standard input, {name}", (done.returncode, done.stdout), (status, line))


def with_clamd(room, *words):
    """A guard at which clients of clamd ask, with the names of the signatures."""
    return room.guard("--clamd", room.clamd, "--names", os.path.join(room.folder, "set.avsig"), *words)


PYCLAMD = """
import pyclamd, sys
client = pyclamd.ClamdUnixSocket(sys.argv[1])
print(client.ping(), client.version())
for content in (b"ABC", b"A letter with XX in it", b"A" * 1048574 + b"XX"):
    print(client.scan_stream(content))
"""


def pyclamd(cases, room):
    """By Debian's own Python, for which the package is."""
    python = "/usr/bin/python3"
    if not os.path.exists(python) or subprocess.run([python, "-c", "import pyclamd"], capture_output=True).returncode:
        print("pyclamd is not installed: it was not run", file=sys.stderr)
        return
    with_clamd(room)
    wanted = b"True Vizdroun 1\nNone\n{'stream': ('FOUND', 'Test.X')}\n{'stream': ('FOUND', 'Test.X')}\n"
    cases.same("pyclamd", run(room, [python, "-W", "ignore", "-c", PYCLAMD, room.clamd]), (0, wanted, b""))


def clamonacc(cases, room):
    if not shutil.which("clamonacc"):
        print("clamonacc is not installed: it was not run", file=sys.stderr)
        return
    watched = os.path.join(room.folder, "watched")
    os.mkdir(watched)
    paths = {name: room.write(os.path.join("watched", name), FILES[name]) for name in ("clean", "infected", "empty", "last")}
    room.write("clamd.conf", b"LocalSocket %s\nStreamMaxLength 2M\nOnAccessIncludePath %s\nOnAccessPrevention yes\nOnAccessDenyOnError yes\nOnAccessExcludeUname nobody\n"
               % (room.clamd.encode(), watched.encode()))
    with_clamd(room)
    process = room.start("clamonacc", "--foreground", "--stream", "--config-file=clamd.conf", "--log=onacc.log", stdout=subprocess.DEVNULL, stderr=subprocess.PIPE)
    limit = time.time() + 20
    while process.poll() is None and time.time() < limit and can_open(paths["infected"]):
        time.sleep(0.1)
    if process.poll() is not None:
        print(f"clamonacc was not run: {process.stderr.read().decode(errors='replace').strip()}", file=sys.stderr)
        return
    shown = {name: cat(room, path) == FILES[name] for name, path in paths.items()}
    cases.same("what may be opened under clamonacc", shown, {"clean": True, "infected": False, "empty": True, "last": False})
    process.terminate()
    process.wait(SECONDS)
    cases.check("from the end of clamonacc on all may be opened", can_open(paths["infected"]))


RSPAMD = """
options {{ pidfile = "{0}/rspamd.pid"; filters = ""; dns {{ nameserver = ["127.0.0.1:1"]; }} cache_file = "{0}/symcache"; url_tld = "{0}/tld"; }}
logging {{ type = "file"; filename = "{0}/rspamd.log"; level = "info"; }}
worker "normal" {{ bind_socket = "{0}/rspamd.sock mode=0666"; count = 1; task_timeout = 20s; }}
modules {{ path = "/usr/share/rspamd/plugins/antivirus.lua"; }}
lua = "/usr/share/rspamd/rules/rspamd.lua";
antivirus {{ clamav {{ type = "clamav"; servers = "{1}"; symbol = "CLAM_VIRUS"; scan_mime_parts = false; log_clean = true; }} }}
group "antivirus" {{ symbols {{ "CLAM_VIRUS" {{ weight = 1; }} }} }}
actions {{ reject = 15; }}
"""


def rspamd(cases, room):
    if not shutil.which("rspamd"):
        print("rspamd is not installed: it was not run", file=sys.stderr)
        return
    with_clamd(room)
    os.chmod(room.folder, 0o755)
    room.write("tld", b"com\norg\n")
    room.write("rspamd.conf", RSPAMD.format(room.folder, room.clamd).encode())
    process = room.start("rspamd", "-f", "-i", "-c", "rspamd.conf", stdout=subprocess.DEVNULL, stderr=subprocess.PIPE)
    path = os.path.join(room.folder, "rspamd.sock")
    limit = time.time() + SECONDS
    while process.poll() is None and time.time() < limit and not os.path.exists(path):
        time.sleep(0.05)
    if not os.path.exists(path):
        cases.check("rspamd", False, "it made no socket")
        return
    head = b"From: a@example.org\r\nTo: b@example.org\r\nSubject: s\r\nMessage-Id: <%d@example.org>\r\n\r\n"
    for number, (body, found) in enumerate(((b"A clean letter\r\n", False), (b"A letter with XX in it\r\n", True))):
        text = head % number + body
        client = socket.socket(socket.AF_UNIX)
        client.settimeout(SECONDS)
        client.connect(path)
        client.sendall(b"POST /checkv2 HTTP/1.0\r\nContent-Length: %d\r\n\r\n" % len(text) + text)
        told = b""
        while piece := client.recv(65536):
            told += piece
        client.close()
        cases.check(f"rspamd over {body!r}", b" 200 " in told.split(b"\n")[0] and (b"CLAM_VIRUS" in told and b"Test.X" in told) == found, f"{told!r}")
    process.terminate()
    process.wait(SECONDS)


def main():
    if len(sys.argv) != 2:
        sys.exit("usage: tests/clients.py PROGRAM")
    cases = Cases()
    for part in (answers, embedded, statuses, let_through, denied, nobody, parts_of_bytes, strangers, stopped, words_of_holder, held, versions, remembered, clamdscan, pyclamd, clamonacc, rspamd):
        begun = time.time()
        with tempfile.TemporaryDirectory() as folder:
            room = Room(os.path.abspath(sys.argv[1]), folder)
            try:
                part(cases, room)
            except Exception as fault:
                cases.check(part.__name__, False, f"{type(fault).__name__}: {fault}")
            finally:
                room.end()
        print(f"{part.__name__}: {time.time() - begun:.1f} s", file=sys.stderr)
    print(f"{cases.passed} passed, {cases.failed} failed")
    sys.exit(1 if cases.failed else 0)


main()
