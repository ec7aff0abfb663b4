#!/usr/bin/env python3
"""The built program over devices that fail and memory that is refused: what no case of files can set up.

Standard output on a full device, closed, and a pipe that nobody reads, with one line and with thousands: the status is 4, and never 0
with lines lost; of the pipe no line is said. Each request for memory refused in turn: one line, status 3,
and a front of the output. Help texts of avscan, avguard and avtool, and one line for words that are not understood, or for a command that another program has now. Progress and the reasons of faults on a terminal, and nowhere else. What is no regular file is named. A word that is not UTF-8 is named. The order of faults of `scan`: words, set, files.
The last line says how many passed and how many failed."""
import os, pty, re, signal, subprocess, sys, tempfile, threading, time

from cases import Cases
from programs import program_beside

SECONDS = 60
HERE = os.path.dirname(os.path.abspath(__file__))
EXAMPLES = os.path.join(os.path.dirname(HERE), "examples")
SET = os.path.join(EXAMPLES, "test.avsig")
LETTER = os.path.join(EXAMPLES, "letter.txt")
SCRIPT = os.path.join(EXAMPLES, "late_reply.avs")
IMPORTED = [os.path.join(HERE, "import", name) for name in ("a.ndb", "b.yar", "d.db")]
LONG = b"volume 1 closed\n" + b"".join(b"create s%d\n" % i for i in range(3000))


def run(words, given=b"", **options):
    return subprocess.run(words, input=given, stderr=subprocess.PIPE, timeout=SECONDS, **options)


def named(program):
    """The name with which a program's lines on standard error begin."""
    return os.fsencode(os.path.basename(program))


def devices(cases, program):
    short = b"volume 1 closed\n"
    jobs = [("one line", [program, "run", "-"], short), ("3,000 lines", [program, "run", "-"], LONG), ("3,000 objects", [program, "run", "--json", "-"], LONG),
            ("a file scanned", [program, "scan", SET, LETTER], b""), ("3,000 files as JSON", [program, "scan", "--json", SET] + [LETTER] * 3000, b""), ("3,000 files scanned", [program, "scan", SET] + [LETTER] * 3000, b""),
            ("a help text", [program, "--help"], b""), ("a help text of avguard", [program_beside(program, "avguard"), "--help"], b""), ("a picture", [program_beside(program, "avtool"), "chart", SCRIPT], b""),
            ("a random script", [program_beside(program, "avtool"), "generate", "--seed", "1", "--commands", "9"], b""), ("an import", [program_beside(program, "avtool"), "import", IMPORTED[2]], b""), ("a merge", [program_beside(program, "avtool"), "merge", SET, SET], b"")]
    for name, words, given in jobs:
        before = run(words, given, stdout=subprocess.DEVNULL).stderr
        told = (4, before + b"%s: device\n" % named(words[0]))
        with open("/dev/full", "wb") as full:
            done = run(words, given, stdout=full)
        cases.same(f"{name} on a full device", (done.returncode, done.stderr), told)
        done = run(["sh", "-c", '"$@" >&-', "sh"] + words, given)
        cases.same(f"{name} on a closed output", (done.returncode, done.stderr), told)
        reading, writing = os.pipe()
        os.close(reading)
        done = run(words, given, stdout=writing)
        os.close(writing)
        cases.same(f"{name} on a pipe that nobody reads", (done.returncode, done.stderr), (4, before))
    closed = run(["sh", "-c", '"$@" <&-', "sh", program, "run", "-"], stdout=subprocess.PIPE)
    cases.check("a closed input", closed.returncode == 4 and closed.stderr == b"avscan: device\n", f"status {closed.returncode}, {closed.stderr!r}")


def memory(cases, program):
    with tempfile.TemporaryDirectory() as work:
        library = built(work, "fail_nth")
        tool = program_beside(program, "avtool")
        for words in ([program, "run", SCRIPT], [program, "run", "--json", SCRIPT], [program, "scan", SET, LETTER], [program, "scan", "--json", "-k", SET, LETTER], [program, "scan", SET, "--set", SET, LETTER], [program, "--help"],
                      [program_beside(program, "avguard"), "--help"], [tool, "chart", SCRIPT], [tool, "generate", "--seed", "2", "--commands", "60"], [tool, "import", *IMPORTED], [tool, "merge", SET, SET]):
            name = " ".join([os.path.basename(words[0]), *words[1:]])
            whole = run(words, stdout=subprocess.PIPE)
            refused, in_a_row, number = 0, 0, 0
            while in_a_row < 20:
                number += 1
                environment = dict(os.environ, LD_PRELOAD=library, FAIL_NTH=str(number))
                done = run(words, stdout=subprocess.PIPE, env=environment)
                # (a file is told as avscan: FILE: no memory)
                of_file = b"%s: %s: no memory\n" % (named(words[0]), LETTER.encode())
                line = of_file if of_file in done.stderr else b"%s: no memory\n" % named(words[0])
                before, line, _ = done.stderr.partition(line)
                is_front = whole.stdout.startswith(done.stdout) or (line == of_file and done.stdout == b'{"file":"%s","fault":"no memory"}\n' % LETTER.encode())
                told = done.returncode == 3 and line and whole.stderr.startswith(before) and is_front
                spared = (done.returncode, done.stdout, done.stderr) == (0, whole.stdout, whole.stderr)
                in_a_row = in_a_row + 1 if spared else 0
                refused += told
                if not told and not spared:
                    cases.check(name, False, f"request {number} refused: status {done.returncode}, {done.stderr!r}")
                    break
            cases.check(name, refused > 0, "no request was refused")


def memory_of_host(cases, program, *flags):
    """A host, with a spare where the flags say so, with each request refused in turn: all files opened as ever, or one line that says why not, and of each file that has
    a line what it was told: its verdict, or that the service is not there (3) or was lost (6). What was told by then is written first. A loop that had no memory for what a
    file waits for leaves a question open: the gate is not closed, so the run is not certified, and no file has a line."""
    names = [LETTER, os.path.join(EXAMPLES, "eicar.com.txt")]
    words = [program, "host", *flags, SET, *names]
    name = " ".join(["avscan host", *flags])
    whole = run(words, stdout=subprocess.PIPE).stdout
    told = [{line, *(f"{name} denied cause {cause}".encode() for cause in (3, 6))} for name, line in zip(names, whole.splitlines())]
    with tempfile.TemporaryDirectory() as work:
        library = built(work, "fail_nth")
        refused, with_lines, without_lines, in_a_row, number = 0, 0, 0, 0, 0
        while in_a_row < 50:
            number += 1
            done = run(words, stdout=subprocess.PIPE, env=dict(os.environ, LD_PRELOAD=library, FAIL_NTH=str(number)))
            is_whole = (done.returncode, done.stdout, done.stderr) == (0, whole, b"")
            lines = done.stdout.splitlines()
            is_part = any(all(line in of for line, of in zip(lines, some)) for some in (told, told[1:])) and len(lines) <= len(told)
            is_told = (done.returncode, done.stderr) in ((3, b"avscan: no memory\n"), (4, b"avscan: device\n")) and is_part
            in_a_row = in_a_row + 1 if is_whole else 0
            refused += is_told
            with_lines += is_told and lines != []
            without_lines += is_told and lines == []
            if not is_whole and not is_told:
                cases.check(name, False, f"request {number} refused: status {done.returncode}, {done.stdout!r} {done.stderr!r}")
                return
        cases.check(name, refused > 0, "no request was refused")
        cases.check(f"{name}: answers before the line that says why not", with_lines > 0, "no run without memory wrote what was told")
        cases.check(f"{name}: a run that is not certified writes no line", without_lines > 0, "each run without memory wrote lines")


class Guarded:
    """A guard, some of whose words and environment may be said, and a service that it has."""

    def __init__(self, program, stderr=subprocess.PIPE, environment=None):
        self.room = tempfile.TemporaryDirectory()
        self.opens, self.at = os.path.join(self.room.name, "o"), os.path.join(self.room.name, "s")
        self.guard = subprocess.Popen([program_beside(program, "avguard"), "run", self.opens, self.at], stdin=subprocess.DEVNULL, stdout=subprocess.PIPE, stderr=stderr, env=environment)
        self.service = subprocess.Popen([program, "service", self.at, SET], stdin=subprocess.DEVNULL, stdout=subprocess.PIPE, stderr=subprocess.PIPE)

    def __enter__(self):
        return self

    def __exit__(self, *fault):
        for process in (self.guard, self.service):
            process.kill()
            process.communicate()
        self.room.cleanup()

    def stands(self):
        """Whether the guard listens: it may have ended before that."""
        while self.guard.poll() is None and not os.path.exists(self.opens):
            time.sleep(0.002)
        return self.guard.poll() is None

    def end(self):
        """What a guard said that ended for want of memory, and whether it says so, or that a socket can't be made."""
        told = self.guard.communicate(timeout=SECONDS)[1]
        wants = {3: (b"avguard: no memory\n",), 4: (b"cannot make a socket\n", b"avguard: device\n")}.get(self.guard.returncode, ())
        return told, told.endswith(wants) if wants else False

    def await_answer(self, program, names):
        """What `ask` prints once the service is there, or as long as the guard stands."""
        limit = time.time() + SECONDS
        while True:
            done = run([program_beside(program, "avguard"), "ask", "--wait", "1", self.opens, *names], stdout=subprocess.PIPE)
            if b" cause 3" not in done.stdout and b" cause 6" not in done.stdout or time.time() > limit or self.guard.poll() is not None:
                return done
            time.sleep(0.02)


ASKED = [LETTER, os.path.join(EXAMPLES, "eicar.com.txt")]
ANSWERED = f"{ASKED[0]} granted generation 2 version 1\n{ASKED[1]} denied cause 2\n".encode()


def devices_of_ask(cases, program):
    with Guarded(program) as guarded:
        cases.same("an ask", guarded.await_answer(program, ASKED).stdout, ANSWERED)
        for name, words in (("an ask", [LETTER]), ("300 asks", [LETTER] * 300), ("300 asks as JSON", ["--json"] + [LETTER] * 300)):
            words = [program_beside(program, "avguard"), "ask", guarded.opens, *words]
            with open("/dev/full", "wb") as full:
                done = run(words, stdout=full)
            cases.same(f"{name} on a full device", (done.returncode, done.stderr), (4, b"avguard: device\n"))
            done = run(["sh", "-c", '"$@" >&-', "sh"] + words)
            cases.same(f"{name} on a closed output", (done.returncode, done.stderr), (4, b"avguard: device\n"))
            reading, writing = os.pipe()
            os.close(reading)
            done = run(words, stdout=writing)
            os.close(writing)
            cases.same(f"{name} on a pipe that nobody reads", (done.returncode, done.stderr), (4, b""))
        cases.same("the guard behind clients that could not write", guarded.await_answer(program, ASKED).stdout, ANSWERED)


def guard_that_can_say_nothing(cases, program):
    """Its lines are lost, and nothing else."""
    with open("/dev/full", "wb") as full, Guarded(program, stderr=full) as guarded:
        cases.same("a guard whose standard error is a full device", guarded.await_answer(program, ASKED).stdout, ANSWERED)
    reading, writing = os.pipe()
    os.close(reading)
    with Guarded(program, stderr=writing) as guarded:
        os.close(writing)
        cases.same("a guard whose standard error nobody reads", guarded.await_answer(program, ASKED).stdout, ANSWERED)


def memory_of_ask(cases, program):
    """Each request of a client refused in turn: all answers, or a front of them and a line that says why not, which may be that the
    guard was lost, where the connection could not be kept up; the guard goes on."""
    with tempfile.TemporaryDirectory() as work, Guarded(program) as guarded:
        library = built(work, "fail_nth")
        cases.same("an ask", guarded.await_answer(program, ASKED).stdout, ANSWERED)
        for words in ([guarded.opens, *ASKED], ["--json", guarded.opens, *ASKED]):
            words = [program_beside(program, "avguard"), "ask", *words]
            whole = run(words, stdout=subprocess.PIPE).stdout
            refused, in_a_row, number = 0, 0, 0
            while in_a_row < 20:
                number += 1
                done = run(words, stdout=subprocess.PIPE, env=dict(os.environ, LD_PRELOAD=library, FAIL_NTH=str(number)))
                spared = (done.returncode, done.stdout, done.stderr) == (0, whole, b"")
                lost = [(4, b"avguard: %s: %s\n" % (os.fsencode(guarded.opens), why)) for why in (b"the guard was lost", b"the guard gave no answer: it was lost, or has no room for another client")]
                told = (done.returncode, done.stderr) in [(3, b"avguard: no memory\n"), (4, b"avguard: device\n"), *lost] and whole.startswith(done.stdout)
                in_a_row = in_a_row + 1 if spared else 0
                refused += told
                if not told and not spared:
                    cases.check("avguard ask", False, f"request {number} refused: status {done.returncode}, {done.stdout!r} {done.stderr!r}")
                    break
            cases.check("avguard ask", refused > 0, "no request was refused")
        cases.same("the guard behind clients without memory", guarded.await_answer(program, ASKED).stdout, ANSWERED)


def memory_of_guard(cases, program):
    """Each request of a guard refused in turn up to where it listens: it listens as ever, or ends with the line."""
    with tempfile.TemporaryDirectory() as work:
        library, refused, in_a_row, number = built(work, "fail_nth"), 0, 0, 0
        while in_a_row < 20:
            number += 1
            with Guarded(program, environment=dict(os.environ, LD_PRELOAD=library, FAIL_NTH=str(number))) as guarded:
                in_a_row = in_a_row + 1 if guarded.stands() else 0
                if in_a_row == 0:
                    told, holds = guarded.end()
                    refused += holds
                    cases.check("avguard run", holds, f"request {number} refused: {guarded.guard.returncode} {told!r}")
        cases.check("avguard run", refused > 100, f"{refused} of {number} requests were refused")


def words(cases, program):
    with tempfile.TemporaryDirectory() as work:
        name = os.path.join(os.fsencode(work), b"caf\xe9.txt")
        with open(name, "wb") as file:
            file.write(b"abc")
        done = run([program, "scan", SET, name], stdout=subprocess.PIPE)
        cases.check("a name that is not UTF-8", (done.returncode, done.stderr, done.stdout) == (2, b"avscan: word 3 is not UTF-8\n", b""), f"{done}")
        done = run([program, b"\xff", SET], stdout=subprocess.PIPE)
        cases.check("a command that is not UTF-8", (done.returncode, done.stderr) == (2, b"avscan: word 1 is not UTF-8\n"), f"{done}")
        line = os.path.join(work, "two\nlines")
        with open(line, "wb") as file:
            file.write(b"abc")
        done = run([program, "scan", SET, line], stdout=subprocess.PIPE)
        shown = b'"' + os.fsencode(line).replace(b"\n", b"\\n") + b'" clean\n'
        cases.check("a name with a line feed stands in quotes", done.stdout == shown, f"{done}")
        done = run([program, "scan", "--print0", SET, line], stdout=subprocess.PIPE)
        cases.check("a name with a line feed for a program", done.stdout == os.fsencode(line) + b" clean\0", f"{done}")
        at = [os.path.join(work, name) for name in "osc"]
        rows = [([at[0], at[0]], at[0]), ([at[0], at[1], "--clamd", at[0]], at[0]), ([at[0], at[1], "--clamd", at[1]], at[1])]
        for words, path in rows:
            done = run([program_beside(program, "avguard"), "run", *words], stdout=subprocess.PIPE)
            cases.check("two sockets of a guard with one path", (done.returncode, done.stderr) == (2, f"avguard: {path}: two sockets have one path\n".encode()) and not os.path.exists(path), f"{done}")
        done = run([program_beside(program, "avguard"), "run", *at[:2], "--names", SET], stdout=subprocess.PIPE)
        cases.check("names without a socket for clamd", done.returncode == 2 and b"--clamd" in done.stderr and done.stderr.count(b"\n") == 1, f"{done}")
        done = run([program, "scan", "--json", "--print0", SET, line], stdout=subprocess.PIPE)
        cases.check("JSON ended by zero bytes", (done.returncode, done.stdout) == (2, b"") and done.stderr.count(b"\n") == 1, f"{done}")


def order(cases, program):
    with tempfile.TemporaryDirectory() as work:
        pipe, bad, missing = (os.path.join(work, name) for name in ("pipe", "bad.avsig", "missing"))
        os.mkfifo(pipe)
        with open(bad, "wb") as file:
            file.write(b"avsig 3\n")
        done = run([program, "scan", bad, pipe], stdout=subprocess.PIPE)
        cases.check("a bad set before a file that never ends", (done.returncode, done.stderr) == (1, b"avscan: set line 1: kind 1\n"), f"{done}")
        done = run([program, "scan", missing, pipe], stdout=subprocess.PIPE)
        cases.check("a missing set before a file that never ends", (done.returncode, done.stderr) == (4, b"avscan: " + os.fsencode(missing) + b": cannot read\n"), f"{done}")
        done = run([program, "scan", SET, missing, pipe], stdout=subprocess.PIPE)
        cases.check("a missing file before one that never ends", (done.returncode, done.stdout) == (4, b""), f"{done}")
        large = os.path.join(work, "large")
        with open(large, "wb") as file:
            file.write(bytes(1048576))
        done = run(["sh", "-c", 'ulimit -v 65536; "$@"', "sh", program, "scan", SET] + [large] * 200, stdout=subprocess.PIPE)
        cases.check("200 files of a MiB in 64 MiB of memory", done.returncode == 0, f"{done.returncode} {done.stderr!r}")


def helps(cases, program):
    texts = [(["--help"], [b"avscan run examples/late_reply.avs", b"avscan scan examples/test.avsig", b"Exit status: 0 all done, 1 input refused, 2 usage, 3 memory, 4 device; with --found-status 5 something is infected,", b"6 something is infected and some files were not scanned."]),
             (["run", "--help"], [b"SCRIPT", b"volume 1 closed", b"open NAME [LEAST]", b"restart filter|service", b"man avscript"]),
             (["scan", "--help"], [b"SET", b"FILE", b"avsig 1", b"1,048,576 bytes", b"man avsig", b"--recursive", b"--files-from <LIST>", b"--max-size <BYTES>", b"--set <SET>", b"--all-matches", b"--move <FOLDER>", b"--jobs <N>", b"--allow-empty", b"--print0", b"Without -k one file that can't be read"]),
             (["host", "--help"], [b"There is no -k here", b"`avscan scan -k`"]), (["filter", "--help"], [b"There is no -k here", b"`avscan scan -k`"]),
             (["check", "--help"], [b"<SET>...", b"SET: version V, N signatures"])]
    of_guard = [(["--help"], [b"avguard run opens.socket service.socket", b"avscan service service.socket", b"avguard ask opens.socket", b"Exit status: 0 all done, 1 input refused, 2 usage, 3 memory, 4 device"]),
                (["run", "--help"], [b"--service-mode <MODE>", b"--least <V>", b"--most-version <V>", b"--state <FILE>", b"--log <FILE>", b"--log-grants", b"--log-json", b"--clamd <CLAMD>"]), (["ask", "--help"], [b"OPENS", b"--keep-going", b"--wait <SECONDS>"])]
    of_tool = [(["--help"], [b"avtool chart examples/late_reply.avs", b"avtool generate --seed 1", b"avtool import --set-version 7", b"Exit status: 0 all done, 1 input refused, 2 usage, 3 memory, 4 device."]),
               (["chart", "--help"], [b"--from <LINE>", b"--to <LINE>"]), (["generate", "--help"], [b"--seed <N>", b"--commands <M>"]), (["import", "--help"], [b"--set-version <N>", b"--any-target"]), (["merge", "--help"], [b"<SET>...", b"--set-version <N>", b"--output <FILE>"]), (["sign", "--help"], [b"--key <KEY>", b"--output <FILE>", b"--trust <KEY>"])]
    bad = [["scan"], ["scan", SET], ["run"], ["run", "a", "b"], ["judge"], ["--nothing"]]
    bad_for_guard, bad_for_tool = [[], ["run"], ["run", "o"], ["ask"], ["ask", "o"], ["guard", "o", "s"], ["--nothing"]], [[], ["chart"], ["generate"], ["import"], ["merge"], ["sign"], ["sign", SET], ["run", SCRIPT], ["--nothing"]]
    for name, texts, bad in (("avscan", texts, bad), ("avguard", of_guard, bad_for_guard), ("avtool", of_tool, bad_for_tool)):
        at = program if name == "avscan" else program_beside(program, name)
        for words, wanted in texts:
            done = run([at, *words], stdout=subprocess.PIPE)
            for text in wanted:
                cases.check(" ".join([name, *words]), done.returncode == 0 and text in done.stdout and done.stderr == b"", f"no {text!r}")
        for words in bad:
            done = run([at, *words], stdout=subprocess.PIPE)
            one_line = done.stderr.startswith(name.encode() + b": ") and done.stderr.count(b"\n") == 1 and done.stderr.endswith(b" (%s --help tells more)\n" % name.encode())
            cases.check(" ".join([name, *words]), (done.returncode, done.stdout) == (2, b"") and one_line, f"{done}")
        done = run([at, "--version"], stdout=subprocess.PIPE)
        cases.same(f"{name} --version", (done.returncode, done.stdout, done.stderr), (0, name.encode() + b" 0.1.0\n", b""))


def moved(cases, program):
    """A command that another program has now is answered with that program's words, whatever follows it."""
    for command, now in (("guard", "avguard run"), ("ask", "avguard ask"), ("chart", "avtool chart"), ("generate", "avtool generate"), ("import", "avtool import")):
        for more in ([], ["--help"], ["a", "b"], ["--nothing"]):
            done = run([program, command, *more], stdout=subprocess.PIPE)
            told = f"avscan: {command} is now {now} (avscan --help tells more)\n".encode()
            cases.same(" ".join(["avscan", command, *more]), (done.returncode, done.stdout, done.stderr), (2, b"", told))


def built(work, name):
    """The library that tests/NAME.c makes."""
    library = os.path.join(work, f"{name}.so")
    subprocess.run(["cc", "-shared", "-fPIC", "-O1", "-o", library, os.path.join(HERE, f"{name}.c"), "-ldl"], check=True)
    return library


def on_terminal(words, environment, stdout=subprocess.PIPE):
    """Runs a program with a terminal for standard error: its status, what it wrote to standard output, and what was written to the
    terminal."""
    ours, theirs = pty.openpty()
    process = subprocess.Popen(words, stdin=subprocess.DEVNULL, stdout=stdout, stderr=theirs, env=environment)
    os.close(theirs)
    shown = []

    def read():
        try:
            while more := os.read(ours, 4096):
                shown.append(more)
        except OSError:
            pass

    reader = threading.Thread(target=read)
    reader.start()
    out, _ = process.communicate(timeout=SECONDS)
    reader.join()
    os.close(ours)
    return process.returncode, out, b"".join(shown)


def reasons(cases, program):
    """A person at a terminal has a second line with the reason of a fault; a program that reads a pipe has the first one alone."""
    with tempfile.TemporaryDirectory() as work:
        bad, gone, pipe, script = (os.path.join(work, name) for name in ("bad.avsig", "gone", "pipe", "script"))
        for path, content in ((bad, b"avsig 1\nversion 1\nx 5858\ny 58zz\n"), (script, b"volume 1 closed\nx\n")):
            with open(path, "wb") as file:
                file.write(content)
        os.mkfifo(pipe)
        unread = lambda path, reason: (4, b"", [f"{path}: cannot read", f"{path}: {reason}"])
        of_set = (1, b"", ["set line 4: kind 4", f"{bad}:4: not pairs of hexadecimal digits"])
        no_file = unread(gone, "No such file or directory (os error 2)")
        rows = [(["scan", bad, LETTER], of_set), (["host", bad, LETTER], of_set), (["service", pipe, bad], of_set), (["avguard", "run", pipe + "o", pipe + "s", "--clamd", pipe + "c", "--names", bad], of_set),
                (["scan", gone, LETTER], no_file), (["scan", SET, gone], no_file), (["scan", "-k", SET, gone], no_file), (["host", SET, gone], no_file), (["filter", pipe + "f", gone], no_file),
                (["scan", "-k", "--files-from", gone, SET], no_file), (["run", gone], no_file), (["avtool", "import", gone], no_file), (["avtool", "merge", SET, gone], no_file), (["avtool", "chart", gone], no_file),
                (["scan", SET, work], unread(work, "is a folder (-r scans it)")), (["host", SET, work], unread(work, "is a folder")), (["scan", work, LETTER], unread(work, "is a folder")),
                (["scan", SET, pipe], unread(pipe, "is no regular file")), (["run", script], (1, b"", ["line 2: bad script"]))]
        for words, (status, out, lines) in rows:
            name = words[0] if words[0] in ("avguard", "avtool") else "avscan"
            words = [program, *words] if name == "avscan" else [program_beside(program, name), *words[1:]]
            shown = b"".join(f"{name}: {line}\r\n".encode() for line in lines)
            quiet = ["--quiet"] if words[1] in ("scan", "host", "filter") else []
            cases.same(f"{name} {words[1]} on a terminal, {lines[-1]}", on_terminal([*words, *quiet], None), (status, out, shown))
            done = run(words, stdout=subprocess.PIPE)
            cases.same(f"{name} {words[1]} without a terminal, {lines[-1]}", (done.returncode, done.stdout, done.stderr), (status, out, f"{name}: {lines[0]}\n".encode()))
        with open("/dev/full", "wb") as full:
            got = on_terminal([program, "scan", "-q", SET, LETTER], None, full)
        cases.same("a full device on a terminal", got, (4, None, b"avscan: device\r\navscan: standard output: No space left on device (os error 28)\r\n"))
        reading, writing = os.pipe()
        os.close(reading)
        got = on_terminal([program, "scan", "-q", SET, LETTER], None, writing)
        os.close(writing)
        cases.same("a pipe that nobody reads on a terminal", got, (4, None, b""))


def lines_of(verb, counts):
    return rb"(\r%s [%s] of 4 files\x1b\[K)+\r\x1b\[K" % (verb, counts)


def progress(cases, program):
    """The second of four files takes half a second to open: then the line stands which says how many were read, wiped out once."""
    with tempfile.TemporaryDirectory() as work:
        environment = dict(os.environ, LD_PRELOAD=built(work, "slow_open"), SLOW_NAME="/slow", SLOW_MS="500")
        slow, third, gone = (os.path.join(work, name) for name in ("slow", "third", "gone"))
        for name in (slow, third):
            with open(name, "wb") as file:
                file.write(b"a letter")
        files = [LETTER, slow, third, SCRIPT]
        late = rb"(%s)?" % lines_of(b"opened", b"0-4")
        rows = [(["scan", "-j", "1", SET], lines_of(b"scanned", b"123")), (["scan", "-j", "4", SET], lines_of(b"scanned", b"123")),
                (["host", SET], lines_of(b"read", b"123") + late)]
        for row, shape in rows:
            words, command = [program, *row], row[0]
            status, out, shown = on_terminal([*words, *files], environment)
            fine = status == 0 and out.count(b"\n") == 4 and re.fullmatch(shape, shown) and b" 2 of 4 files" in shown
            cases.check(f"{command} on a terminal", fine, f"{status} {out!r} {shown!r}")
            got = on_terminal([*words, "--quiet", *files], environment)
            cases.check(f"{command} --quiet on a terminal", got == (0, out, b""), f"{got}")
            done = run([*words, *files], stdout=subprocess.PIPE, env=environment)
            cases.check(f"{command} without a terminal", (done.returncode, done.stdout, done.stderr) == (0, out, b""), f"{done}")
            status, out, shown = on_terminal([*words, *files[:3], gone], environment)
            told = b"avscan: %s: cannot read\r\navscan: %s: No such file or directory (os error 2)\r\n" % (os.fsencode(gone), os.fsencode(gone))
            # A host looks at each file before it reads one.
            before = rb"" if command == "host" else lines_of(b"scanned", b"123")
            fine = (status, out) == (4, b"") and shown.endswith(told) and re.fullmatch(before, shown[: -len(told)])
            cases.check(f"{command} on a terminal, with a file that is not there", fine, f"{status} {out!r} {shown!r}")
        status, out, shown = on_terminal([program, "scan", "-k", SET, *files], environment)
        fine = status == 0 and out.count(b"\n") == 4 and re.fullmatch(rb"(\rscanned [123] files\x1b\[K)+\r\x1b\[K", shown)
        cases.check("scan -k on a terminal", fine, f"{status} {out!r} {shown!r}")
        progress_of_filter(cases, program, work, files, environment)
        ends_at_once(cases, program)


def progress_of_filter(cases, program, work, files, environment):
    path = os.path.join(work, "socket")
    words = [program, "filter", path, *files]
    for more, shape in (([], lines_of(b"read", b"123")), (["--quiet"], b"")):
        service = subprocess.Popen([program, "service", path, SET], stdout=subprocess.PIPE)
        status, out, shown = on_terminal([*words, *more], environment)
        service.communicate(timeout=SECONDS)
        cases.check(f"filter {more} on a terminal", status == 0 and out.count(b"\n") == 4 and re.fullmatch(shape, shown), f"{status} {out!r} {shown!r}")
    service = subprocess.Popen([program, "service", path, SET], stdout=subprocess.PIPE)
    done = run(words, stdout=subprocess.PIPE, env=environment)
    service.communicate(timeout=SECONDS)
    cases.check("filter without a terminal", (done.returncode, done.stderr) == (0, b""), f"{done}")


def ends_at_once(cases, program):
    """A host on a terminal waits for nothing once it has its last answer: the least time of ten runs, beside ten that show nothing."""
    times = {}
    for words in ([], ["--quiet"]) * 10:
        begun = time.time()
        status, out, shown = on_terminal([program, "host", SET, LETTER, *words], os.environ)
        times.setdefault(len(words), []).append(time.time() - begun)
        cases.check("a short host on a terminal", status == 0 and out.count(b"\n") == 1, f"{status} {out!r} {shown!r}")
    cases.check("a host on a terminal ends with its last answer", min(times[0]) < min(times[1]) + 0.2, f"{times}")


def alone(cases, program):
    """Without a word it says on a terminal that it reads a script, and elsewhere nothing."""
    ours, theirs = pty.openpty()
    process = subprocess.Popen([program], stdin=theirs, stdout=subprocess.PIPE, stderr=subprocess.PIPE)
    os.close(theirs)
    os.write(ours, b"volume 1 closed\n\x04")
    out, err = process.communicate(timeout=SECONDS)
    os.close(ours)
    cases.check("avscan on a terminal", (process.returncode, out, err) == (0, b"boot 1\n", b"avscan: reading a script from the terminal (avscan --help tells more)\n"), f"{out!r} {err!r}")
    done = run([program], b"volume 1 closed\n", stdout=subprocess.PIPE)
    cases.check("avscan elsewhere", (done.returncode, done.stdout, done.stderr) == (0, b"boot 1\n", b""), f"{done}")


def kinds(cases, program):
    """What is no regular file is named and not waited for, and a name commands no terminal."""
    with tempfile.TemporaryDirectory() as work:
        pipe = os.path.join(work, "pipe")
        os.mkfifo(pipe)
        for name in (pipe, work, "/dev/zero", "/dev/tty"):
            told = b"avscan: %s: cannot read\n" % os.fsencode(name)
            for words in (["scan", SET, LETTER, name], ["scan", name, LETTER], ["host", SET, LETTER, name], ["host", name, LETTER], ["filter", pipe + ".s", name], ["service", pipe + ".s", name]):
                done = run([program, *words], stdout=subprocess.PIPE)
                cases.check(f"avscan {' '.join(words)}", (done.returncode, done.stdout, done.stderr) == (4, b"", told), f"{done}")
        done = run([program, "scan", SET, "/dev/stdin"], b"a letter", stdout=subprocess.PIPE)
        cases.check("avscan scan of a pipe that it was handed", (done.returncode, done.stdout, done.stderr) == (0, b"/dev/stdin clean\n", b""), f"{done}")
        done = run(["bash", "-c", f'"{program}" scan "{SET}" <(printf XX)'], stdout=subprocess.PIPE)
        cases.check("avscan scan of a pipe of the shell", done.returncode == 0 and done.stdout.startswith(b"/dev/fd/") and done.stdout.endswith(b" clean\n"), f"{done}")
        name = os.path.join(work, "a\x1b[31m\n\x7f\u009bz\u00e9")
        told = os.fsencode(work) + rb"/a\x1b[31m\x0a\x7f\xc2\x9bz" + "\u00e9".encode()
        for words in (["scan", SET, name], ["host", SET, name], ["run", name], ["filter", pipe + ".s", name], ["service", pipe + ".s", name]):
            done = run([program, *words], stdout=subprocess.PIPE)
            cases.check(f"avscan {words[0]} of a name with control characters", (done.returncode, done.stderr) == (4, b"avscan: " + told + b": cannot read\n"), f"{done}")


def main():
    if len(sys.argv) != 2:
        sys.exit("usage: tests/program.py PROGRAM")
    cases = Cases()
    for part in (devices, devices_of_ask, guard_that_can_say_nothing, memory, memory_of_host, lambda *words: memory_of_host(*words, "--spare"), memory_of_ask, memory_of_guard, words, order, helps, moved, reasons, progress, alone, kinds):
        try:
            part(cases, os.path.abspath(sys.argv[1]))
        except Exception as fault:
            cases.check(part.__name__, False, f"{type(fault).__name__}: {fault}")
    print(f"{cases.passed} passed, {cases.failed} failed")
    sys.exit(1 if cases.failed else 0)


main()
