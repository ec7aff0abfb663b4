#!/usr/bin/env python3
"""Every program with each of its calls failing in turn that opens, reads, writes, takes a connection or waits for one (fail_io.c): once, and from
there on. Whatever fails, no file is let through that was not judged clean, a status 0 has a line for each file, and another status has one
line that says why, unless nothing can be said any more. A guard and its service are asked while calls of theirs fail, and others beside them.
The last line says how many passed and how many failed."""
import concurrent.futures, os, subprocess, sys, tempfile, time

from cases import Cases
from programs import program_beside

HERE = os.path.dirname(os.path.abspath(__file__))
EXAMPLES = os.path.join(os.path.dirname(HERE), "examples")
SET, LETTER, EICAR, SCRIPT = (os.path.join(EXAMPLES, name) for name in ("test.avsig", "letter.txt", "eicar.com.txt", "late_reply.avs"))
SECONDS = 60
# Runs at a time, and so many calls behind the last one that any run made.
LANES = 4
# A guard and a service go on by themselves: so many of their first calls fail, one after the other.
SERVING = 120


def built(work):
    library = os.path.join(work, "fail_io.so")
    subprocess.run(["cc", "-shared", "-fPIC", "-O1", "-o", library, os.path.join(HERE, "fail_io.c"), "-ldl"], check=True)
    return library


def failing(library, number, is_forever=False, report=None):
    return dict(os.environ, LD_PRELOAD=library, FAIL_IO=str(number), FAIL_FOREVER=str(int(is_forever)), **({"FAIL_REPORT": report} if report else {}))


def run(words, **options):
    done = subprocess.run(words, stdin=subprocess.DEVNULL, capture_output=True, timeout=SECONDS, **options)
    return done.returncode, done.stdout, done.stderr


def calls(library, words):
    """How many such calls a run makes."""
    with tempfile.NamedTemporaryFile() as report:
        run(words, env=failing(library, -1, report=report.name))
        return int(report.read() or b"0")


def is_front(out, whole):
    return whole.startswith(out)


def some_of(out, whole):
    """Some of the lines, in their order: a file that could not be read is passed over. The last one may have been cut."""
    left = iter(whole.splitlines(keepends=True))
    return all(any(line == other if line.endswith(b"\n") else other.startswith(line) for other in left) for line in out.splitlines(keepends=True))


def objects_of(out, whole):
    """The same of objects: a file that could not be read has one at its place, with its fault."""
    faults = [b'{"file":"%s","fault":"cannot read"}\n' % os.fsencode(name) for name in (LETTER, EICAR)]
    return some_of(b"".join(line for line in out.splitlines(keepends=True) if not any(fault.startswith(line) for fault in faults)), whole)


def fault_in(got, whole, may_say, is_silent):
    """What is wrong with a run of which a call failed: its status, output and lines, beside those of a whole run."""
    status, out, err = got
    if status < 0:
        return "it ended by a signal"
    if any(b" granted" in line or b" clean" in line for line in out.splitlines() if b"eicar" in line):
        return "an infected file was let through"
    if status == 0 and (out.count(b"\n") != whole[1].count(b"\n") or not may_say(out, whole[1])):
        return "it ended well without all its lines"
    if status != 0 and not may_say(out, whole[1]):
        return "its output is no front of the right one"
    if status != 0 and not is_silent and not err.endswith(b"\n") and out.count(b"\n") != whole[1].count(b"\n"):
        return "it says not why it ended"
    return None


def answers(out, whole):
    """Of each file the line of a whole run, or that it was denied for want of a verdict: in order, from the first or second file on."""
    told = [{line, *(line.split(b" ")[0] + b" denied cause %d" % cause for cause in (3, 5, 6, 7))} for line in whole.splitlines()]
    lines = out.splitlines()
    return any(len(lines) <= len(some) and all(line in of for line, of in zip(lines, some)) for some in (told, told[1:]))


def figures(out, whole):
    """Lines with the names of a whole run's, from the first one on, and numbers. The last one may have been cut."""
    lines, names = out.split(b"\n"), [line.split(b" ")[0] for line in whole.splitlines()]
    return all(line.split(b" ")[0] == name and line.split(b" ")[1].isdigit() for line, name in zip(lines[:-1], names)) and len(lines) <= len(names) + 1


def some_of_metrics(out, whole):
    """The same of metrics: of each line that ended, all but the number is that of a whole run."""
    front = lambda line: line if line.startswith(b"#") else line.split(b" ")[0]
    return all(front(line) == front(other) for line, other in zip(out.split(b"\n")[:-1], whole.splitlines())) and out.count(b"\n") <= whole.count(b"\n")


def each_call(cases, library, words, may_say=is_front):
    """A command with each of its calls failing."""
    name, whole = " ".join([os.path.basename(words[0]), *words[1:3]]), run(words)
    count = calls(library, words) + 5
    tries = [(number, is_forever) for number in range(1, count + 1) for is_forever in (False, True)]

    def attempt(number, is_forever):
        try:
            got = run(words, env=failing(library, number, is_forever))
        except subprocess.TimeoutExpired:
            return "it did not end", b""
        return fault_in(got, whole, may_say, is_forever), got

    with concurrent.futures.ThreadPoolExecutor(LANES) as lanes:
        for (number, is_forever), (fault, got) in zip(tries, lanes.map(lambda it: attempt(*it), tries)):
            cases.check(f"{name}: call {number} of {count} fails{' and all behind it' * is_forever}", fault is None, f"{fault}: {got}")


def in_stretches(cases, library, program, work):
    """A large file that several threads read: which calls they make shows that they do, and each of them fails in turn."""
    large = os.path.join(work, "large")
    with open(EICAR, "rb") as eicar, open(large, "wb") as file:
        file.truncate(67108864)
        file.seek(33554432 - 30)
        file.write(eicar.read())
    words = [program, "scan", "--max-size", "64M", SET, large]
    counts = [calls(library, [*words, "-j", threads]) for threads in ("1", "4")]
    cases.check("several threads read a large file, by smaller reads", counts[0] < 100 and counts[1] > 250, f"{counts}")
    each_call(cases, library, [*words, "-j", "4"])


class Pair:
    """A guard, or a filter, and a service, of which one has calls that fail."""

    def __init__(self, program, folder, fails, environment):
        self.opens, self.at, self.program = os.path.join(folder, "o"), os.path.join(folder, "s"), program
        of = lambda who: environment if who == fails else None
        self.guard = subprocess.Popen([program_beside(program, "avguard"), "run", "--wait", "5", self.opens, self.at], stdin=subprocess.DEVNULL, stdout=subprocess.DEVNULL, stderr=subprocess.PIPE, env=of("guard"))
        self.service = subprocess.Popen([program, "service", "--wait", "5", self.at, SET], stdin=subprocess.DEVNULL, stdout=subprocess.DEVNULL, stderr=subprocess.PIPE, env=of("service"))

    def ask(self, environment=None):
        return run([program_beside(self.program, "avguard"), "ask", "--wait", "10", self.opens, LETTER, EICAR], env=environment)

    def end(self):
        for process in (self.guard, self.service):
            process.kill()
        return [process.communicate()[1] for process in (self.guard, self.service)]


WHOLE = (0, f"{LETTER} granted generation 2 version 1\n{EICAR} denied cause 2\n".encode(), b"")


def serving(cases, program, library):
    """A guard or a service with a call that fails, and one that asks: each answer is right or a denial, or the guard is not there."""

    def attempt(fails, number):
        with tempfile.TemporaryDirectory() as folder:
            pair = Pair(program, folder, fails, failing(library, number))
            limit, fault, got = time.time() + SECONDS, None, None
            while time.time() < limit and pair.guard.poll() is None and not os.path.exists(pair.opens):
                time.sleep(0.005)
            for _ in range(3):
                got = pair.ask()
                fault = fault or fault_in(got, WHOLE, answers, False)
                time.sleep(0.02)
            ended, said = pair.guard.poll(), pair.end()
            if ended is not None and not said[0].endswith(b"\n"):
                fault = fault or "the guard says not why it ended"
            return fault, (got, ended, said)

    tries = [(fails, number) for fails in ("guard", "service") for number in range(1, SERVING + 1)]
    with concurrent.futures.ThreadPoolExecutor(LANES) as lanes:
        for (fails, number), (fault, got) in zip(tries, lanes.map(lambda it: attempt(*it), tries)):
            cases.check(f"call {number} of a {fails} fails", fault is None, f"{fault}: {got}")


def asking(cases, program, library):
    """A client of a guard with each of its calls failing, and the guard behind it."""
    with tempfile.TemporaryDirectory() as folder:
        pair = Pair(program, folder, None, None)
        limit = time.time() + SECONDS
        while pair.ask() != WHOLE and time.time() < limit:
            time.sleep(0.02)
        words = [program_beside(program, "avguard"), "ask", "--wait", "10", pair.opens, LETTER, EICAR]
        each_call(cases, library, words, answers)
        for command in ("status", "metrics"):
            each_call(cases, library, [words[0], command, "--wait", "10", pair.opens], figures if command == "status" else some_of_metrics)
        cases.same("the guard behind clients whose calls failed", pair.ask(), WHOLE)
        pair.end()


def filtering(cases, program, library):
    """A filter and a service at one socket, of which one has a call that fails."""

    def attempt(fails, number):
        with tempfile.TemporaryDirectory() as folder:
            at, environment = os.path.join(folder, "s"), failing(library, number)
            service = subprocess.Popen([program, "service", "--wait", "3", at, SET], stdin=subprocess.DEVNULL, stdout=subprocess.PIPE, stderr=subprocess.PIPE, env=environment if fails == "service" else None)
            try:
                got = run([program, "filter", "--wait", "3", at, LETTER, EICAR], env=environment if fails == "filter" else None)
                fault = fault_in(got, WHOLE, answers, False)
                out, err = service.communicate(timeout=SECONDS)
                if service.returncode != 0 and not err.endswith(b"\n"):
                    fault = fault or "the service says not why it ended"
                return fault, (got, service.returncode, out, err)
            except subprocess.TimeoutExpired:
                service.kill()
                service.communicate()
                return "one did not end", b""

    tries = [(fails, number) for fails in ("filter", "service") for number in range(1, SERVING // 2 + 1)]
    with concurrent.futures.ThreadPoolExecutor(2 * LANES) as lanes:
        for (fails, number), (fault, got) in zip(tries, lanes.map(lambda it: attempt(*it), tries)):
            cases.check(f"call {number} of a {fails} at a socket fails", fault is None, f"{fault}: {got}")


def main():
    if len(sys.argv) != 2:
        sys.exit("usage: tests/faults.py PROGRAM")
    cases, program = Cases(), os.path.abspath(sys.argv[1])
    tool = program_beside(program, "avtool")
    with tempfile.TemporaryDirectory() as work:
        library = built(work)
        key = os.path.join(work, "key")
        with open(os.open(key, os.O_WRONLY | os.O_CREAT, 0o600), "wb") as file:
            file.write(bytes(range(32)))
        for words in ([program, "run", SCRIPT], [program, "run", "--json", SCRIPT], [program, "scan", SET, LETTER, EICAR], [program, "check", SET], [tool, "chart", SCRIPT], [tool, "generate", "--seed", "2", "--commands", "60"], [tool, "merge", SET, SET], [tool, "sign", "--key", key, SET]):
            each_call(cases, library, words)
        each_call(cases, library, [program, "scan", "--json", "-k", SET, LETTER, EICAR], objects_of)
        in_stretches(cases, library, program, work)
        for words in ([program, "scan", "-r", SET, EXAMPLES], [program, "scan", "-j", "4", "-r", SET, EXAMPLES]):
            each_call(cases, library, words, some_of)
        for words in ([program, "host", SET, LETTER, EICAR], [program, "host", "--spare", SET, LETTER, EICAR]):
            each_call(cases, library, words, answers)
        for part in (filtering, serving, asking):
            part(cases, program, library)
    print(f"{cases.passed} passed, {cases.failed} failed")
    sys.exit(1 if cases.failed else 0)


main()
