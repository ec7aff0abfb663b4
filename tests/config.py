#!/usr/bin/env python3
"""The configuration file of `avguard run`: `config.py PROGRAM`.

What a guard takes from its file and what its words say instead, as it shows at its sockets. A bad file never makes a socket: each fault
is one line that names the place, and `avguard check-config` ends with the same line and status. What it prints is a file that says the
same. The last line says how many passed and how many failed."""
import os, subprocess, sys, tempfile

from cases import Cases
from guard import ask, connected, frame, heard, number
from programs import program_beside

SECONDS = 60
ABSENT = b"open = false\nwait = 30\nkeep = 67108864\nquestions = 256\nmax-size = 9223372036854775807\nstream-max-size = 26214399\nmode = \"600\"\nservice-mode = \"600\"\nleast = 0\nlog-grants = false\nlog-json = false\n"
DENIED, LET_THROUGH = frame(3, number(1), b"\3"), 4
NUMBER = "expected a number from %d to %d"
SOCKET = "expected the path of a socket, 1 to 107 bytes in quotes"
FILE = "expected the path of a file in quotes"
FLAG = "expected true or false"
RIGHTS = 'expected "600", "660" or "666"'
# the value of a key, and what is expected there, if it is bad
VALUES = [
    ("wait", [(1, 30, 86400, "0x1e", "0o36", "8_6400"), (0, 86401, -1, "1.5", '"30"', "[30]", "true", "{}")], NUMBER % (1, 86400)),
    ("keep", [(0, 1, 1 << 40), ((1 << 40) + 1, -1, '"0"')], NUMBER % (0, 1 << 40)),
    ("questions", [(1, 256), (0, 257, "false")], NUMBER % (1, 256)),
    ("max-size", [(1, 1 << 40, (1 << 63) - 1), (0, -1, "'1'")], NUMBER % (1, (1 << 63) - 1)),
    ("stream-max-size", [(1, (1 << 63) - 1), (0, "1.5")], NUMBER % (1, (1 << 63) - 1)),
    ("least", [(0, (1 << 63) - 1), (-1, '""')], NUMBER % (0, (1 << 64) - 1)),
    ("most-version", [(0, (1 << 63) - 1), (-1, "1979-05-27", "inf")], NUMBER % (0, (1 << 64) - 1)),
    ("open", [("true", "false"), (0, 1, '"true"', "[]")], FLAG),
    ("mode", [('"600"', "'660'", '"666"'), (660, "0o660", '"777"', '"0660"', '""')], RIGHTS),
    ("service-mode", [('"600"', "'660'", '"666"'), (600, "false", '"60"')], RIGHTS),
    ("opens", [('"x"', '"%s"' % ("x" * 107)), ('""', '"%s"' % ("x" * 108), 7)], SOCKET),
    ("service", [('"x"', '"%s"' % ("x" * 107)), ('""', '"%s"' % ("x" * 108), "true")], SOCKET),
    ("clamd", [('"x"', '"%s"' % ("x" * 107)), ('""', '"%s"' % ("x" * 108), "[]")], SOCKET),
    ("names", [('"x"',), ('""', 1)], FILE),
    ("state", [('"x"',), ('""', 1)], FILE),
    ("log", [('"x"', '"-"'), ('""', "true")], FILE),
    ("log-grants", [("true", "false"), (0, '"true"')], FLAG),
    ("log-json", [("true", "false"), (1, "[]")], FLAG),
]
# a text that is no document, and the place of its fault
TEXTS = [
    (b"wait", 1, 5), (b"wait = 30 keep = 1", 1, 11), (b"opens = \"o", 1, 11), (b"# caf\xc3\xa9\nwait = 1\nwait = 2\n", 3, 1), (b"\n\nleast = 9223372036854775808", 3, 9),
    (b"opens = 'o'\nservice = '\xff'", 2, 12), (b"wait = 01", 1, 8), (b"[run\n", 1, 5), (b"= 3", 1, 1),
]


def built(folder, name):
    """The library that NAME.c makes."""
    library = os.path.join(folder, f"{name}.so")
    subprocess.run(["cc", "-shared", "-fPIC", "-O1", "-o", library, os.path.join(os.path.dirname(os.path.abspath(__file__)), f"{name}.c"), "-ldl"], check=True)
    return library


class Room:
    """A folder with a configuration file."""

    def __init__(self, program):
        self.avguard, self.folder = program_beside(program, "avguard"), tempfile.TemporaryDirectory()
        self.path = self.at("avguard.conf")

    def __enter__(self):
        return self

    def __exit__(self, *fault):
        self.folder.cleanup()

    def at(self, name):
        return os.path.join(self.folder.name, name)

    def write(self, text):
        with open(self.path, "wb") as file:
            file.write(text if isinstance(text, bytes) else text.encode())

    def run(self, *words, **options):
        done = subprocess.run([self.avguard, *words], cwd=self.folder.name, stdin=subprocess.DEVNULL, capture_output=True, timeout=SECONDS, **options)
        return done.returncode, done.stdout, done.stderr

    def refused(self, cases, name, fault, status=2, *words):
        """The file, and both commands, end so, and nothing was made."""
        before = sorted(os.listdir(self.folder.name))
        told = b"avguard: " + (fault if isinstance(fault, bytes) else fault.encode()) + b"\n"
        if not words:
            cases.same(f"check-config: {name}", self.run("check-config", self.path), (status, b"", told))
        cases.same(f"run: {name}", self.run("run", "--config", self.path, *words), (status, b"", told))
        cases.same(f"nothing was made: {name}", sorted(os.listdir(self.folder.name)), before)


def checked(cases, program):
    """What check-config prints: the settings that hold, in the form of a file."""
    with Room(program) as room:
        room.write("opens = 'o'\nservice = 's'")
        least = b'opens = "o"\nservice = "s"\n' + ABSENT
        cases.same("a file with the sockets alone", room.run("check-config", room.path), (0, least, b""))
        whole = (b'opens = "a/o"\nservice = "s s"\nclamd = "c\\u0009\\u0085\\u000a\xc3\xa9\\"\\\\"\nnames = "n"\nopen = true\nwait = 86400\nkeep = 0\nquestions = 1\nmax-size = 1\nstream-max-size = 9223372036854775807\nmode = "660"\nservice-mode = "666"\n'
                 b'least = 7\nmost-version = 9223372036854775807\nstate = "/v"\nlog = "-"\nlog-grants = true\nlog-json = false\n')
        for name, text in (("what it printed", least), ("all keys", whole), ("all keys in reverse", b"\n".join(reversed(whole.splitlines()))), ("remarks and line ends", b"\xef\xbb\xbf# one\r\n" + whole.replace(b"\n", b" # more\r\n\r\n"))):
            room.write(text)
            wanted = least if text == least else whole
            cases.same(name, room.run("check-config", room.path), (0, wanted, b""))
        room.write(whole)
        with open("/dev/full", "wb") as full:
            done = subprocess.run([room.avguard, "check-config", room.path], stdout=full, stderr=subprocess.PIPE, timeout=SECONDS)
        cases.same("a full device", (done.returncode, done.stderr), (4, b"avguard: device\n"))


def values(cases, program):
    """Each key, with the least and the greatest value and what is beside them."""
    with Room(program) as room:
        for key, (good, bad), wanted in VALUES:
            others = [line for line in ("opens = 'o'", "service = 's'", "clamd = 'c'") if not line.startswith(key + " ")]
            for value in good:
                room.write("\n".join(others + [f"{key} = {value}"]))
                got = room.run("check-config", room.path)
                cases.check(f"{key} = {value}", got[0] == 0 and got[2] == b"", got)
            for value in bad:
                room.write("\n".join(others + [f"  {key} = {value}  # so"]))
                room.refused(cases, f"{key} = {value}", f"{room.path}:{len(others) + 1}:{len(key) + 6}: {key}: {wanted}")


def texts(cases, program):
    with Room(program) as room:
        for text, line, column in TEXTS:
            room.write(text)
            for words in (["check-config", room.path], ["run", "--config", room.path]):
                status, out, err = room.run(*words)
                front = b"avguard: %s:%d:%d: " % (room.path.encode(), line, column)
                cases.check(f"{words[0]}: {text!r}", (status, out) == (2, b"") and err.startswith(front) and err.count(b"\n") == 1 and err.endswith(b"\n") and len(err) > len(front) + 9, err)
        for text, fault in (("wait = 30\n\n\tcolour = 1\n", ":3:2: colour: no such key"), ('"a\\nb" = 1\n', ":1:1: no such key"), ("[run]\nwait = 30\n", ":1:1: run: no such key"),
                            ("Wait = 30", ":1:1: Wait: no such key"), ("fail.open = true", ":1:1: fail: no such key"), ("[wait]\n", ":1:1: wait: " + NUMBER % (1, 86400)),
                            ("", ": opens is missing"), ("opens = 'o'", ": service is missing"), ("service = 's'", ": opens is missing"), ("opens = 'o'\nservice = 's'\nnames = 'n'", ": clamd is missing")):
            room.write(text)
            room.refused(cases, repr(text), room.path + fault)
        room.write("opens = 'o'\nservice = 's'\nclamd = 's'")
        room.refused(cases, "two sockets of a file with one path", "s: two sockets have one path")
        room.write("opens = 'o'\nservice = 's'")
        room.refused(cases, "a word with the path of the file's", "s: two sockets have one path", 2, "--clamd", "s")
        room.refused(cases, "a word with a path that is too long", "x" * 108 + ": the path of a socket has 1 to 107 bytes", 2, "x" * 108)
        room.refused(cases, "names of the words", room.path + ": clamd is missing", 2, "--names", "n")


def files(cases, program):
    """What can't be read, and how much is."""
    with Room(program) as room:
        room.refused(cases, "a file that is not there", room.path + ": cannot read", 4)
        os.mkdir(room.path)
        room.refused(cases, "a folder", room.path + ": cannot read", 4)
        os.rmdir(room.path)
        os.mkfifo(room.path)
        room.refused(cases, "a FIFO", room.path + ": cannot read", 4)
        os.remove(room.path)
        text = b"opens = 'o'\nservice = 's'\n#"
        room.write(text + b"x" * (65536 - len(text)))
        cases.same("65,536 bytes", room.run("check-config", room.path), (0, b'opens = "o"\nservice = "s"\n' + ABSENT, b""))
        room.write(text + b"x" * (65537 - len(text)))
        room.refused(cases, "65,537 bytes", room.path + ": more than 65536 bytes")
        room.write(b"a" * 65537)
        room.refused(cases, "bad and too long", room.path + ": more than 65536 bytes")
        room.write(b"[" * 65536)
        status, out, err = room.run("check-config", room.path)
        cases.check("65,536 brackets", (status, out) == (2, b"") and err.count(b"\n") == 1, err[:200])
        room.write(b"x = " + b"[" * 65000)
        status, out, err = room.run("check-config", room.path)
        cases.check("an array that is nested too deep", (status, out) == (2, b"") and err.count(b"\n") == 1, err[:200])
        if os.getuid() != 0:
            room.write(b"")
            os.chmod(room.path, 0)
            room.refused(cases, "a file of another", room.path + ": cannot read", 4)
        for words in (["--config"], ["--config", "a", "--config", "b"], ["--config", "a", "--open", "--closed"]):
            status, out, err = room.run("run", *words)
            cases.check(f"run {' '.join(words)}", (status, out, err.count(b"\n")) == (2, b"", 1), err)
        for words in ([], ["a", "b"], ["--config", "a"]):
            status, out, err = room.run("check-config", *words)
            cases.check(f"check-config {' '.join(words)}", (status, out, err.count(b"\n")) == (2, b"", 1), err)


class Configured:
    """A guard by a configuration file and words."""

    def __init__(self, room, text, *words):
        room.write(text)
        self.process = subprocess.Popen([room.avguard, "run", "--config", room.path, *words], cwd=room.folder.name, stdin=subprocess.DEVNULL, stdout=subprocess.DEVNULL, stderr=subprocess.PIPE)

    def __enter__(self):
        return self

    def __exit__(self, *fault):
        self.process.kill()
        self.process.communicate()


def asked(path):
    """What one that asks is answered while no service is there."""
    end = connected(path)
    end.sendall(ask(1, b"A"))
    return heard(end, 14)


def guards(cases, program):
    """A guard that runs has the file's settings, and those of its words in place of them."""
    with Room(program) as room:
        rights = lambda *names: [os.stat(room.at(name)).st_mode & 0o777 for name in names]
        text = "opens = 'o'\nservice = 's'\nclamd = 'c'\nmode = '660'\nservice-mode = '666'\nopen = true\nleast = 5\n"
        let_through = lambda got: got[4:5] == bytes([LET_THROUGH])
        with Configured(room, text):
            got = asked(room.at("o"))
            cases.check("open, by the file", got != DENIED and len(got) == 14, got)
            through = got
            connected(room.at("s")).close()
            connected(room.at("c")).close()
            cases.same("rights, by the file", rights("o", "s", "c"), [0o660, 0o666, 0o660])
            end = connected(room.at("s"))
            end.sendall(frame(5, b"\1", number(1), number(4)))
            cases.check("an older version is turned away, by the file", b"" != heard(end, 14), "")
        with Configured(room, text, "--closed", "--mode", "600", "--service-mode", "660", "p"):
            cases.same("closed, by the words", asked(room.at("p")), DENIED)
            connected(room.at("s")).close()
            cases.same("rights, by the words", rights("p", "s"), [0o600, 0o660])
        with Configured(room, "service = 's'\n", room.at("q")):
            cases.same("a socket of each: closed where nothing is said", asked(room.at("q")), DENIED)
            cases.same("the owner's, where nothing is said", rights("q", "s"), [0o600, 0o600])
        with Configured(room, "", "--open", "r", "t"):
            got = asked(room.at("r"))
            cases.check("open, by the words", got == through, got)
        with Configured(room, text.replace("clamd = 'c'\n", ""), "--clamd", "k", "u", "v"):
            connected(room.at("u")).close()
            connected(room.at("k")).close()
            cases.same("the file's sockets are not made then", [os.path.exists(room.at(name)) for name in "uvk"], [True] * 3)
        bad = room.at("bad.avsig")
        with open(bad, "wb") as file:
            file.write(b"avsig 3\n")
        room.write(text + f"names = '{bad}'\n")
        cases.same("a bad signature file of the file", room.run("run", "--config", room.path), (1, b"", b"avguard: set line 1: kind 1\n"))
        room.write(text + f"state = '{bad}'\n")
        cases.same("a bad state of the file", room.run("run", "--config", room.path), (4, b"", b"avguard: %s: is no file that a guard keeps a version in\n" % bad.encode()))


def memory(cases, program):
    """Each request for memory refused in turn: all, or the line and nothing else."""
    with Room(program) as room:
        library = built(room.folder.name, "fail_nth")
        for text, status in (("opens = 'o'\nservice = 's'\nclamd = 'c'\nmode = '660'\n# so\nwait = 3\n", 0), ("opens = 'o'\nservice = 's'\nwait = 0\n", 2)):
            room.write(text)
            whole = room.run("check-config", room.path)
            refused, in_a_row, count = 0, 0, 0
            while in_a_row < 20:
                count += 1
                got = room.run("check-config", room.path, env=dict(os.environ, LD_PRELOAD=library, FAIL_NTH=str(count)))
                in_a_row = in_a_row + 1 if got == whole else 0
                if got != whole:
                    # the place of a fault is 1:1 where there is no memory to find it
                    holds = got == (3, b"", b"avguard: no memory\n") or status == 2 and got == (2, b"", b"avguard: %s:1:1: wait: expected a number from 1 to 86400\n" % room.path.encode())
                    refused += 1
                    cases.check(f"request {count} refused, status {status}", holds, got)
            cases.check(f"memory, status {status}", refused > 20, f"{refused} of {count}")


def main():
    if len(sys.argv) != 2:
        sys.exit("usage: tests/config.py PROGRAM")
    cases, program = Cases(), os.path.abspath(sys.argv[1])
    for part in (checked, values, texts, files, guards, memory):
        try:
            part(cases, program)
        except Exception as fault:
            cases.check(part.__name__, False, f"{type(fault).__name__}: {fault}")
    print(f"{cases.passed} passed, {cases.failed} failed")
    sys.exit(1 if cases.failed else 0)


if __name__ == "__main__":
    main()
