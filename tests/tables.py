#!/usr/bin/env python3
"""Tables of cases, one a line: what pins the definitions from outside, so that changing one in specs and code alike fails here.

SCRIPTS: commands behind `volume 1 closed` (or a whole script), and the lines behind `boot 1`.
BAD_SCRIPTS: a whole script and the number of its first bad line.
SETS, RANGED_SETS: the lines of a signature file of format 1 or 2 behind its head, and the answer: how many signatures it has, or its
bad line and kind.
The last line says how many passed and how many failed."""
import os, subprocess, sys, tempfile

SECONDS = 60
MIB = 1048576
HIGH = 281474976710655
BIG = 18446744073709551615


def times(text, count):
    return [text] * count


def hexadecimal(count, byte="41"):
    return byte * count


# commands | output lines
SCRIPTS = [
    # names of streams: each byte from 33 to 126, 1 to 255 of them
    ([b"create !"], ["stream 1 generation 1"]),
    ([b"create ~"], ["stream 1 generation 1"]),
    ([b"create \x7f"], ["refused BadName"]),
    ([b"create \x1f"], ["refused BadName"]),
    ([b"create \t"], ["refused BadName"]),
    ([b"create \r"], ["refused BadName"]),
    ([b"create \x80"], ["refused BadName"]),
    ([b"create \xff"], ["refused BadName"]),
    ([b"create a\x7f"], ["refused BadName"]),
    (["create " + "n" * 255], ["stream 1 generation 1"]),
    (["create " + "n" * 256], ["refused BadName"]),
    (["create #"], ["stream 1 generation 1"]),
    ([b"write \x7f 0 41"], ["refused NoSuchName"]),
    ([b"cut \x7f 0"], ["refused NoSuchName"]),
    ([b"judge \x7f"], ["refused NoSuchName"]),
    # two refusals that hold at once: the first is told
    ("limit streams 1\nvolume 1 closed\ncreate a\ncreate a\ncreate b\n", ["stream 1 generation 1", "refused Exists", "refused Full"]),
    (b"limit streams 1\nvolume 1 closed\ncreate a\ncreate \x7f\n", ["stream 1 generation 1", "refused BadName"]),
    ("limit length 2\nvolume 1 closed\ncreate a\nwrite a 1 414141\n", ["stream 1 generation 1", "refused Hole"]),
    ("limit generation 1\nvolume 1 closed\ncreate a\nwrite a 1 41\n", ["stream 1 generation 1", "refused Hole"]),
    ("limit length 2\nlimit generation 1\nvolume 1 closed\ncreate a\nwrite a 0 414141\n", ["stream 1 generation 1", "refused TooLarge"]),
    ("limit generation 1\nvolume 1 closed\ncreate a\ncut a 1\n", ["stream 1 generation 1", "refused Hole"]),
    ("limit generation 1\nvolume 1 closed\ncreate a\ncut a 0\n", ["stream 1 generation 1", "refused GenerationSpent"]),
    ("limit generation 1\nvolume 1 closed\ncreate a\nwrite a 0 -\n", ["stream 1 generation 1", "refused GenerationSpent"]),
    (["publish 2", "publish 0", "publish 1 " + hexadecimal(65)], ["version 2 signatures 0", "refused BadSet", "refused BadSet"]),
    (["publish 2", "publish 2", "publish 1", "publish 3"], ["version 2 signatures 0", "refused OldVersion", "refused OldVersion", "version 3 signatures 0"]),
    ([f"publish {n}" for n in range(1, 4098)] + ["publish 4096", "publish 5000 " + hexadecimal(65)],
     [f"version {n} signatures 0" for n in range(1, 4097)] + ["refused CatalogueFull", "refused OldVersion", "refused BadSet"]),
    (["judge a"], ["refused NoSuchName"]),
    (["create a", "judge a"], ["stream 1 generation 1", "refused NoSignatures"]),
    # limits of a content
    (f"limit length 2\nvolume 1 closed\ncreate a\nwrite a 0 4142\nwrite a 1 42\nwrite a 2 43\nwrite a 2 -\n",
     ["stream 1 generation 1", "stream 1 generation 2 length 2", "stream 1 generation 3 length 2", "refused TooLarge", "stream 1 generation 4 length 2"]),
    (["create a", f"write a {BIG} 41", f"write a {BIG} -", f"cut a {BIG}"], ["stream 1 generation 1", "refused Hole", "refused Hole", "refused Hole"]),
    # limits of a set
    (["publish 1 " + hexadecimal(64)], ["version 1 signatures 1"]),
    (["publish 1 " + hexadecimal(65)], ["refused BadSet"]),
    (["publish 1 " + " ".join(times("41", 1024))], ["version 1 signatures 1024"]),
    (["publish 1 " + " ".join(times("41", 1025))], ["refused BadSet"]),
    (["publish 1 " + " ".join(times(hexadecimal(64), 256))], ["version 1 signatures 256"]),
    (["publish 1 " + " ".join(times(hexadecimal(64), 256) + ["41"])], ["refused BadSet"]),
    ([f"publish {BIG}"], [f"version {BIG} signatures 0"]),
    # a signature is found where it may begin; places out of order or range are no set
    (["publish 1 41@1048575-1048575", "publish 2 41@0-1048575", "publish 3 41@1048575-1048576", "publish 3 41@1-0", "publish 3 41@18446744073709551615-0"],
     ["version 1 signatures 1", "version 2 signatures 1", "refused BadSet", "refused BadSet", "refused BadSet"]),
    (["publish 2", "publish 1 41@1-0", "publish 1 41@0-0"], ["version 2 signatures 0", "refused BadSet", "refused OldVersion"]),
    # a removed number is not known; the verdict is the least end, and of these the least index
    (["publish 1 4243 414243 43", "create a", "write a 0 41424344", "judge a"],
     ["version 1 signatures 3", "stream 1 generation 1", "stream 1 generation 2 length 4", "judge 1 generation 2 version 1 infected 0 end 3"]),
    (["publish 1 4a4B", "create a", "write a 0 4A4b", "judge a"],
     ["version 1 signatures 1", "stream 1 generation 1", "stream 1 generation 2 length 2", "judge 1 generation 2 version 1 infected 0 end 2"]),
]

LIMITS = [("streams", 65536), ("length", MIB), ("generation", HIGH), ("questions", 1024), ("pended", 4096), ("jobs", 256), ("cache", 4096), ("chunk", 4096), ("audit", MIB)]
SCRIPTS += [(f"limit {field} {number}\nvolume 1 open\n", []) for field, most in LIMITS for number in (1, most)]

# a whole script | the number of its first bad line
BAD_SCRIPTS = [(f"limit {field} {number}\nvolume 1 closed\n", 2) for field, most in LIMITS for number in (0, most + 1)]
BAD_SCRIPTS += [
    (f"limit {word} 1\nvolume 1 closed\n", 1) for word in ("stream", "Streams", "lengths", "version", "opens", "limit", "1")
] + [
    ("", 1), ("\n", 2), ("#\n", 2), ("volume 1\n", 1), ("volume 1 shut\n", 1), ("volume closed\n", 1), ("volume 1 closed open\n", 1), ("Volume 1 closed\n", 1),
    ("volume 01 closed\n", 1), ("volume -1 closed\n", 1), ("volume 18446744073709551616 closed\n", 1), ("volume 1 closed\nvolume 1 closed\n", 2),
    ("volume 1 closed\nlimit jobs 1\n", 2), ("create a\nvolume 1 closed\n", 1), (" volume 1 closed\n", 1), ("volume  1 closed\n", 1), ("volume 1 closed \n", 1),
    ("volume 1 closed\r\n", 1), ("volume 1 closed\n\r\n", 2), ("volume 1 closed\npublish\n", 2), ("volume 1 closed\npublish 1 \n", 2), ("volume 1 closed\npublish 1 4\n", 2),
    ("volume 1 closed\npublish 1 4g\n", 2), ("volume 1 closed\npublish 1 -\n", 2), ("volume 1 closed\npublish x\n", 2), ("volume 1 closed\ncreate\n", 2),
    ("volume 1 closed\ncreate a b\n", 2), ("volume 1 closed\nwrite a 0\n", 2), ("volume 1 closed\nwrite a 0 -41\n", 2), ("volume 1 closed\nwrite a 0 41 41\n", 2),
    ("volume 1 closed\nwrite a - 41\n", 2), ("volume 1 closed\nwrite a 0 --\n", 2), ("volume 1 closed\ncut a\n", 2), ("volume 1 closed\ncut a 1 2\n", 2), ("volume 1 closed\ncut a x\n", 2),
    ("volume 1 closed\njudge\n", 2), ("volume 1 closed\njudge a b\n", 2), ("volume 1 closed\nJudge a\n", 2), ("volume 1 closed\nerase a\n", 2), ("volume 1 closed\n\n#\nx\n", 4),
]

# a place that is no number, or not two of them
BAD_SCRIPTS += [(f"volume 1 closed\npublish 1 41{places}\n", 2) for places in
                ("@", "@1", "@1-", "@-1", "@1-2-3", "@1-2@3-4", "@01-2", "@1-02", "@+1-2", "@1--2", "@x-2", "@1-x", "@1-18446744073709551616", "@@1-2", "-1")]
BAD_SCRIPTS += [("volume 1 closed\npublish 1 @1-2\n", 2), ("volume 1 closed\npublish 1 4@1-2\n", 2), ("volume 1 closed\npublish 1 41@1 -2\n", 2)]

# a bad line behind `volume 1 closed`, a verb with the words that it does not take
BAD_LINES = [f"{verb}{words}" for verb in ("remove", "cleanup", "judge", "create") for words in ("", " ", "  a", " a ", " a b")]
BAD_LINES += [f"{verb}{words}" for verb in ("down", "up", "work", "timeout")
              for words in ("", " ", " x", " -1", " +1", " 01", " 00", " 1 ", " 1 2", " a 1", " 1.1", " 0x1", " 18446744073709551616")]
BAD_LINES += [f"open{words}" for words in ("", " ", " a ", "  1", " a x", " a 01", " a -", " a 1 ", " a 1 2", " a 18446744073709551616")]
BAD_LINES += [f"{verb}{words}" for verb in ("disconnect", "restart")
              for words in ("", " ", " a", " Filter", " filters", " filter ", " filter service", " service 1", " 1", " world")]
BAD_LINES += ["connect ", "connect 1", "connect 02", "connect 2 2", "connect 2 ", "disconnect 2", "disconnect filter 1", "restart filter 2", "restart service 3", "connect filter", "connects", "Connect", "removes a", "opens a", "clean a", "works 1", "frame 1", "down1", "limits jobs 1", "volumes"]
BAD_SCRIPTS += [(f"volume 1 closed\n{line}\n", 2) for line in BAD_LINES]
BAD_SCRIPTS += [(f"{line}\nvolume 1 closed\n", 1) for line in ("connect", "open a", "down 1", "work 1", "timeout 1", "restart filter", "disconnect service", "remove a", "cleanup a")]

NAMES = [f"n{i}" for i in range(1025)]
SIGNS = "ABCDEFGHIJKLMNOPQRSTUVWXYZabcdefghijklmnopqrstuvwxyz0123456789._-"
OTHER_SIGNS = [chr(byte) for byte in range(256) if chr(byte) not in SIGNS + "\n "]

# lines behind the head | (signatures, None), or (bad line, kind)
SETS = [
    (["A 41", "z 41", "0 41", ". 41", "_ 41", "- 41"], (6, None)),
    ([f"{sign} 41" for sign in SIGNS], (65, None)),
    (["n" * 32 + " 41"], (1, None)),
    (["n" * 33 + " 41"], (3, 3)),
    ([" 41"], (3, 3)), ([""], (3, 3)), (["a"], (3, 3)), (["a+b 41"], (3, 3)), (["a/b 41"], (3, 3)), (["a: 41"], (3, 3)), (["@ 41"], (3, 3)), (["[ 41"], (3, 3)), (["` 41"], (3, 3)),
    (["{ 41"], (3, 3)), ([b"\xe9 41"], (3, 3)), (["a\t41"], (3, 3)),
    (["a 4"], (3, 4)), (["a 4g"], (3, 4)), (["a 41 "], (3, 4)), (["a 41 42"], (3, 4)), (["a  41"], (3, 4)), (["a 41\r"], (3, 4)), (["a 4G"], (3, 4)), (["a /1"], (3, 4)), (["a :1"], (3, 4)), (["a @1"], (3, 4)), (["a `1"], (3, 4)),
    (["a aF09fAbB"], (1, None)),
    (["a "], (3, 5)), (["a " + hexadecimal(64)], (1, None)), (["a " + hexadecimal(65)], (3, 5)),
    (["a 41", "a 42"], (4, 6)), (["a 41", "b 42", "a 43"], (5, 6)), (["a 41", "b 41"], (2, None)), (["a 41", "A 41"], (2, None)),
    ([f"{name} 41" for name in NAMES[:1024]], (1024, None)),
    ([f"{name} 41" for name in NAMES], (1027, 7)),
    ([f"{name} {hexadecimal(64)}" for name in NAMES[:256]], (256, None)),
    ([f"{name} {hexadecimal(64)}" for name in NAMES[:256]] + ["x 41"], (259, 7)),
    # two kinds on one line: the one that is judged first
    (["+ 4"], (3, 3)), (["+ "], (3, 3)), (["a 4" + hexadecimal(65)], (3, 4)), (["a 41", "a 4"], (4, 4)), (["a 41", "a "], (4, 5)), (["a 41", "a " + hexadecimal(65)], (4, 5)), (["a 41", "+ 41"], (4, 3)),
    ([f"{name} 41" for name in NAMES[:1024]] + ["n0 41"], (1027, 6)),
    ([f"{name} 41" for name in NAMES[:1024]] + ["x "], (1027, 5)),
    # the first bad line counts, whatever follows
    (["a 4", "+ 41"], (3, 4)), (["a 41", "b "], (4, 5)),
]

SETS += [([f"a{sign} 41"], (3, 3)) for sign in OTHER_SIGNS]

# the same of format 2, where a range may stand behind the digits
RANGED_SETS = [(lines, answer) for lines, answer in SETS if answer != (3, 4)]
RANGED_SETS += [
    (["a 41 0 0"], (1, None)), (["a 41 0 1048575"], (1, None)), (["a 41 1048575 1048575"], (1, None)), (["a 41 3 9", "b 42", "c 43 0 1"], (3, None)),
    (["a 41 0 1048576"], (3, 9)), (["a 41 1048576 1048576"], (3, 9)), (["a 41 1 0"], (3, 9)), (["a 41 1048575 1048574"], (3, 9)), (["a 41 18446744073709551616 1"], (3, 9)),
    (["a 41 "], (3, 9)), (["a 41 1"], (3, 9)), (["a 41 1 "], (3, 9)), (["a 41 1 2 "], (3, 9)), (["a 41 1 2 3"], (3, 9)), (["a 41  1 2"], (3, 9)), (["a 41 1  2"], (3, 9)),
    (["a 41 01 2"], (3, 9)), (["a 41 1 02"], (3, 9)), (["a 41 +1 2"], (3, 9)), (["a 41 -1 2"], (3, 9)), (["a 41 1-2"], (3, 9)), (["a 41 x 2"], (3, 9)), (["a 41 1 2\r"], (3, 9)), (["a 41 42"], (3, 9)),
    (["a 4"], (3, 4)), (["a 4g"], (3, 4)), (["a 41\r"], (3, 4)), (["a 4G 1 2"], (3, 4)), (["a 4 2 1"], (3, 4)), (["a 4\t1 2"], (3, 4)),
    (["a  0 3"], (3, 5)), (["a  3 0"], (3, 5)), (["a " + hexadecimal(65) + " 3 0"], (3, 5)), (["a " + hexadecimal(64) + " 3 0"], (3, 9)), (["+ 41 3 0"], (3, 3)),
    (["a 41", "a 42 3 0"], (4, 9)), (["a 41 0 3", "a 42 0 3"], (4, 6)),
    ([f"{name} 41 0 9" for name in NAMES[:1024]] + ["x 41 9 0"], (1027, 9)), ([f"{name} 41 0 9" for name in NAMES[:1024]] + ["x 41 0 9"], (1027, 7)),
]

# a whole signature file | (bad line, kind)
FILES = [
    (b"", (1, 8)), (b"avsig 1", (1, 8)), (b"avsig 3", (1, 8)), (b"avsig 1\n", (2, 8)), (b"avsig 1\nversion 1", (2, 8)), (b"avsig 1\nversion 0", (2, 8)), (b"avsig 1\nversion 1\na 41", (3, 8)), (b"avsig 1\nversion 1\n+", (3, 8)),
    (b"avsig 2\n", (2, 8)), (b"avsig 2", (1, 8)), (b"avsig 2\nversion 0\n", (2, 2)), (b"avsig 2\nversion 1\na 41 2 1", (3, 8)), (b"avsig 2 \n", (1, 1)), (b"avsig 12\n", (1, 1)), (b"avsig 0\n", (1, 1)), (b"avsig 1 \n", (1, 1)), (b"avsig 1\r\n", (1, 1)), (b"Avsig 1\n", (1, 1)), (b"\n", (1, 1)), (b"avsig 3\nversion 0\n", (1, 1)),
    (b"avsig 1\nversion 0\n", (2, 2)), (b"avsig 1\nversion 01\n", (2, 2)), (b"avsig 1\nversion\n", (2, 2)), (b"avsig 1\nversion 1 \n", (2, 2)), (b"avsig 1\nversion  1\n", (2, 2)), (b"avsig 1\nversion 18446744073709551616\n", (2, 2)),
    (b"avsig 1\nversion 1\n", (0, None)), (b"avsig 2\nversion 1\n", (0, None)), (b"avsig 1\nversion 18446744073709551615\n", (0, None)),
]


def as_bytes(text):
    return text if isinstance(text, bytes) else text.encode("latin-1")


class Tables:
    def __init__(self, program, folder):
        self.program, self.folder = program, folder
        self.passed = self.failed = 0

    def check(self, name, wanted, got):
        if wanted == got:
            self.passed += 1
        else:
            self.failed += 1
            print(f"{name[:120]!r}: wanted {wanted!r:.200}, got {got!r:.200}")

    def run(self, words, given=b""):
        done = subprocess.run([self.program] + words, input=given, stdout=subprocess.PIPE, stderr=subprocess.PIPE, timeout=SECONDS)
        return done.returncode, done.stdout, done.stderr

    def script(self, commands, lines):
        text = b"volume 1 closed\n" + b"".join(as_bytes(c) + b"\n" for c in commands) if isinstance(commands, list) else as_bytes(commands)
        self.check(text, (0, "".join(line + "\n" for line in ["boot 1"] + lines).encode(), b""), self.run(["run", "-"], text))

    def bad_script(self, text, line):
        self.check(as_bytes(text), (1, b"", b"avscan: line %d: bad script\n" % line), self.run(["run", "-"], as_bytes(text)))

    def file(self, content, answer):
        path, letter = os.path.join(self.folder, "set"), os.path.join(self.folder, "letter")
        with open(path, "wb") as file:
            file.write(content)
        with open(letter, "wb") as file:
            file.write(b"")
        lines = content.split(b"\n")
        is_empty = answer[1] is None and lines[2:] == [b""]
        told = b"avscan: %s: %s has no signatures\n" % (os.fsencode(path), lines[1]) if is_empty else b""
        if answer[1] is None:
            wanted = (0, os.fsencode(letter) + b" clean\n", told)
        else:
            wanted = (1, b"", b"avscan: set line %d: kind %d\n" % answer)
        self.check(content, wanted, self.run(["scan", "--allow-empty", path, letter]))
        if is_empty:
            self.check(content, (1, b"", told), self.run(["scan", path, letter]))


def main():
    if len(sys.argv) != 2:
        sys.exit("usage: tests/tables.py PROGRAM")
    with tempfile.TemporaryDirectory() as folder:
        tables = Tables(os.path.abspath(sys.argv[1]), folder)
        for commands, lines in SCRIPTS:
            tables.script(commands, lines)
        for text, line in BAD_SCRIPTS:
            tables.bad_script(text, line)
        for content, answer in FILES:
            tables.file(content, answer)
        for lines, answer in SETS:
            tables.file(b"avsig 1\nversion 1\n" + b"".join(as_bytes(line) + b"\n" for line in lines), answer)
        for lines, answer in RANGED_SETS:
            tables.file(b"avsig 2\nversion 1\n" + b"".join(as_bytes(line) + b"\n" for line in lines), answer)
    print(f"{tables.passed} passed, {tables.failed} failed")
    sys.exit(1 if tables.failed else 0)


main()
