#!/usr/bin/env python3
"""The built program over files as people have them: folders and links, lists of names, large files, and files that change.

tests/files/expected.txt has commands over a tree that is made here, with what each prints. The rest are rules: the order of names'
bytes, what is passed over and what is told, lists with either end, a content that comes in pieces with a signature over each cut,
trees that change while they are walked, many files in little memory, and the statuses. The last line says how many passed and
how many failed."""
import contextlib, os, random, re, select, shutil, socket, subprocess, sys, tempfile, threading, time

from cases import Cases
from names import quoted
from programs import program_beside

SECONDS = 60
HERE = os.path.dirname(os.path.abspath(__file__))
DATA = os.path.join(HERE, "files")
EICAR = rb"X5O!P%@AP[4\PZX54(P^)7CC)7}$EICAR-STANDARD-ANTIVIRUS-TEST-FILE!$"
PIECE = 1048576 + 2
# From so many bytes on a file is read by several threads.
LARGE = 67108864
NOTHING = b"avscan: no file was scanned\n"


def run(words, given=b"", **options):
    done = subprocess.run(words, input=given, stdout=subprocess.PIPE, stderr=subprocess.PIPE, timeout=SECONDS, **options)
    return done.returncode, done.stdout, done.stderr


def write(path, content):
    with open(path, "wb") as file:
        file.write(content)
    return path


def built(work, name):
    library = os.path.join(work, f"{name}.so")
    subprocess.run(["cc", "-shared", "-fPIC", "-O1", "-o", library, os.path.join(HERE, f"{name}.c"), "-ldl"], check=True)
    return library


def grow(work):
    """The tree of expected.txt, with a link and a FIFO, and the signature file beside it."""
    tree = os.path.join(work, "tree")
    for folder in ("Z", "b/c"):
        os.makedirs(os.path.join(tree, folder))
    shutil.copy(os.path.join(DATA, "set.avsig"), work)
    write(os.path.join(tree, "Z/zz"), EICAR + b"H+H*\n")
    write(os.path.join(tree, "b/eicar"), EICAR + b"H+H*\n")
    write(os.path.join(tree, "b/c/with space"), b"a letter\n")
    write(os.path.join(tree, "b.txt"), b"a letter that nothing is in\n")
    write(os.path.join(tree, "large"), b"a" * 1500000 + EICAR + b"H+H*\n")
    os.symlink("b/eicar", os.path.join(tree, "link"))
    os.mkfifo(os.path.join(tree, "pipe"))
    return tree


def tables(cases, program):
    with tempfile.TemporaryDirectory() as work:
        grow(work)
        with open(os.path.join(DATA, "expected.txt"), "rb") as file:
            blocks = file.read().split(b"$ avscan ")[1:]
        for block in blocks:
            command, *lines = block.splitlines()
            status = [int(line[7:]) for line in lines if line.startswith(b"status ")]
            told = [line for line in lines if line.startswith(b"avscan: ")]
            out = [line for line in lines if line not in told and not line.startswith(b"status ")]
            wanted = (sum(status), b"".join(line + b"\n" for line in out), b"".join(line + b"\n" for line in told))
            got = run([program, *command.decode().split()], cwd=work)
            cases.check(f"avscan {command.decode()}", got == wanted, f"{got}")


def links(cases, program):
    """Links of every kind stand in a tree, loops among them: each file has one line. A FOLDER that is named may be a link."""
    with tempfile.TemporaryDirectory() as work:
        signatures = os.path.join(DATA, "set.avsig")
        tree, far = os.path.join(work, "tree"), os.path.join(work, "far")
        os.makedirs(os.path.join(tree, "in/deep"))
        os.mkdir(far)
        write(os.path.join(far, "other"), EICAR)
        write(os.path.join(tree, "in/deep/file"), b"abc")
        for target, name in ((".", "loop"), ("..", "in/up"), ("../..", "in/deep/top"), (far, "far"), (os.path.join(far, "other"), "other"), ("nowhere", "gone"), ("self", "self")):
            os.symlink(target, os.path.join(tree, name))
        os.mkfifo(os.path.join(tree, "pipe"))
        socket.socket(socket.AF_UNIX).bind(os.path.join(tree, "socket"))
        wanted = (0, os.fsencode(tree) + b"/in/deep/file clean\n", b"avscan: 1 files scanned, 0 infected, 0 not scanned\n")
        got = run([program, "scan", "-r", "--summary", signatures, tree])
        cases.check("no link is followed", got == wanted, f"{got}")
        alias = os.path.join(work, "alias")
        os.symlink(tree, alias)
        got = run([program, "scan", "-r", signatures, alias, os.path.join(tree, "other")])
        lines = f"{alias}/in/deep/file clean\n{tree}/other infected 0 eicar.test end 64\n".encode()
        cases.check("a link that is named is followed", got == (0, lines, b""), f"{got}")
        pipe = os.path.join(tree, "pipe")
        got = run([program, "scan", "-k", signatures, pipe, os.path.join(tree, "in/deep/file")])
        cases.check("a FIFO that is named is told", got == (4, wanted[1], f"avscan: {pipe}: cannot read\n".encode()), f"{got}")
        got = run([program, "scan", signatures, tree])
        cases.check("a folder without -r", got == (4, b"", f"avscan: {tree}: cannot read\n".encode()), f"{got}")


def is_text(name):
    try:
        name.decode()
        return True
    except UnicodeDecodeError:
        return False


def forged(cases, program):
    """A name that would make lines of its own, or command a terminal, makes one line."""
    with tempfile.TemporaryDirectory() as work:
        signatures, tree = os.path.join(DATA, "set.avsig"), os.path.join(work, "tree")
        names = [b"x\n" + os.fsencode(work) + b"/other clean\ny", b"\x1b]0;owned\x07\x1b[2K\x1b[1A", "\u009b2K\u009dzz".encode(), b"a\x7fb", b'"in quotes"']
        for name in names:
            path = os.path.join(os.fsencode(tree), name)
            os.makedirs(os.path.dirname(path), exist_ok=True)
            write(path, EICAR)
        found = sorted(os.path.join(folder, name) for folder, _, files in os.walk(os.fsencode(tree)) for name in files)
        for words in (["-r"], ["-r", "-i"]):
            got = run([program, "scan", *words, signatures, tree])
            cases.check(f"scan {words} of names that forge", sorted(got[1].splitlines()) == sorted(quoted(name) + b" infected 0 eicar.test end 64" for name in found) and got[0] == 0, f"{got}")
        with guarded(program, work, signatures) as opens:
            got = run([program_beside(program, "avguard"), "ask", "-r", opens, tree])
            cases.check("ask -r of names that forge", sorted(got[1].splitlines()) == sorted(quoted(name) + b" denied cause 2" for name in found) and got[0] == 0, f"{got}")
            got = run([program_beside(program, "avguard"), "ask", "-r", "--print0", opens, tree])
            cases.check("ask -r --print0 of names that forge", sorted(got[1].split(b"\0")) == sorted([b"", *(name + b" denied cause 2" for name in found)]), f"{got}")
        alone = write(os.path.join(work, '"q'), EICAR)
        for words, line in ((["scan"], b'" infected 0 eicar.test end 64'), (["host"], b'" denied cause 2')):
            got = run([program, *words, signatures, '"q'], cwd=work)
            cases.check(f"{words[0]} of a quote", got == (0, b'"\\"q' + line + b"\n", b""), f"{got}")
            got = run([program, *words, "--print0", signatures, '"q'], cwd=work)
            cases.check(f"{words[0]} --print0 of a quote", got == (0, b'"q' + line[1:] + b"\0", b""), f"{got}")
        os.remove(alone)


def at_once(cases, program):
    """What is found is on a pipe as soon as it is written, so that it is not lost with a run that is killed at a later file."""
    with tempfile.TemporaryDirectory() as work:
        signatures, tree = os.path.join(DATA, "set.avsig"), os.path.join(work, "tree")
        os.mkdir(tree)
        for name, content in (("clean", b"abc"), ("found", EICAR), ("slow", b"abc")):
            write(os.path.join(tree, name), content)
        environment = dict(os.environ, LD_PRELOAD=built(work, "slow_open"), SLOW_NAME="/slow", SLOW_MS=str(1000 * SECONDS))
        for words, lines in ((["-r"], [b"clean clean", b"found infected 0 eicar.test end 64"]), (["-r", "-i"], [b"found infected 0 eicar.test end 64"])):
            process = subprocess.Popen([program, "scan", *words, signatures, tree], stdout=subprocess.PIPE, stderr=subprocess.PIPE, env=environment)
            wanted = b"".join(os.fsencode(tree) + b"/" + line + b"\n" for line in lines)
            got = b""
            while len(got) < len(wanted) and select.select([process.stdout], [], [], SECONDS / 2)[0]:
                piece = os.read(process.stdout.fileno(), 65536)
                if not piece:
                    break
                got += piece
            is_running = process.poll() is None
            process.kill()
            process.communicate()
            cases.check(f"scan {words}, killed at the next file", got == wanted and is_running, f"{got} {is_running}")


def swapped(cases, program):
    """Something else takes the place of a file between the look at it and its opening: no link is followed, and no other file is read."""
    with tempfile.TemporaryDirectory() as work:
        signatures, tree = os.path.join(DATA, "set.avsig"), os.path.join(work, "tree")
        os.mkdir(tree)
        secret, path, other = write(os.path.join(work, "secret"), EICAR), os.path.join(tree, "file"), os.path.join(work, "in_place")
        environment = dict(os.environ, LD_PRELOAD=built(work, "swap_open"), SWAP_NAME="/file", SWAP_WITH=other)
        opens = {"a link": lambda: os.symlink(secret, other), "a link to itself": lambda: os.symlink(path, other), "another file": lambda: write(other, EICAR), "a second name of another file": lambda: os.link(secret, other)}
        with guarded(program, work, signatures) as socket_of_opens:
            for what, make in opens.items():
                for words in ([program, "scan", "-r", signatures, tree], [program_beside(program, "avguard"), "ask", "-r", socket_of_opens, tree]):
                    if os.path.lexists(path):
                        os.remove(path)
                    write(path, b"abc")
                    make()
                    got, name = run(words, env=environment), os.path.basename(words[0])
                    cases.check(f"{name} {words[1]} -r, {what} in the place of a file", got == (4, b"", f"{name}: {path}: cannot read\n".encode()), f"{got}")
        os.remove(path)
        write(path, b"abc")
        os.symlink(secret, other)
        got = run([program, "scan", signatures, path], env=environment)
        cases.check("a file that is named may become a link", got == (0, os.fsencode(path) + b" infected 0 eicar.test end 64\n", b""), f"{got}")


@contextlib.contextmanager
def guarded(program, work, signatures):
    """The socket for opens of a guard whose service has come."""
    opens, service = os.path.join(work, "o"), os.path.join(work, "s")
    guard = subprocess.Popen([program_beside(program, "avguard"), "run", opens, service], stdin=subprocess.DEVNULL, stdout=subprocess.DEVNULL, stderr=subprocess.PIPE)
    scans = subprocess.Popen([program, "service", service, signatures], stdin=subprocess.DEVNULL, stdout=subprocess.DEVNULL, stderr=subprocess.DEVNULL)
    try:
        while b"connected" not in (line := guard.stderr.readline()):
            if not line:
                raise OSError("the guard ended")
        yield opens
    finally:
        for process in (guard, scans):
            process.kill()
            process.communicate()


def sets(cases, program):
    """Signature files that are checked, and one without signatures, under which every content would be clean."""
    with tempfile.TemporaryDirectory() as work:
        empty, letter = write(os.path.join(work, "empty"), b"avsig 1\nversion 7\n"), write(os.path.join(work, "letter"), b"abc")
        told = f"avscan: {empty}: version 7 has no signatures\n".encode()
        at = os.path.join(work, "socket")
        rows = [(["scan", empty, letter], (1, b"", told)), (["scan", "-k", "--found-status", empty, letter], (1, b"", told)), (["scan", "--allow-empty", empty, letter], (0, os.fsencode(letter) + b" clean\n", told)),
                (["host", empty, letter], (1, b"", told)), (["host", "--allow-empty", empty, letter], (0, os.fsencode(letter) + b" granted generation 2 version 7\n", told)),
                (["service", "--wait", "1", at, empty], (1, b"", told)), (["service", "--wait", "1", "--watch", "1", at, empty], (1, b"", told)),
                (["service", "--wait", "1", "--allow-empty", at, empty], (4, b"", told + f"avscan: {at}: no filter listens\n".encode()))]
        for words, wanted in rows:
            got = run([program, *words])
            cases.check(f"{words[0]} {words[1:-2]} under a set without signatures", got == wanted, f"{got}")
        filtering = subprocess.Popen([program, "filter", at, letter], stdout=subprocess.PIPE, stderr=subprocess.PIPE)
        got = run([program, "service", "--allow-empty", at, empty])
        cases.check("service --allow-empty", got == (0, b"closed\n", told), f"{got}")
        got = (*filtering.communicate(timeout=SECONDS), filtering.returncode)
        cases.check("a filter of a service under a set without signatures", got == (os.fsencode(letter) + b" granted generation 2 version 7\n", b"", 0), f"{got}")
        kinds = [(b"avsig 3\n", 1, "not `avsig 1` or `avsig 2`"), (b"avsig 1\nversion 0\n", 2, "not `version` and a number from 1 to 2^64 - 1"),
                 (b"avsig 1\nversion 1\n? 58\n", 3, "not a name of 1 to 32 letters, digits, `.`, `_` and `-`, and a space"), (b"avsig 1\nversion 1\nx 5\n", 3, "not pairs of hexadecimal digits"),
                 (b"avsig 1\nversion 1\nx \n", 3, "not 1 to 64 bytes"), (b"avsig 1\nversion 1\nx 58\nx 59\n", 4, "a name that an earlier line has"),
                 (b"avsig 1\nversion 1\n" + b"".join(b"s%d 58\n" % i for i in range(1025)), 1027, "more than 1,024 signatures, or than 16,384 bytes in all"),
                 (b"avsig 1\nversion 1\nx 58", 3, "the file ends before the end of this line"),
                 (b"avsig 2\nversion 1\nx 58 2 1\n", 3, "not two numbers, the second at least the first and at most 1,048,575")]
        for number, (content, line, reason) in enumerate(kinds, 1):
            bad = write(os.path.join(work, f"bad{number}"), content)
            got = run([program, "check", bad])
            cases.check(f"check of a set with a fault of kind {number}", got == (1, b"", f"avscan: {bad}:{line}: {reason}\n".encode()), f"{got}")
        good, large, gone = os.path.join(DATA, "set.avsig"), write(os.path.join(work, "large"), bytes(1048577)), os.path.join(work, "gone")
        bad = os.path.join(work, "bad4")
        with open(good, "rb") as file:
            lines = file.read().splitlines()
        line = f"{good}: version {lines[1].split()[1].decode()}, {len(lines) - 2} signatures\n".encode()
        unread = f"avscan: {gone}: No such file or directory (os error 2)\n".encode()
        rows = [([good], (0, line, b"")), ([good, good], (0, line + line, b"")), ([empty], (1, b"", told)), ([large], (1, b"", f"avscan: {large}: TooLarge\n".encode())), ([gone], (4, b"", unread)),
                ([work], (4, b"", f"avscan: {work}: is a folder\n".encode())), (["/dev/null"], (4, b"", b"avscan: /dev/null: is no regular file\n")),
                ([bad, good, gone], (4, line, f"avscan: {bad}:3: not pairs of hexadecimal digits\n".encode() + unread)), ([gone, bad], (4, b"", unread + f"avscan: {bad}:3: not pairs of hexadecimal digits\n".encode()))]
        for names, wanted in rows:
            got = run([program, "check", *names])
            cases.check(f"check of {len(names)} files", got == wanted, f"{got}")
        with open("/dev/full", "wb") as full:
            done = subprocess.run([program, "check", good], stdout=full, stderr=subprocess.PIPE, timeout=SECONDS)
        cases.check("check on a full device", (done.returncode, done.stderr) == (4, b"avscan: device\n"), f"{done}")
        opens, service = os.path.join(work, "o"), os.path.join(work, "s")
        for names, wanted in ((gone, (4, b"", f"avguard: {gone}: cannot read\n".encode())), (bad, (1, b"", b"avguard: set line 3: kind 4\n"))):
            got = run([program_beside(program, "avguard"), "run", opens, service, "--clamd", os.path.join(work, "c"), "--names", names])
            cases.check("a guard whose names are no set", got == wanted and not os.path.exists(opens), f"{got}")


def names(cases, program):
    """A name of each byte that a name may have: in their order, and those that are no text told."""
    with tempfile.TemporaryDirectory() as work:
        signatures = os.path.join(DATA, "set.avsig")
        root = os.fsencode(os.path.join(work, "tree"))
        os.mkdir(root)
        kinds = [bytes([byte]) for byte in range(1, 256) if byte not in b"/."] + ["\u00e9".encode(), "\u20ac".encode(), b"a b", b"a\nb", b".hidden", b"...", b"\xc3(", b"ab", b"a" * 255]
        for name in kinds:
            write(os.path.join(root, name), b"abc")
        lines, told = [], []
        for name in sorted(kinds):
            try:
                name.decode()
                lines.append(quoted(root + b"/" + name) + b" clean\n")
            except UnicodeDecodeError:
                shown = b"".join(bytes([b]) if 32 <= b < 127 else b"\\x%02x" % b for b in name)
                told.append(b"avscan: " + root + b"/" + shown + b": the name is not UTF-8\n")
        got = run([program, "scan", "-r", signatures, root])
        cases.check("names of every byte", got == (1, b"".join(lines), b"".join(told)), f"{got}")
        got = run([program, "scan", "-r", signatures, root + b"//"])
        cases.check("a folder that ends in slashes", got[0] == 1 and got[1] == b"".join(lines).replace(root + b"/", root + b"//"), f"{got}")
        raw = b"".join(root + b"/" + name + b" clean\0" for name in sorted(kinds) if is_text(name))
        got = run([program, "scan", "-r", "--print0", signatures, root])
        cases.check("names of every byte for a program", got == (1, raw, b"".join(told)), f"{got}")
        folders = os.path.join(work, "folders")
        for name in ("a", "a.b", "a-", "a0", "B", "\u00e9"):
            os.makedirs(os.path.join(folders, name))
            write(os.path.join(folders, name, "x"), b"abc")
        wanted = b"".join(f"{folders}/{name}/x clean\n".encode() for name in ("B", "a", "a-", "a.b", "a0", "\u00e9"))
        got = run([program, "scan", "-r", signatures, folders])
        cases.check("a folder stands where its name does", got == (0, wanted, b""), f"{got}")


def lists(cases, program):
    with tempfile.TemporaryDirectory() as work:
        signatures = os.path.join(DATA, "set.avsig")
        a, b, n = (write(os.path.join(work, name), b"abc") for name in ("a", "b", "n\nn"))
        path = os.path.join(work, "list")
        clean = lambda *names: b"".join(quoted(os.fsencode(name)) + b" clean\n" for name in names)
        lines, zeros = ["--files-from", path], ["-0", "--files-from", path]
        rows = [("lines", lines, f"{a}\n{b}\n", clean(a, b)), ("the last lacks its end", lines, f"{a}\n{b}", clean(a, b)), ("empty ones are none", lines, f"\n\n{a}\n\n{b}\n\n", clean(a, b)), ("zeros", zeros, f"{a}\0{n}\0\0{b}", clean(a, n, b)), ("zeros and their end", zeros, f"{n}\0", clean(n)), ("the same twice", lines, f"{a}\n{a}\n", clean(a, a))]
        for name, words, text, out in rows:
            write(path, text.encode())
            got = run([program, "scan", signatures, *words])
            cases.check(f"a list: {name}", got == (0, out, b""), f"{got}")
            got = run([program, "scan", signatures, *words[:-1], "-"], text.encode())
            cases.check(f"a list on standard input: {name}", got == (0, out, b""), f"{got}")
        for text in ("", "\n\n"):
            write(path, text.encode())
            for words in (lines, ["-k", *lines], ["-r", *lines], [*lines[:-1], "-"]):
                got = run([program, "scan", signatures, *words], text.encode())
                cases.check(f"scan {words[:-1]} of a list without a name", got == (1, b"", NOTHING), f"{got}")
        write(path, f"{b}\n".encode())
        got = run([program, "scan", *lines, signatures, n, a])
        cases.check("a list stands behind the names that were given", got == (0, clean(n, a, b), b""), f"{got}")
        got = run([program, "scan", "-r", *lines, signatures])
        cases.check("a list with -r", got == (0, clean(b), b""), f"{got}")
        write(path, f"{a}\n\ncaf".encode() + b"\xe9\n" + os.fsencode(b) + b"\n")
        told = f"avscan: {path}: name 2 is not UTF-8\n".encode()
        got = run([program, "scan", *lines, signatures, os.path.join(work, "missing")])
        cases.check("a name that is no text ends it", got == (1, b"", told), f"{got}")
        got = run([program, "scan", "-k", "--summary", *lines, signatures])
        cases.check("a name that is no text is passed over with -k", got == (1, clean(a, b), told + b"avscan: 2 files scanned, 0 infected, 1 not scanned\n"), f"{got}")
        got = run([program, "host", *lines, signatures])
        cases.check("a name that is no text ends a host", got == (1, b"", told), f"{got}")
        for missing in (os.path.join(work, "missing"), work):
            told = b"avscan: " + os.fsencode(missing) + b": cannot read\n"
            for words in (["scan", "-k", signatures], ["host", signatures], ["filter", path + ".s"]):
                got = run([program, *words, "--files-from", missing, os.path.join(work, "gone")])
                cases.check(f"{words[0]} with a list that can't be read", got == (4, b"", told), f"{got}")
        bad = write(os.path.join(work, "bad"), b"avsig 3\n")
        got = run([program, "scan", bad, "--files-from", os.path.join(work, "missing")])
        cases.check("a bad set before a missing list", got == (1, b"", b"avscan: set line 1: kind 1\n"), f"{got}")
        got = run([program, "scan", signatures])
        cases.check("neither a file nor a list", got[0] == 2, f"{got}")


def pieces(cases, program):
    """A signature over each cut between two pieces, in a file and in a pipe that gives what it has."""
    with tempfile.TemporaryDirectory() as work:
        signatures, path = os.path.join(DATA, "set.avsig"), os.path.join(work, "large")
        for cut in (PIECE, 2 * PIECE):
            for before in (*range(-64, 2, 6), -63, -1, 0, 1):
                write(path, b"a" * (cut + before) + EICAR + b"b" * 100000)
                got = run([program, "scan", "--max-size", "4000000", signatures, path])
                wanted = os.fsencode(path) + b" infected 0 eicar.test end %d\n" % (cut + before + 64)
                cases.check(f"a signature {before} bytes from the cut at {cut}", got == (0, wanted, b""), f"{got}")
        content = b"".join(b"a" * 65500 + EICAR[:63] for _ in range(30)) + EICAR
        got = run([program, "scan", "--max-size", "4000000", signatures, "/dev/stdin"], content)
        cases.check("a pipe in pieces", got == (0, b"/dev/stdin infected 0 eicar.test end %d\n" % len(content), b""), f"{got}")
        for size, most, fits in ((1, 1, True), (2, 1, False), (1048576, 1048576, True), (1048577, 1048576, False), (1048577, 1048577, True), (3000000, 2999999, False), (3000000, 3000000, True), (0, 1, True), (3000000, 2**63 - 1, True)):
            write(path, b"a" * size)
            got = run([program, "scan", "--max-size", str(most), signatures, path])
            wanted = (0, os.fsencode(path) + b" clean\n", b"") if fits else (1, b"", b"avscan: " + os.fsencode(path) + b": TooLarge\n")
            cases.check(f"{size} bytes of {most}", got == wanted, f"{got}")
        for most in ("0", "-1", "9223372036854775808", "1m", "M", "8589934592G", "1 M", ""):
            got = run([program, "scan", f"--max-size={most}", signatures, path])
            cases.check(f"--max-size={most}", got[:2] == (2, b""), f"{got}")
        for most, size in (("2K", 2048), ("1M", 1048576), ("2M", 2097152)):
            for more in (0, 1):
                write(path, b"a" * (size + more))
                status = run([program, "scan", "--max-size", most, signatures, path])[0]
                cases.check(f"{size + more} bytes of {most}", status == more, f"{status}")
        large = write(path, b"a" * 40000000)
        done = run(["sh", "-c", 'ulimit -v 65536; "$@"', "sh", program, "scan", "--max-size", "50000000", signatures, large])
        cases.check("40 MB in 64 MiB of memory", done == (0, os.fsencode(path) + b" clean\n", b""), f"{done}")


def changes(cases, program):
    """A folder that goes while the one before it is scanned, and a file that grows or shrinks while it is read."""
    with tempfile.TemporaryDirectory() as work:
        signatures = os.path.join(DATA, "set.avsig")
        tree = os.path.join(work, "tree")
        for name in ("a", "b/c"):
            os.makedirs(os.path.join(tree, name))
        for name in ("a/slow", "b/c/file", "c", "d"):
            write(os.path.join(tree, name), b"abc")
        environment = dict(os.environ, LD_PRELOAD=built(work, "slow_open"), SLOW_NAME="/slow", SLOW_MS="700")
        process = subprocess.Popen([program, "scan", "-j", "1", "-r", "--summary", signatures, tree], stdout=subprocess.PIPE, stderr=subprocess.PIPE, env=environment)
        time.sleep(0.3)
        shutil.rmtree(os.path.join(tree, "b"))
        os.remove(os.path.join(tree, "c"))
        out, err = process.communicate(timeout=SECONDS)
        told = f"avscan: {tree}/b: cannot read\navscan: {tree}/c: cannot read\navscan: 2 files scanned, 0 infected, 2 not scanned\n".encode()
        wanted = (4, f"{tree}/a/slow clean\n{tree}/d clean\n".encode(), told)
        cases.check("what goes while the tree is walked", (process.returncode, out, err) == wanted, f"{process.returncode} {out} {err}")
        path = write(os.path.join(work, "changing"), b"a" * 3000000)
        over = threading.Event()

        def change():
            while not over.is_set():
                with open(path, "ab") as file:
                    for _ in range(20):
                        file.write(b"a" * 100000)
                os.truncate(path, 100)

        writer = threading.Thread(target=change)
        writer.start()
        lines = (os.fsencode(path) + b" clean\n", b"avscan: " + os.fsencode(path) + b": TooLarge\n")
        for _ in range(30):
            status, out, err = run([program, "scan", "--max-size", "1500000", signatures, path])
            fine = (status, out, err) in ((0, lines[0], b""), (1, b"", lines[1]))
            cases.check("a file that grows and shrinks while it is read", fine, f"{status} {out} {err}")
        over.set()
        writer.join()


def closed(cases, program):
    """What a user may not read is told, and the rest is scanned."""
    with tempfile.TemporaryDirectory() as work:
        os.chmod(work, 0o755)
        tree = os.path.join(work, "tree")
        for name in ("locked", "z"):
            os.makedirs(os.path.join(tree, name))
        for name in ("locked/f", "secret", "z/f"):
            write(os.path.join(tree, name), b"abc")
        for name in ("locked", "secret"):
            os.chmod(os.path.join(tree, name), 0)
        words = [shutil.copy(program, work), "scan", "-r", "--summary", shutil.copy(os.path.join(DATA, "set.avsig"), work), tree]
        nobody = ["setpriv", "--reuid=65534", "--regid=65534", "--clear-groups"] if os.geteuid() == 0 else []
        got = run([*nobody, *words])
        os.chmod(os.path.join(tree, "locked"), 0o755)
        told = f"avscan: {tree}/locked: cannot read\navscan: {tree}/secret: cannot read\navscan: 1 files scanned, 0 infected, 2 not scanned\n".encode()
        cases.check("what a user may not read", got == (4, f"{tree}/z/f clean\n".encode(), told), f"{got}")


def is_without_memory(done, whole):
    """Memory was refused: the run ended with what was told by then, or one file has no verdict and everything else is as it was."""
    status, out, err = done
    if err == b"avscan: no memory\n":
        return status == 3 and whole[1].startswith(out)
    missed = re.fullmatch(rb"avscan: (.*): no memory\n", err)
    return status == 3 and missed is not None and out == b"".join(line for line in whole[1].splitlines(True) if not line.startswith(missed[1] + b" "))


def many(cases, program):
    """100,000 files in 1,001 folders, and folders 400 deep: in order, in 32 MiB of memory."""
    with tempfile.TemporaryDirectory() as work:
        signatures, tree = os.path.join(DATA, "set.avsig"), os.path.join(work, "tree")
        for folder in range(1000):
            os.makedirs(os.path.join(tree, "%03d" % folder))
            for file in range(100):
                os.close(os.open(os.path.join(tree, "%03d" % folder, "%02d" % file), os.O_CREAT | os.O_WRONLY))
        words = [program, "scan", "-r", "--summary", signatures, tree]
        status, out, err = run(["sh", "-c", 'ulimit -v 32768; "$@"', "sh", *words])
        wanted = b"".join(f"{tree}/{folder:03}/{file:02} clean\n".encode() for folder in range(1000) for file in range(100))
        fine = (status, out, err) == (0, wanted, b"avscan: 100000 files scanned, 0 infected, 0 not scanned\n")
        cases.check("100,000 files", fine, f"{status} {len(out)} {err}")
        deep = os.path.join(work, "deep")
        place = deep
        for _ in range(400):
            os.mkdir(place)
            place = os.path.join(place, "d")
        write(os.path.join(os.path.dirname(place), "file"), EICAR)
        got = run([program, "scan", "-r", "-i", signatures, deep])
        cases.check("400 folders deep", got == (0, deep.encode() + b"/d" * 399 + b"/file infected 0 eicar.test end 64\n", b""), f"{got[0]} {got[2]}")


def statuses(cases, program):
    with tempfile.TemporaryDirectory() as work:
        signatures = os.path.join(DATA, "set.avsig")
        clean, infected, missing = write(os.path.join(work, "clean"), b"abc"), write(os.path.join(work, "infected"), EICAR), os.path.join(work, "missing")
        large = write(os.path.join(work, "large"), bytes(1048577))
        unread, too_large = f"avscan: {missing}: cannot read\n".encode(), f"avscan: {large}: TooLarge\n".encode()
        summary = lambda *counts: b"avscan: %d files scanned, %d infected, %d not scanned\n" % counts
        yes, no = f"{infected} infected 0 eicar.test end 64\n".encode(), f"{clean} clean\n".encode()
        scan = [program, "scan", signatures]
        rows = [(["--found-status", clean], (0, no, b"")), (["--found-status", clean, infected], (5, no + yes, b"")), ([clean, infected], (0, no + yes, b"")), (["-i", clean], (0, b"", b"")), (["-i", clean, infected, clean], (0, yes, b"")),
                (["-i", "--found-status", "--summary", clean, infected], (5, yes, summary(2, 1, 0))), (["--found-status", infected, missing], (4, b"", unread)), (["--summary", infected, missing], (4, b"", unread)),
                (["-k", "--found-status", "--summary", infected, missing, clean], (6, yes + no, unread + summary(2, 1, 1))), (["-k", "--found-status", infected, large], (6, yes, too_large)), (["-k", "--found-status", clean, missing], (4, no, unread)),
                (["-k", "--found-status", clean, large], (1, no, too_large)), (["-k", infected, large], (1, yes, too_large)), (["-k", "--found-status", large, missing], (4, b"", too_large + unread)),
                (["-k", "--summary", missing, large, infected], (4, yes, unread + too_large + summary(1, 1, 2))), (["-k", "--summary", large, missing], (4, b"", too_large + unread + summary(0, 0, 2))), (["--summary", clean, clean], (0, no + no, summary(2, 0, 0)))]
        for words, wanted in rows:
            got = run([*scan, *words])
            cases.check(f"scan {words}", got == wanted, f"{got}")
        granted, denied = f"{clean} granted generation 2 version 1\n".encode(), f"{infected} denied cause 2\n".encode()
        rows = [([clean, infected], (0, granted + denied, b"")), (["-i", clean, infected], (0, denied, b"")), (["-i", clean], (0, b"", b"")), (["--found-status", clean, infected], (5, granted + denied, b"")), (["--found-status", clean], (0, granted, b"")),
                (["-i", "--found-status", "--summary", clean, infected], (5, denied, summary(2, 1, 0))), (["--summary", clean, missing], (4, b"", unread)), (["--found-status", "--summary", clean], (0, granted, summary(1, 0, 0)))]
        path = os.path.join(work, "socket")
        for words, wanted in rows:
            got = run([program, "host", signatures, *words])
            cases.check(f"host {words}", got == wanted, f"{got}")
            service = subprocess.Popen([program, "service", "--wait", "2", path, signatures], stdout=subprocess.PIPE, stderr=subprocess.PIPE)
            got = run([program, "filter", path, *words])
            service.communicate(timeout=SECONDS)
            cases.check(f"filter {words}", got == wanted, f"{got}")
        got = run([program, "filter", "--wait", "1", "-i", "--found-status", "--summary", path, clean, infected])
        told = f"avscan: {path}: no service came\n".encode()
        wanted = (4, f"{clean} denied cause 3\n{infected} denied cause 3\n".encode(), told + summary(0, 0, 2))
        cases.check("a filter that no service came to", got == wanted, f"{got}")
        listed = write(os.path.join(work, "list"), f"{infected}\n".encode())
        got = run([program, "host", "--files-from", listed, signatures, clean])
        cases.check("host with a list", got == (0, granted + denied, b""), f"{got}")
        got = run([program, "host", "--files-from", "/dev/null", "--summary", signatures])
        no_name = b"avscan: no file was opened\n"
        cases.check("host of no file", got == (1, b"", no_name), f"{got}")
        got = run([program, "filter", "--files-from", "/dev/null", "--summary", os.path.join(work, "none")])
        cases.check("filter of no file", got == (1, b"", no_name), f"{got}")


def devices(cases, program):
    with tempfile.TemporaryDirectory() as work:
        signatures, tree = os.path.join(DATA, "set.avsig"), os.path.join(work, "tree")
        os.mkdir(tree)
        for number in range(500):
            write(os.path.join(tree, str(number)), b"abc")
        for words in (["-r", tree], ["-r", "--summary", "--found-status", tree]):
            with open("/dev/full", "wb") as full:
                done = subprocess.run([program, "scan", *words[:-1], signatures, tree], stdout=full, stderr=subprocess.PIPE, timeout=SECONDS)
            cases.check(f"{words} on a full device", (done.returncode, done.stderr) == (4, b"avscan: device\n"), f"{done}")
        done = run(["sh", "-c", '"$@" >&-', "sh", program, "scan", "-r", signatures, tree])
        cases.check("-r on a closed output", done == (4, b"", b"avscan: device\n"), f"{done}")
        library = built(work, "fail_nth")
        shutil.rmtree(tree)
        os.makedirs(os.path.join(tree, "in"))
        for name in ("a", "in/b", "in/c"):
            write(os.path.join(tree, name), b"abc")
        names = write(os.path.join(work, "list"), os.fsencode(tree) + b"\n")
        words = [program, "scan", "-r", signatures, "--files-from", names]
        whole, refused, in_a_row, number = run(words), 0, 0, 0
        while in_a_row < 20:
            number += 1
            done = run(words, env=dict(os.environ, LD_PRELOAD=library, FAIL_NTH=str(number)))
            told = is_without_memory(done, whole)
            in_a_row = in_a_row + 1 if done == whole else 0
            refused += told
            if not told and done != whole:
                cases.check("-r without memory", False, f"request {number} refused: {done}")
                break
        cases.check("-r without memory", refused > 0, "no request was refused")


def jobs(cases, program):
    """However many threads scan, the lines, the faults and the status are those of one: over thousands of files that are clean, infected,
    empty, large, gone or unreadable, on a full device, with little memory, and where a FIFO stands."""
    with tempfile.TemporaryDirectory() as work:
        os.chmod(work, 0o755)
        chance = random.Random(11)
        signatures, tree, names = shutil.copy(os.path.join(DATA, "set.avsig"), work), os.path.join(work, "tree"), []
        for number in range(4000):
            folder = os.path.join(tree, "%02d" % (number % 37), "x" * (number % 3))
            os.makedirs(folder, exist_ok=True)
            content = chance.choice([b"", b"abc", chance.randbytes(chance.randrange(9000)), EICAR, bytes(chance.randrange(200000)) + EICAR])
            names.append(write(os.path.join(folder, "%d" % number), content))
        for number in (5, 1500, 3999):
            write(names[number], bytes(1500000) + EICAR)
        os.mkfifo(os.path.join(tree, "00", "pipe"))
        for number in range(0, 4000, 411):
            os.chmod(names[number], 0)
        os.mkdir(os.path.join(tree, "00", "locked"), 0)
        gone = os.path.join(work, "gone")
        some = write(os.path.join(work, "some"), b"".join(os.fsencode(name) + b"\n" for name in chance.sample(names, 1500) + [gone, os.path.join(tree, "00", "pipe"), tree]))
        fine = write(os.path.join(work, "fine"), b"".join(os.fsencode(name) + b"\0" for number, name in enumerate(names) if number % 411 and number not in (5, 1500, 3999)))
        own = shutil.copy(program, work)
        nobody = ["setpriv", "--reuid=65534", "--regid=65534", "--clear-groups"] if os.geteuid() == 0 else []
        commands = [["-r", tree], ["-r", "-i", "--summary", "--found-status", tree], ["-r", "--json", "--max-size", "2000000", tree], ["-r", "--print0", tree, tree], ["-r", "-i", "--print0", tree], ["-r", "--json", "--summary", tree], ["-r", "--summary", "--one-file-system", "--exclude", "*7", "--exclude", "**/0[1-5]/**", tree],
                    ["-k", "--summary", "--files-from", some], ["--files-from", some], ["--summary", "--found-status", "-0", "--files-from", fine], [names[1], gone, names[2]], [names[1]]]
        for words in commands:
            wanted = run([*nobody, own, "scan", "-j", "1", signatures, *words])
            cases.check(f"scan -j 1 {words[:-1]}", wanted[1] != b"" or b"cannot read" in wanted[2], f"{wanted[0]} {len(wanted[1])} {wanted[2][:300]}")
            for threads in ([], ["-j", "2"], ["-j", "4"], ["--jobs", "16"], ["-j64"]):
                got = run([*nobody, own, "scan", *threads, signatures, *words])
                cases.check(f"scan {threads} {words[:-1]}", got == wanted, f"{got[0]} {len(got[1])} {got[2][:300]}, wanted {wanted[0]} {len(wanted[1])} {wanted[2][:300]}")
        wanted = run([own, "scan", "-j", "1", "-r", signatures, tree])
        for memory in (20000, 24000, 32768, 65536):
            got = run(["sh", "-c", f'ulimit -v {memory}; "$@"', "sh", own, "scan", "-j", "16", "-r", signatures, tree])
            cases.check(f"scan -j 16 in {memory} KiB", got == wanted, f"{got[0]} {len(got[1])} {got[2][:300]}")
        for threads in ("1", "4", "16"):
            with open("/dev/full", "wb") as full:
                done = subprocess.run([own, "scan", "-i", "-r", "-j", threads, signatures, tree], stdout=full, stderr=subprocess.PIPE, timeout=SECONDS)
            cases.check(f"scan -j {threads} on a full device", done.returncode == 4 and done.stderr.endswith(b"avscan: device\n"), f"{done}")
            done = run(["sh", "-c", '"$@" | head -1', "sh", own, "scan", "-r", "-j", threads, signatures, tree])
            cases.check(f"scan -j {threads} that nobody reads", done[1] == wanted[1][: len(done[1])] and done[1].count(b"\n") == 1, f"{done}")
        shutil.rmtree(os.path.join(tree, "00"))
        library, whole, in_a_row, number = built(work, "fail_nth"), run([own, "scan", "-j", "3", "-r", signatures, os.path.join(tree, "36")]), 0, 0
        while in_a_row < 20 and number < 400:
            number += 1
            done = run([own, "scan", "-j", "3", "-r", signatures, os.path.join(tree, "36")], env=dict(os.environ, LD_PRELOAD=library, FAIL_NTH=str(number)))
            told = is_without_memory(done, whole)
            in_a_row = in_a_row + 1 if done == whole else 0
            if not told and done != whole:
                cases.check("scan -j 3 without memory", False, f"request {number} refused: {done[0]} {len(done[1])} {done[2]}")
                break
        cases.check("scan -j 3 without memory", number > 20, f"{number}")
        for given in ("0", "65", "x", ""):
            got = run([own, "scan", "-j", given, signatures, tree])
            cases.check(f"scan -j {given!r}", got[:2] == (2, b""), f"{got[0]} {got[2]}")


class LargeFile:
    """A file of zeros, in which contents are put and taken away again."""

    def __init__(self, folder, size=LARGE):
        self.path, self.size = write(os.path.join(folder, "large"), b""), size
        os.truncate(self.path, size)

    def put(self, content, end):
        with open(self.path, "r+b") as file:
            file.seek(end - len(content))
            file.write(content)

    def take(self, content, end):
        self.put(bytes(len(content)), end)


def stretches(cases, program):
    """A large file is read by several threads, each a stretch of it: whatever lies across a cut, the line is that of one thread."""
    chance = random.Random(17)
    with tempfile.TemporaryDirectory() as work:
        patterns = [chance.randbytes(length).replace(b"\0", b"z") for length in (64, 63, 2, 1)]
        rows = "".join(f"s{number} {pattern.hex()}\n" for number, pattern in enumerate(patterns))
        each = [write(os.path.join(work, f"{number}.avsig"), f"avsig 1\nversion 1\ns {pattern.hex()}\n".encode()) for number, pattern in enumerate(patterns)]
        all_of_them = write(os.path.join(work, "all.avsig"), f"avsig 1\nversion 1\n{rows}".encode())
        bound = write(os.path.join(work, "bound.avsig"), f"avsig 2\nversion 1\n{rows}t 01 3 9\n".encode())
        for size in (LARGE, LARGE + 12345):
            large = LargeFile(work, size)
            name = os.fsencode(large.path)
            words = [program, "scan", "--max-size", str(size)]
            for threads in (2, 3, 4, 16):
                for number in sorted({1, threads // 2, threads - 1}):
                    cut = size // threads * number
                    for pattern, signatures in zip(patterns, each):
                        for end in sorted({cut, cut + 1, cut + len(pattern) // 2, cut + len(pattern) - 1, cut + len(pattern)}):
                            large.put(pattern, end)
                            got = run([*words, "-j", str(threads), signatures, large.path])
                            cases.check(f"{len(pattern)} bytes up to {end - cut} behind cut {number} of {threads}", got == (0, b"%s infected 0 s end %d\n" % (name, end), b""), f"{got}")
                            large.take(pattern, end)
            for _ in range(30):
                hits = sorted((size // 4 * chance.randrange(1, 4) + chance.randrange(-80, 80), chance.randrange(4)) for _ in range(chance.randrange(4)))
                for end, number in hits:
                    large.put(patterns[number], end)
                for signatures in (["all.avsig"], ["0.avsig", "--set", "2.avsig", "--set", "1.avsig"], ["bound.avsig"], ["0.avsig", "--set", "bound.avsig"]):
                    wanted = run([*words, "-j", "1", *signatures, large.path], cwd=work)
                    for threads in ("2", "4"):
                        got = run([*words, "-j", threads, *signatures, large.path], cwd=work)
                        cases.check(f"{hits} under {signatures}, -j {threads}", got == wanted and got[0] == 0, f"{got}, wanted {wanted}")
                for end, number in hits:
                    large.take(patterns[number], end)
            got = run([*words[:-1], str(size - 1), "-j", "4", all_of_them, large.path])
            cases.check(f"{size} bytes of {size - 1}, -j 4", got == (1, b"", b"avscan: " + name + b": TooLarge\n"), f"{got}")
        whole = b"%s infected 0 s end %d\n" % (name, large.size)
        large.put(patterns[0], large.size)
        several = [large.path] * 12
        got = run([*words, "-j", "4", each[0], *several])
        cases.check("twelve large files at once", got == (0, whole * 12, b""), f"{got}")
        got = run(["sh", "-c", 'ulimit -v 40000; "$@"', "sh", *words, "-j", "16", each[0], *several])
        cases.check("twelve large files in 40 MB", got == (0, whole * 12, b""), f"{got}")
        library, number, in_a_row = built(work, "fail_nth"), 0, 0
        wanted = run([*words, "-j", "3", each[0], large.path])
        while in_a_row < 20 and number < 400:
            number += 1
            done = run([*words, "-j", "3", each[0], large.path], env=dict(os.environ, LD_PRELOAD=library, FAIL_NTH=str(number)))
            in_a_row = in_a_row + 1 if done == wanted else 0
            if done != wanted and not is_without_memory(done, wanted):
                cases.check("a large file without memory", False, f"request {number} refused: {done}")
                break
        cases.check("a large file without memory", number > 20, f"{number}")


def growth(cases, program):
    """A large file that grows or shrinks while several threads read it: what is found is that of all that it has then, as one thread reads it."""
    with tempfile.TemporaryDirectory() as work:
        signatures, large = write(os.path.join(work, "a.avsig"), b"avsig 1\nversion 1\na 5a5a\n"), LargeFile(work)
        name, library = os.fsencode(large.path), built(work, "at_pread")

        def scanned(most, **environment):
            return run([program, "scan", "-j", "4", "--max-size", str(most), signatures, large.path], env=dict(os.environ, LD_PRELOAD=library, **environment))

        infected = b"%s infected 0 a end %d\n"
        got = scanned(LARGE + 100, APPEND_TO=large.path, APPEND="abcZZ")
        cases.check("a large file that grows by a signature", got == (0, infected % (name, LARGE + 5), b""), f"{got}")
        got = scanned(LARGE + 6, APPEND_TO=large.path, APPEND="abc")
        cases.check("a large file that grows above the limit", got == (1, b"", b"avscan: " + name + b": TooLarge\n"), f"{got}")
        os.truncate(large.path, LARGE)
        for end in (LARGE - 10, LARGE // 4 + 1):
            large.put(b"ZZ", end)
        got = scanned(LARGE, CUT=large.path, CUT_TO=str(LARGE - 20))
        cases.check("a large file that shrinks, with a signature that stays", got == (0, infected % (name, LARGE // 4 + 1), b""), f"{got}")
        os.truncate(large.path, 0)
        os.truncate(large.path, LARGE)
        large.put(b"ZZ", LARGE - 10)
        got = scanned(LARGE, CUT=large.path, CUT_TO=str(LARGE - 20))
        cases.check("a large file that shrinks by its signature", got == (0, name + b" clean\n", b""), f"{got}")


def in_turn(cases, program):
    """One large file at a time is read by several threads: there are never more than twice as many as were asked for, and the one that ends waits."""
    with tempfile.TemporaryDirectory() as work:
        signatures, large = write(os.path.join(work, "a.avsig"), b"avsig 1\nversion 1\na 5a5a\n"), LargeFile(work)
        environment, most = dict(os.environ, LD_PRELOAD=built(work, "at_pread"), SLOW_MS="3"), 0
        process = subprocess.Popen([program, "scan", "-j", "8", "--max-size", "64M", signatures, *[large.path] * 16], stdout=subprocess.PIPE, stderr=subprocess.PIPE, env=environment)
        while process.poll() is None:
            with contextlib.suppress(OSError, StopIteration), open(f"/proc/{process.pid}/status") as status:
                most = max(most, int(next(line for line in status if line.startswith("Threads:")).split()[1]))
            time.sleep(0.005)
        out, err = process.communicate()
        cases.check("sixteen large files", (process.returncode, out, err) == (0, (os.fsencode(large.path) + b" clean\n") * 16, b""), f"{process.returncode} {out[:200]} {err[:200]}")
        cases.check("their threads", 9 < most <= 17, f"{most}")


def taken(cases, program):
    """Files go while several threads scan: each line and each fault is of one file, in the order of the walk."""
    with tempfile.TemporaryDirectory() as work:
        signatures, tree = os.path.join(DATA, "set.avsig"), os.path.join(work, "tree")
        os.mkdir(tree)
        names = [write(os.path.join(tree, "%05d" % number), b"abc") for number in range(3000)]
        remover = threading.Thread(target=lambda: [os.remove(name) for name in names[::7]])
        remover.start()
        status, out, err = run([program, "scan", "-r", "-j", "4", signatures, tree])
        remover.join()
        lines, faults = out.decode().splitlines(), err.decode().splitlines()
        scanned, missed = [line[: -len(" clean")] for line in lines], [line[len("avscan: ") : -len(": cannot read")] for line in faults]
        fine = scanned == sorted(scanned) and missed == sorted(missed) and not set(scanned) & set(missed) and set(names) - set(scanned) <= set(names[::7]) and set(missed) <= set(names[::7])
        cases.check("files that go while they are scanned", fine and status == (4 if faults else 0), f"{status} {len(lines)} {faults[:3]}")


def standard_input(cases, program):
    """The file `-` is standard input, one content under that name."""
    signatures = os.path.join(DATA, "set.avsig")
    with tempfile.TemporaryDirectory() as work:
        path = write(os.path.join(work, "file"), EICAR)
        for content, line in ((b"", b"- clean\n"), (b"abc", b"- clean\n"), (b"a" * 700000 + EICAR, b"- infected 0 eicar.test end 700064\n")):
            for threads in ("1", "4"):
                got = run([program, "scan", "-j", threads, signatures, "-"], content)
                cases.check(f"scan - of {len(content)} bytes, -j {threads}", got == (0, line, b""), f"{got}")
        with open(path, "rb") as given:
            done = subprocess.run([program, "scan", signatures, "-"], stdin=given, stdout=subprocess.PIPE, stderr=subprocess.PIPE, timeout=SECONDS)
        cases.check("scan - of a file", (done.returncode, done.stdout, done.stderr) == (0, b"- infected 0 eicar.test end 64\n", b""), f"{done}")
        got = run([program, "scan", signatures, "-"], bytes(1048577))
        cases.check("scan - that is too large", got == (1, b"", b"avscan: -: TooLarge\n"), f"{got}")
        at_end = b"- infected 0 eicar.test end 3000064\n/dev/stdin clean\n- clean\n/dev/fd/0 clean\n"
        for words in ([], ["-k"], ["-r"]):
            for threads in ("1", "4", "16", "16", "16"):
                row = [*words, "-j", threads, "--max-size", "1G", signatures, "-", "/dev/stdin", "-", "/dev/fd/0"]
                got = run([program, "scan", *row], b"a" * 3000000 + EICAR)
                cases.check(f"one pipe under several names, {words} -j {threads}", got == (0, at_end, b""), f"{got}")
        write(os.path.join(work, "-"), b"abc")
        got = run([program, "scan", signatures, "./-", "-"], EICAR, cwd=work)
        cases.check("a file of that name", got == (0, b"./- clean\n- infected 0 eicar.test end 64\n", b""), f"{got}")


def taken_by(glob):
    """A glob as a regular expression over bytes, by the rules of docs/FORMATS.md."""
    spelt, at = b"", 0
    while at < len(glob):
        one = glob[at : at + 1]
        at += 1
        if one == b"*" and glob[at : at + 1] == b"*":
            spelt, at = spelt + b"[\\x00-\\xff]*", at + 1
        elif one in (b"*", b"?"):
            spelt += b"[^/]*" if one == b"*" else b"[^/]"
        elif one == b"[":
            negated = glob[at : at + 1] == b"!"
            at += negated
            end = glob.index(b"]", at + 1)
            text, members, place = glob[at:end], set(), 0
            while place < len(text):
                if text[place + 1 : place + 2] == b"-" and place + 2 < len(text):
                    members |= set(range(text[place], text[place + 2] + 1))
                    place += 3
                else:
                    members.add(text[place])
                    place += 1
            taken = (set(range(256)) - members if negated else members) - {47}
            spelt += b"[" + b"".join(b"\\x%02x" % byte for byte in sorted(taken)) + b"]" if taken else b"(?!)"
            at = end + 1
        else:
            at += one == b"\\"
            spelt += re.escape(glob[at - 1 : at])
    return re.compile(spelt)


def is_out(globs, path):
    return any(taken_by(glob).fullmatch(path if b"/" in glob else path.rsplit(b"/", 1)[-1]) for glob in globs)


# What a glob matches of these paths below `t`, by hand.
PATHS = [b"t/a", b"t/a.o", b"t/ab", b"t/b-", b"t/b/a", b"t/b/c/a.o", b"t/b/c/d", b"t/star*", b"t/[x]", b"t/x]", b"t/\xc3\xa9", b"t/back\\slash", b"t/.hidden"]
GLOBS = [(b"a", [b"t/a", b"t/b/a"]), (b"*.o", [b"t/a.o", b"t/b/c/a.o"]), (b"a?", [b"t/ab"]), (b"??", [b"t/ab", b"t/b-", b"t/x]", b"t/\xc3\xa9"]), (b"t/a", [b"t/a"]), (b"t/*", PATHS), (b"t/?", [b"t/a", b"t/b/a", b"t/b/c/a.o", b"t/b/c/d"]),
         (b"t/**/a", [b"t/b/a"]), (b"**/a", [b"t/a", b"t/b/a"]), (b"t/**.o", [b"t/a.o", b"t/b/c/a.o"]), (b"b", [b"t/b/a", b"t/b/c/a.o", b"t/b/c/d"]), (b"t/b/*", [b"t/b/a", b"t/b/c/a.o", b"t/b/c/d"]), (b"t/b/c/*", [b"t/b/c/a.o", b"t/b/c/d"]),
         (b"star\\*", [b"t/star*"]), (b"[[]x]", [b"t/[x]"]), (b"\\[x]", [b"t/[x]"]), (b"x[]]", [b"t/x]"]), (b"[]x]?", [b"t/x]"]), (b"b[-]", [b"t/b-"]), (b"[!a-z]*", [b"t/[x]", b"t/\xc3\xa9", b"t/.hidden"]), (b"[a-a]", [b"t/a", b"t/b/a"]),
         (b"[z-a]", []), (b"[!/]", []), (b"t/[!/]", [b"t/a", b"t/b/a", b"t/b/c/a.o", b"t/b/c/d"]), (b"*\\\\*", [b"t/back\\slash"]), (b"\xc3\xa9", [b"t/\xc3\xa9"]), (b".*", [b"t/.hidden"]), (b"t", []), (b"T/a", []), (b"*", PATHS), (b"**", PATHS), (b"***", PATHS),
         (b"a*b*", [b"t/ab"]), (b"*a*.*o", [b"t/a.o", b"t/b/c/a.o"]), (b"[a-c-]*", [b"t/a", b"t/a.o", b"t/ab", b"t/b-", b"t/b/a", b"t/b/c/a.o", b"t/b/c/d", b"t/back\\slash"]), (b"[!!]x]", [b"t/[x]"])]


def excluded(cases, program):
    """What globs leave out below a folder: by a table, by regular expressions over random names, and in no long time."""
    with tempfile.TemporaryDirectory() as work:
        signatures = shutil.copy(os.path.join(DATA, "set.avsig"), work)
        for path in PATHS:
            os.makedirs(os.path.join(os.fsencode(work), os.path.dirname(path)), exist_ok=True)
            write(os.path.join(os.fsencode(work), path), b"abc")
        clean = lambda paths: b"".join(quoted(path) + b" clean\n" for path in paths)
        order = [b"t/.hidden", b"t/[x]", b"t/a", b"t/a.o", b"t/ab", b"t/b/a", b"t/b/c/a.o", b"t/b/c/d", b"t/b-", b"t/back\\slash", b"t/star*", b"t/x]", b"t/\xc3\xa9"]
        cases.check("the rows have all paths", sorted(order) == sorted(PATHS))
        for glob, out in GLOBS:
            wanted = clean(path for path in order if path not in out)
            got = run([program, "scan", "-r", "--exclude", glob, signatures, "t"], cwd=work)
            cases.check(f"--exclude {glob}", got == ((0, wanted, b"") if wanted else (1, b"", NOTHING)), f"{got}")
            parents = lambda path: [b"/".join(path.split(b"/")[:count]) for count in range(2, path.count(b"/") + 2)]
            cases.check(f"--exclude {glob} as a regular expression", out == [path for path in PATHS if any(is_out([glob], part) for part in parents(path))], glob)
        left = lambda *counts: b"avscan: %d files scanned, %d infected, %d not scanned, %d left out\n" % counts
        rows = [(["--exclude", "b", "--exclude", "*.o"], (0, clean(path for path in order if path[:4] != b"t/b/" and path != b"t/a.o"), left(9, 0, 0, 2))), (["--exclude", "t/b/c"], (0, clean(path for path in order if path[:6] != b"t/b/c/"), left(11, 0, 0, 1))),
                (["--exclude", "nothing"], (0, clean(order), left(13, 0, 0, 0))), (["--exclude", "*"], (1, b"", left(0, 0, 0, 11) + NOTHING)), (["--exclude", "**", "--found-status"], (1, b"", left(0, 0, 0, 11) + NOTHING))]
        for words, wanted in rows:
            for threads in ("1", "4"):
                got = run([program, "scan", "-r", "-j", threads, "--summary", *words, signatures, "t"], cwd=work)
                cases.check(f"{words} -j {threads}", got == wanted, f"{got}")
        listed = write(os.path.join(work, "list"), b"t/a\nt/b/c\n")
        got = run([program, "scan", "-r", "--summary", "--exclude", "**", "--files-from", listed, signatures, "t/ab", "t/b"], cwd=work)
        cases.check("what is named is scanned", got == (0, clean([b"t/ab", b"t/a"]), left(2, 0, 0, 4)), f"{got}")
        got = run([program, "scan", "-r", "--exclude", "a", signatures, "t/a", "t/b/"], cwd=work)
        cases.check("what is named is scanned, and a folder under its name", got == (0, clean([b"t/a", b"t/b/c/a.o", b"t/b/c/d"]), b""), f"{got}")
        got = run([program, "scan", "-k", "--summary", "--exclude", "*", signatures, "t/a", "t/b"], cwd=work)
        cases.check("--exclude without -r", got == (4, clean([b"t/a"]), b"avscan: t/b: cannot read\navscan: 1 files scanned, 0 infected, 1 not scanned\n"), f"{got}")
        for glob, why in (("", "is empty"), ("a/", "ends with a slash, which no path does"), ("/", "ends with a slash, which no path does"), ("a\\", "ends with a backslash"), ("[", "has a [ without its ]"), ("[]", "has a [ without its ]"), ("[!]", "has a [ without its ]"), ("a[b/c", "has a [ without its ]"), ("\x1b[", "has a [ without its ]")):
            shown = glob.replace("\x1b", "\\x1b").encode()
            for words in (["-r", "--exclude", glob, signatures, "t"], ["--exclude", "a", "--exclude", glob, os.path.join(work, "no set"), "t"]):
                got = run([program, "scan", *words], cwd=work)
                cases.check(f"--exclude {glob!r}", got == (2, b"", b"avscan: " + shown + b": no glob: it " + why.encode() + b"\n"), f"{got}")
        got = run([program, "scan", "--exclude=", "-r", signatures, "t"], cwd=work)
        cases.check("--exclude of nothing", got == (2, b"", b"avscan: : no glob: it is empty\n"), f"{got}")
        os.mkdir(os.path.join(work, "empty"))
        for words in (["-r"], ["-r", "-i", "--found-status"], ["-r", "--exclude", "x"]):
            got = run([program, "scan", *words, signatures, "empty"], cwd=work)
            cases.check(f"{words} of an empty folder", got == (1, b"", NOTHING), f"{got}")
    chance = random.Random(5)
    with tempfile.TemporaryDirectory() as work:
        signatures, tree = shutil.copy(os.path.join(DATA, "set.avsig"), work), os.path.join(os.fsencode(work), b"tree")
        word = lambda letters, most: bytes(chance.choice(letters) for _ in range(chance.randrange(1, most)))
        for _ in range(300):
            folder = os.path.join(tree, *[word(b"ab", 3) + b"_" for _ in range(chance.randrange(3))])
            os.makedirs(folder, exist_ok=True)
            write(os.path.join(folder, word(b"aab[]*!-\n\x1b\xff", 7)), b"abc")
        pool = [b"a", b"b", b"*", b"**", b"?", b"[ab]", b"[!a]", b"[a-b]", b"[]*]", b"\\*", b"\\[", b"/", b"_", b"\xff", b"\n", b"-"]
        for _ in range(60):
            globs = [glob for glob in (b"".join(chance.choice(pool) for _ in range(chance.randrange(1, 7))) for _ in range(chance.randrange(1, 4))) if not glob.endswith(b"/") and is_text(glob)] or [b"a*"]
            wanted, told = [], []
            for folder, folders, files in os.walk(tree):
                inside = os.path.relpath(folder, os.fsencode(work))
                folders[:] = [name for name in folders if not is_out(globs, inside + b"/" + name)]
                wanted += [inside + b"/" + name for name in files if is_text(name) and not is_out(globs, inside + b"/" + name)]
                told += [inside + b"/" + name for name in files if not is_text(name) and not is_out(globs, inside + b"/" + name)]
            words = [b"--exclude=" + glob for glob in globs]
            status, out, err = run([program, "scan", "-r", *words, signatures, "tree"], cwd=work)
            fine = sorted(out.split(b" clean\n")[:-1]) == sorted(quoted(path) for path in wanted) and err.count(b": the name is not UTF-8\n") == len(told) and status == (1 if told or not wanted else 0)
            cases.check(f"random globs {globs}", fine, f"{status} {err[-200:]}")
        name = b"a" * 255
        deep = os.path.join(os.fsencode(work), b"deep", name, name)
        os.makedirs(os.path.dirname(deep))
        write(deep, b"abc")
        begun = time.time()
        for glob in (b"*a" * 120 + b"b", b"**a" * 120 + b"**b", b"**[ab]*" * 100 + b"c", b"*?" * 2000, b"[a-z]*" * 2000 + b"b"):
            got = run([program, "scan", "-r", "--exclude", glob, "--exclude", b"/" + glob, signatures, "deep"], cwd=work)
            cases.check(f"a hostile glob of {len(glob)} bytes", got == (0, deep[len(work) + 1 :] + b" clean\n", b""), f"{got[0]} {got[2]}")
        cases.check("hostile globs take no long time", time.time() - begun < SECONDS / 2, f"{time.time() - begun}")


def file_systems(cases, program):
    """A folder of another file system is left out below a FOLDER, and walked where it is named."""
    with tempfile.TemporaryDirectory() as work:
        signatures = shutil.copy(os.path.join(DATA, "set.avsig"), work)
        for folder in ("t/mount", "t/z"):
            os.makedirs(os.path.join(work, folder))
        for name in ("t/a", "t/z/b"):
            write(os.path.join(work, name), b"abc")
        mounted = subprocess.run(["mount", "-t", "tmpfs", "none", os.path.join(work, "t/mount")], stderr=subprocess.PIPE)
        if mounted.returncode:
            print(f"skipped: --one-file-system over a mount, since {mounted.stderr.decode().strip()}")
            rows = [(["t"], (0, b"t/a clean\nt/z/b clean\n", b"avscan: 2 files scanned, 0 infected, 0 not scanned, 0 left out\n"))]
        else:
            write(os.path.join(work, "t/mount/c"), EICAR)
            os.mkdir(os.path.join(work, "t/mount/d"))
            write(os.path.join(work, "t/mount/d/e"), b"abc")
            found = b"t/mount/c infected 0 eicar.test end 64\nt/mount/d/e clean\n"
            rows = [(["t"], (0, b"t/a clean\nt/z/b clean\n", b"avscan: 2 files scanned, 0 infected, 0 not scanned, 1 left out\n")), (["t/mount"], (0, found, b"avscan: 2 files scanned, 1 infected, 0 not scanned, 0 left out\n")),
                    (["t", "t/mount"], (0, b"t/a clean\nt/z/b clean\n" + found, b"avscan: 4 files scanned, 1 infected, 0 not scanned, 1 left out\n")), (["t/mount/c", "--exclude", "z", "t"], (0, b"t/mount/c infected 0 eicar.test end 64\nt/a clean\n", b"avscan: 2 files scanned, 1 infected, 0 not scanned, 2 left out\n"))]
        try:
            for words, wanted in rows:
                for threads in ("1", "4"):
                    got = run([program, "scan", "-r", "-j", threads, "--one-file-system", "--summary", signatures, *words], cwd=work)
                    cases.check(f"--one-file-system -j {threads} {words}", got == wanted, f"{got}")
            if not mounted.returncode:
                got = run([program, "scan", "-r", signatures, "t"], cwd=work)
                cases.check("without --one-file-system", got == (0, b"t/a clean\n" + found + b"t/z/b clean\n", b""), f"{got}")
            got = run([program, "scan", "-r", "--one-file-system", signatures, "gone", "t/a"], cwd=work)
            cases.check("--one-file-system of what is not there", got == (4, b"t/a clean\n", b"avscan: gone: cannot read\n"), f"{got}")
        finally:
            if not mounted.returncode:
                subprocess.run(["umount", os.path.join(work, "t/mount")], check=True)


def named_links(cases, program):
    """A link that is named is followed, on the command line and in a list, to a file and to a folder; one that leads nowhere is told."""
    with tempfile.TemporaryDirectory() as work:
        signatures = shutil.copy(os.path.join(DATA, "set.avsig"), work)
        os.makedirs(os.path.join(work, "far/in"))
        write(os.path.join(work, "far/in/file"), EICAR)
        for target, name in (("far/in/file", "file"), ("file", "file2"), ("far", "folder"), ("folder", "folder2"), ("nowhere", "gone"), ("loop", "loop"), ("b", "a"), ("a", "b"), ("..", "far/in/up")):
            os.symlink(target, os.path.join(work, name))
        found = lambda *names: b"".join(name.encode() + b" infected 0 eicar.test end 64\n" for name in names)
        unread = lambda *names: b"".join(b"avscan: " + name.encode() + b": cannot read\n" for name in names)
        rows = [(["file", "file2"], (0, found("file", "file2"), b"")), (["-r", "file2", "folder", "folder2", "folder/"], (0, found("file2", "folder/in/file", "folder2/in/file", "folder/in/file"), b"")), (["-k", "folder", "file"], (4, found("file"), unread("folder"))),
                (["-r", "gone", "loop", "a", "file"], (4, found("file"), unread("gone", "loop", "a"))), (["-r", "far/in/up"], (0, found("far/in/up/in/file"), b""))]
        for words, wanted in rows:
            got = run([program, "scan", signatures, *words], cwd=work)
            cases.check(f"links {words}", got == wanted, f"{got}")
            flags, names = [word for word in words if word[0] == "-"], [word for word in words if word[0] != "-"]
            got = run([program, "scan", *flags, "--files-from", "-", signatures], "".join(name + "\n" for name in names).encode(), cwd=work)
            cases.check(f"links of a list {words}", got == wanted, f"{got}")


def names_alone(cases, program):
    """With -i and --print0 the names of infected files are on standard output alone, each ended by a zero byte, for xargs."""
    with tempfile.TemporaryDirectory() as work:
        signatures, tree = os.path.join(DATA, "set.avsig"), os.path.join(os.fsencode(work), b"tree")
        os.mkdir(tree)
        odd = [b"a b", b"line\nfeed", b"\x1b[2K", b'"quoted"', b"'", "\u00e9".encode(), b"-n"]
        for name in odd:
            write(os.path.join(tree, name), EICAR)
            write(os.path.join(tree, name + b".clean"), b"abc")
        wanted = b"".join(tree + b"/" + name + b"\0" for name in sorted(odd))
        for threads in ("1", "4"):
            got = run([program, "scan", "-r", "-i", "--print0", "-j", threads, signatures, tree])
            cases.check(f"-i --print0 -j {threads}", got == (0, wanted, b""), f"{got}")
        got = run([program, "scan", "-k", "-i", "--print0", "--found-status", "--summary", signatures, tree + b"/a b", tree + b"/gone", tree + b"/a b.clean"])
        cases.check("-i --print0 and faults", got == (6, tree + b"/a b\0", b"avscan: " + tree + b"/gone: cannot read\navscan: 2 files scanned, 1 infected, 1 not scanned\n"), f"{got}")
        got = run([program, "scan", "-i", "--print0", signatures, tree + b"/a b.clean"])
        cases.check("-i --print0 of a clean file", got == (0, b"", b""), f"{got}")
        got = run([program, "scan", "--print0", signatures, tree + b"/a b", tree + b"/a b.clean"])
        cases.check("--print0 without -i", got == (0, tree + b"/a b infected 0 eicar.test end 64\0" + tree + b"/a b.clean clean\0", b""), f"{got}")
        for words in (["--print0", "--json"], ["-i", "--print0", "--json"]):
            got = run([program, "scan", *words, signatures, tree + b"/a b"])
            cases.check(f"{words}", got[:2] == (2, b"") and b"--json" in got[2], f"{got}")
        kept = os.path.join(work, "kept")
        os.mkdir(kept)
        got = run(["sh", "-c", '"$1" scan -r -i --print0 "$2" "$3" | xargs -0 -r mv -t "$4" --', "sh", program, signatures, tree, kept])
        cases.check("quarantine by xargs", got == (0, b"", b"") and sorted(os.listdir(os.fsencode(kept))) == sorted(odd) and sorted(os.listdir(tree)) == sorted(name + b".clean" for name in odd), f"{got}")
        with open("/dev/full", "wb") as full:
            done = subprocess.run([program, "scan", "-i", "--print0", signatures, os.path.join(os.fsencode(kept), b"a b")], stdout=full, stderr=subprocess.PIPE, timeout=SECONDS)
        cases.check("-i --print0 on a full device", (done.returncode, done.stderr) == (4, b"avscan: device\n"), f"{done}")


def main():
    if len(sys.argv) != 2:
        sys.exit("usage: tests/files.py PROGRAM")
    cases = Cases()
    for part in (tables, links, named_links, excluded, file_systems, names_alone, names, forged, at_once, swapped, sets, lists, pieces, changes, closed, many, statuses, devices, jobs, stretches, growth, in_turn, taken, standard_input):
        try:
            part(cases, os.path.abspath(sys.argv[1]))
        except Exception as fault:
            cases.check(part.__name__, False, f"{type(fault).__name__}: {fault}")
    print(f"{cases.passed} passed, {cases.failed} failed")
    sys.exit(1 if cases.failed else 0)


main()
