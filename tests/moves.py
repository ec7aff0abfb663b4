#!/usr/bin/env python3
"""Infected files that are moved into a folder, by the built program.

Which files are moved, under which names, and what is written; files that stay: links, pipes, files of the folder, of another file system
or of a folder that may not be written; files that change while they are scanned; each call that links or removes failing in turn. After
each run every file is there once, under its old name or its new one. The last line says how many passed and how many failed."""
import os, shutil, subprocess, sys, tempfile, threading

from cases import Cases

SECONDS = 120
SET = b"avsig 1\nversion 7\none 4141\n"
BAD, GOOD = b"xAAx", b"xyz"
CANNOT = "cannot move: "


def run(words, folder, given=None, **options):
    done = subprocess.run(words, input=given, stdout=subprocess.PIPE, stderr=subprocess.PIPE, timeout=SECONDS, cwd=folder, **options)
    return done.returncode, done.stdout, done.stderr


def tree(folder, files):
    """A fresh folder with the set, an empty folder `kept`, and these files."""
    shutil.rmtree(folder, ignore_errors=True)
    os.makedirs(os.path.join(folder, "kept"))
    for name, content in {"s": SET, **files}.items():
        path = os.path.join(folder, name)
        os.makedirs(os.path.dirname(path), exist_ok=True)
        with open(path, "wb") as file:
            file.write(content)


def files_of(folder):
    """Each regular file but the set, with its content."""
    found = {}
    for at, _, names in os.walk(folder):
        for name in names:
            path = os.path.join(at, name)
            if os.path.isfile(path) and not os.path.islink(path):
                with open(path, "rb") as file:
                    found[os.path.relpath(path, folder)] = file.read()
    found.pop("s", None)
    return found


def moved(pairs):
    return "".join(f"avscan: {old}: moved to {new}\n" for old, new in pairs).encode()


def infected(*names, end="\n"):
    return "".join(f"{name} infected 0 one end 3{end}" for name in names).encode()


def names(cases, program, folder):
    """Which files are moved, and under which names, whatever the number of threads."""
    files = {"a": BAD, "b": GOOD, "sub/a": BAD, "sub/deep/c": BAD, "sub/deep/d": GOOD}
    after = {"kept/a": BAD, "b": GOOD, "kept/a.1": BAD, "kept/c": BAD, "sub/deep/d": GOOD}
    for jobs in ("1", "2", "8"):
        words = [program, "scan", "-j", jobs, "--move", "kept"]
        tree(folder, files)
        got = run([*words, "s", *files], folder)
        lines = infected("a") + b"b clean\n" + infected("sub/a", "sub/deep/c") + b"sub/deep/d clean\n"
        said = moved([("a", "kept/a"), ("sub/a", "kept/a.1"), ("sub/deep/c", "kept/c")])
        cases.same(f"-j {jobs}: named files", (got, files_of(folder)), ((0, lines, said), after))
        tree(folder, files)
        got = run([*words, "-r", "-i", "--found-status", "s", "a", "b", "sub"], folder)
        cases.same(f"-j {jobs}: below folders", (got, files_of(folder)), ((5, infected("a", "sub/a", "sub/deep/c"), said), after))
        tree(folder, files)
        got = run([*words, "-r", "-i", "--print0", "s", "a", "b", "sub"], folder)
        cases.same(f"-j {jobs}: names alone", (got, files_of(folder)), ((0, b"a\0sub/a\0sub/deep/c\0", said), after))
        tree(folder, files)
        got = run([*words, "-r", "--json", "s", "a"], folder)
        cases.check(f"-j {jobs}: objects", got[0] == 0 and got[1].count(b"\n") == 1 and got[2] == moved([("a", "kept/a")]), f"{got}")
        tree(folder, files)
        got = run([*words, "-k", "--all-matches", "s", "--set", "s", "a", "gone", "b"], folder)
        lines = b"a infected 0 one end 3 set s\n" * 2 + b"b clean set s\n" * 2
        cases.same(f"-j {jobs}: once for all lines", (got, files_of(folder).get("kept/a")), ((4, lines, moved([("a", "kept/a")]) + b"avscan: gone: cannot read\n"), BAD))
        tree(folder, {f"many/{number}/x": BAD for number in range(60)})
        got = run([*words, "-r", "-i", "--summary", "s", "many"], folder)
        left = files_of(folder)
        wanted = {"kept/x", *(f"kept/x.{number}" for number in range(1, 60))}
        cases.check(f"-j {jobs}: sixty of one name", got[0] == 0 and set(left) == wanted and got[2].endswith(b"avscan: 60 files scanned, 60 infected, 0 not scanned\n"), f"{got} {left}")
    tree(folder, files)
    got = run([program, "scan", "s", "--move", "kept", "a", "gone"], folder)
    cases.same("a run that ends at a file moves nothing", (got, files_of(folder)), ((4, b"", b"avscan: gone: cannot read\n"), files))
    tree(folder, files)
    got = run([program, "scan", "--move", "kept/", "s", "a"], folder)
    cases.same("a folder with a slash", (got, "kept/a" in files_of(folder)), ((0, infected("a"), moved([("a", "kept/a")])), True))
    tree(folder, files)
    got = run([program, "scan", "--move", os.path.join(folder, "kept"), "s", os.path.join(folder, "sub/a")], folder)
    cases.check("paths from the root", got[0] == 0 and "kept/a" in files_of(folder), f"{got}")
    odd = 'n\n"\x1b[2J'
    tree(folder, {odd: BAD})
    got = run([program, "scan", "-i", "--move", "kept", "s", odd], folder)
    said = b'avscan: n\\x0a"\\x1b[2J: moved to "kept/n\\n\\"\\033[2J"\n'
    cases.same("a name that would forge lines", (got[0], got[2], files_of(folder)), (0, said, {f"kept/{odd}": BAD}))
    tree(folder, {"a": BAD})
    os.mkdir(os.path.join(folder, "real"))
    os.symlink("real", os.path.join(folder, "link"))
    got = run([program, "scan", "--move", "link", "s", "a"], folder)
    cases.same("a link to a folder", (got, files_of(folder)), ((0, infected("a"), moved([("a", "link/a")])), {"real/a": BAD}))


def folders(cases, program, folder):
    """What is no folder ends the run before anything is scanned."""
    for name, word in (("one that is not there", "gone"), ("a file", "b"), ("an empty word", ""), ("a file with a slash", "b/")):
        tree(folder, {"a": BAD, "b": GOOD})
        got = run([program, "scan", "--move", word, "s", "a"], folder)
        cases.same(f"the folder: {name}", (got, files_of(folder)), ((1, b"", f"avscan: {word}: is no folder to move files into\n".encode()), {"a": BAD, "b": GOOD}))
    got = run([program, "scan", "s", "a", "--move"], folder)
    cases.check("the folder: no word", got[0] == 2 and got[1] == b"", f"{got}")
    got = run([program, "host", "--move", "kept", "s", "a"], folder)
    cases.check("the folder: of another command", got[0] == 2 and got[1] == b"", f"{got}")


def stays(cases, program, folder, name, words, path, why, status=4, options=(), given=None):
    """A file that is infected and stays: its line, the fault, and every file as it was."""
    before = files_of(folder)
    got = run([program, "scan", *options, "--move", *words, "s", path], folder, given)
    said = f"avscan: {path}: {CANNOT}{why}\n".encode()
    cases.same(f"stays: {name}", (got, files_of(folder)), ((status, infected(path), said), before))


def staying(cases, program, folder):
    inside = lambda name: os.path.join(folder, name)
    tree(folder, {"a": BAD})
    os.symlink("a", inside("l"))
    stays(cases, program, folder, "a link", ["kept"], "l", "it is not a regular file")
    stays(cases, program, folder, "a link with a status for what is found", ["kept"], "l", "it is not a regular file", 6, ["--found-status"])
    tree(folder, {"kept/a": BAD, "-": GOOD})
    stays(cases, program, folder, "a file of the folder", ["kept"], "kept/a", "it is in that folder")
    stays(cases, program, folder, "standard input beside a file of that name", ["kept"], "-", "it is not the file that was scanned", given=BAD)
    stays(cases, program, folder, "standard input by its path", ["kept"], "/dev/stdin", "it is not a regular file", given=BAD)
    tree(folder, {"a": BAD, **{f"kept/a{end}": GOOD for end in ("", *(f".{number}" for number in range(1, 1000)))}})
    stays(cases, program, folder, "all names are taken", ["kept"], "a", "the folder has 1,000 files of that name")
    os.remove(inside("kept/a.999"))
    got = run([program, "scan", "--move", "kept", "s", "a"], folder)
    cases.same("the last name", (got, files_of(folder).get("kept/a.999")), ((0, infected("a"), moved([("a", "kept/a.999")])), BAD))
    tree(folder, {"a": BAD})
    if os.path.isdir("/dev/shm") and os.stat("/dev/shm").st_dev != os.stat(folder).st_dev:
        with tempfile.TemporaryDirectory(dir="/dev/shm") as other:
            stays(cases, program, folder, "another file system", [other], "a", "the folder is on another file system")
    else:
        print("skipped: no other file system at /dev/shm")
    got = run([program, "scan", "--move", "kept", "s", "a", "a"], folder)
    said = moved([("a", "kept/a")]) + f"avscan: a: {CANNOT}it is not the file that was scanned\n".encode()
    cases.same("twice by one name", (got, files_of(folder)), ((4, infected("a", "a"), said), {"kept/a": BAD}))
    tree(folder, {"a": BAD})
    os.link(inside("a"), inside("b"))
    got = run([program, "scan", "-j", "1", "--move", "kept", "s", "a", "b"], folder)
    cases.same("two names of a file", (got, files_of(folder)), ((0, infected("a", "b"), moved([("a", "kept/a"), ("b", "kept/b")])), {"kept/a": BAD, "kept/b": BAD}))
    if os.geteuid() != 0:
        tree(folder, {"a": BAD, "shut/b": BAD})
        os.chmod(inside("kept"), 0o500)
        stays(cases, program, folder, "a folder that may not be written", ["kept"], "a", "it can't get a name in the folder: Permission denied (os error 13)")
        os.chmod(inside("kept"), 0o700)
        os.chmod(inside("shut"), 0o500)
        stays(cases, program, folder, "an old name that may not be removed", ["kept"], "shut/b", "its old name can't be removed: Permission denied (os error 13)")
        os.chmod(inside("shut"), 0o700)


FAILING = r"""
#define _GNU_SOURCE
#include <dlfcn.h>
#include <errno.h>
#include <stdarg.h>
#include <stdlib.h>
#include <string.h>
#include <unistd.h>

/* which call of link and unlink fails, or before which one the file `other` takes the name FAIL_PATH */
static int calls;

static int fails(void)
{
    const char *number = getenv("FAIL_CALL"), *path = getenv("FAIL_PATH");
    if (number == NULL || ++calls != atoi(number))
        return 0;
    if (path == NULL) {
        errno = EIO;
        return 1;
    }
    int (*real)(const char *, const char *) = dlsym(RTLD_NEXT, "rename");
    real("other", path);
    return 0;
}

int link(const char *old, const char *new)
{
    int (*real)(const char *, const char *) = dlsym(RTLD_NEXT, "link");
    return fails() ? -1 : real(old, new);
}

int linkat(int a, const char *old, int b, const char *new, int flags)
{
    int (*real)(int, const char *, int, const char *, int) = dlsym(RTLD_NEXT, "linkat");
    return fails() ? -1 : real(a, old, b, new, flags);
}

int unlink(const char *path)
{
    int (*real)(const char *) = dlsym(RTLD_NEXT, "unlink");
    return fails() ? -1 : real(path);
}
"""


def calls(cases, program, folder, room):
    """Each call that links or removes fails, or finds another file under the name: no file is lost."""
    source, library = os.path.join(room, "failing.c"), os.path.join(room, "failing.so")
    with open(source, "w", encoding="ascii") as file:
        file.write(FAILING)
    if subprocess.run(["cc", "-shared", "-fPIC", "-o", library, source, "-ldl"], check=False).returncode != 0:
        print("skipped: no C compiler for calls that fail")
        return
    failing = lambda number, **more: {**os.environ, "LD_PRELOAD": library, "FAIL_CALL": str(number), **more}
    words = [program, "scan", "-k", "-i", "-j", "1", "--move", "kept", "s", "a", "b"]
    whole = {"kept/a": BAD, "kept/b": BAD + b"b"}
    for number in range(1, 7):
        tree(folder, {"a": BAD, "b": BAD + b"b"})
        got = run(words, folder, env=failing(number))
        left = files_of(folder)
        if number > 4:
            cases.same(f"call {number} fails, of which there are none", (got[0], left), (0, whole))
            continue
        stayed = "a" if number < 3 else "b"
        wanted = {path: content for path, content in whole.items() if path != f"kept/{stayed}"} | {stayed: whole[f"kept/{stayed}"]}
        says = f"avscan: {stayed}: {CANNOT}".encode() in got[2]
        cases.check(f"call {number} fails", got[0] == 4 and got[1] == infected("a", "b") and left == wanted and says, f"{got} {left}")
    tree(folder, {"a": BAD, "b": BAD + b"b", "other": GOOD})
    got = run(words, folder, env=failing(1, FAIL_PATH="a"))
    said = f"avscan: a: {CANNOT}it is not the file that was scanned\n".encode() + moved([("b", "kept/b")])
    cases.same("another file takes its name before the link", (got, files_of(folder)), ((4, infected("a", "b"), said), {"a": GOOD, "kept/b": BAD + b"b"}))


def changing(cases, program, folder):
    """Names that change under a scan: no file is reported as moved but an infected one."""
    wrong = 0
    for _ in range(40):
        tree(folder, {"a": BAD, "c": GOOD})
        path, done = os.path.join(folder, "a"), threading.Event()

        def swap():
            while not done.is_set():
                for content in (GOOD, BAD):
                    with open(path + ".new", "wb") as file:
                        file.write(content)
                    os.replace(path + ".new", path)

        thread = threading.Thread(target=swap)
        thread.start()
        said = run([program, "scan", "-k", "-j", "1", "--move", "kept", "s", "a", "a", "a"], folder)[2].decode()
        done.set()
        thread.join()
        left = files_of(folder)
        wrong += any(left.get(line.split(": moved to ")[1]) != BAD for line in said.splitlines() if ": moved to " in line)
    cases.check("a name that changes", wrong == 0, f"{wrong} of 40 runs moved a clean file")


def main():
    program = os.path.abspath(sys.argv[1])
    cases = Cases()
    with tempfile.TemporaryDirectory() as room:
        folder = os.path.join(room, "tree")
        names(cases, program, folder)
        folders(cases, program, folder)
        staying(cases, program, folder)
        calls(cases, program, folder, room)
        changing(cases, program, folder)
    print(f"{cases.passed} passed, {cases.failed} failed")
    return cases.failed > 0


if __name__ == "__main__":
    sys.exit(main())
