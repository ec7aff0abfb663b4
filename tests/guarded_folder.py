#!/usr/bin/env python3
"""Runs what docs/GUARDED-FOLDER.md has under "By hand", line by line in one shell, and compares what each line prints with the page.

usage: guarded_folder.py PROGRAM

PROGRAM is avscan in the folder of its crate. Two dots in the page stand for any text. Where the machine lets nobody hold opens, the helper
is not run, and this is reported. The last line says how many lines passed and failed."""
import os, re, shutil, subprocess, sys, tempfile

from cases import Cases
from programs import program_beside

ROOT = os.path.dirname(os.path.dirname(os.path.abspath(__file__)))
PAGE = os.path.join(ROOT, "docs", "GUARDED-FOLDER.md")
SECONDS = 60
END = "what was asked is over"


def lines_of_page():
    """Each command of the page with what it is to print."""
    with open(PAGE, encoding="utf-8") as file:
        block = re.search(r"```console\n(.*?)```", file.read(), re.S)[1]
    return [(command, printed) for command, printed in re.findall(r"^\$ (.*)\n((?:(?!\$ ).*\n)*)", block, re.M)]


def folder_of_programs(program, folder):
    """A folder with the programs that the page names, the helper among them."""
    os.mkdir(folder)
    for name in ("avscan", "avguard"):
        os.symlink(program if name == "avscan" else program_beside(program, name), os.path.join(folder, name))
    source = os.path.join(ROOT, "examples", "fanotify", "avguard-onaccess.c")
    subprocess.run(["cc", "-std=c11", "-O2", "-pthread", "-o", os.path.join(folder, "avguard-onaccess"), source], check=True)


class Shell:
    """A shell that is given one line at a time."""

    def __init__(self, folder, programs):
        environment = dict(os.environ, PATH=f"{programs}:{os.environ['PATH']}", LC_ALL="C")
        self.process = subprocess.Popen(["bash", "--norc"], cwd=folder, env=environment, stdin=subprocess.PIPE, stdout=subprocess.PIPE, stderr=subprocess.STDOUT, text=True)

    def says(self, command):
        self.process.stdin.write(f"{command}\necho; echo '{END}'\n")
        self.process.stdin.flush()
        said = ""
        while not said.endswith(f"\n{END}\n") and (line := self.process.stdout.readline()):
            said += line
        return said.removesuffix(f"\n{END}\n")

    def end(self):
        self.process.stdin.write("kill $(jobs -p) 2> /dev/null; exit\n")
        self.process.stdin.close()
        self.process.wait(SECONDS)


def is_as(printed, said):
    return re.fullmatch(r".*".join(re.escape(it) for it in printed.split("..")), said, re.S)


def may_hold(programs, folder):
    """Whether this machine lets the helper hold opens: else what it says."""
    os.mkdir(folder)
    helper = os.path.join(programs, "avguard-onaccess")
    try:
        done = subprocess.run([helper, os.path.join(folder, "none"), folder], capture_output=True, text=True, timeout=1, check=False)
        return done.stderr.strip()
    except subprocess.TimeoutExpired:
        return None


def main():
    cases = Cases()
    with tempfile.TemporaryDirectory() as folder:
        programs = os.path.join(folder, "programs")
        folder_of_programs(os.path.abspath(sys.argv[1]), programs)
        if refused := may_hold(programs, os.path.join(folder, "probe")):
            print(f"the page was not run: {refused}", file=sys.stderr)
        else:
            shutil.copytree(os.path.join(ROOT, "examples"), os.path.join(folder, "examples"))
            shell = Shell(folder, programs)
            for command, printed in lines_of_page():
                said = shell.says(command)
                cases.check(command, is_as(printed, said), f"wanted {printed!r}, it printed {said!r}")
            shell.end()
    print(f"{cases.passed} passed, {cases.failed} failed")
    return 1 if cases.failed else 0


sys.exit(main())
