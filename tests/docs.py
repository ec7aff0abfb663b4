#!/usr/bin/env python3
"""What the documents name is there: each path and link, each function, type and clause of the crates' pages and of docs/, each at the
file or the call that the page gives for it and in the crate or one below it, a case
for each fault line of docs/FORMATS.md, and the examples print what the documents say. Each word of the command line stands in the
manual page and in the completions, and the pages render without a warning. The last line says how many passed and failed."""
import glob, os, re, shutil, subprocess, sys, tempfile

from programs import program_beside

ROOT = os.path.dirname(os.path.dirname(os.path.abspath(__file__)))
PAGES = ["README.md", "CHANGELOG.md", "bench/README.md", "gate/README.md", "tests/README.md"] + [f"docs/{name}.md" for name in ("ARCHITECTURE", "CHECK", "COMPUTED", "CONDUCT", "DECISIONS", "EDITS", "FORMATS", "GATE", "GUARDED-FOLDER", "MUTANTS", "READING", "OPERATING", "PROMISES", "SCANNER", "THREADS")]
# words of the language, of std and of formats that stand in backticks too
OUTSIDE = set("make test run install scan rt clang slab lru bytes hex clap thiserror itoa std memchr Drop Display Error From Ok Err Some None "
              "true false requires ensures main malloc grep nice yara clamscan clamonacc clamd cargo valgrind CLAM_VIRUS_FAIL".split())


def text_of(path):
    with open(os.path.join(ROOT, path), encoding="utf-8", errors="replace") as file:
        return file.read()


def sources():
    """All words of code and definitions, and the names of edits and mutants."""
    kept = ("crates/*/must-fail/*.edit", "gate/mutants/*.mutant")
    words = {os.path.splitext(os.path.basename(path))[0] for pattern in kept for path in glob.glob(os.path.join(ROOT, pattern))}
    for pattern in ("crates/*/src/**/*.rt", "crates/*/specs/**/*.antt", "crates/*/proofs/*.antt", "crates/*/proofs/**/*.antt", "gate/*.py", "gate/*.sh", "package/*", "tests/*.py", "tests/*.sh", "tests/*.c", "bench/*/*", "examples/*/*", "Makefile", "crates.txt"):
        for path in glob.glob(os.path.join(ROOT, pattern), recursive=True):
            if os.path.isfile(path) and "/out/" not in path:
                words.update(re.findall(r"\w+", text_of(path)))
    return words


class Checks:
    def __init__(self):
        self.passed = self.failed = 0

    def check(self, holds, what):
        if holds:
            self.passed += 1
        else:
            self.failed += 1
            print(what)


def without_blocks(text):
    return re.sub(r"```.*?```", "", text, flags=re.S)


def paths(checks, page, text):
    folder = os.path.dirname(page)
    for link in re.findall(r"\]\(([^)#:]+)\)", text):
        checks.check(os.path.exists(os.path.join(ROOT, folder, link)), f"{page}: no file for the link {link}")
    for word in re.findall(r"`([\w./-]+)`", without_blocks(text)):
        if re.fullmatch(r"(crates|docs|gate|package|tests|bench|examples|specs|src|proofs|must-fail)/[\w./-]*", word):
            found = [word, os.path.join(folder, word)] + (glob.glob(os.path.join(ROOT, "crates", "*", word)) if not word.startswith(("crates/", "docs/", "gate/", "package/", "tests/", "bench/")) else [])
            checks.check(any(os.path.exists(os.path.join(ROOT, path)) for path in found), f"{page}: no file {word}")


def names(checks, page, text, words):
    for word in re.findall(r"`([A-Za-z_][\w:]+)`", without_blocks(text)):
        parts = [part for part in word.split("::") if part]
        known = all(part in words or part in OUTSIDE for part in parts)
        checks.check(known, f"{page}: nothing is named {word}")


def crates_below():
    """Each crate of this repository with those that it stands on, as crates.txt has them."""
    lines = [line.split("#")[0].strip() for line in text_of("crates.txt").splitlines()]
    return {name.strip(): [dep for dep in deps.split() if dep.startswith("av")] for name, deps in (line.split(":") for line in lines if line)}


def words_of(crate):
    """All words of a crate's code, definitions and proofs."""
    words = set()
    for path in glob.glob(os.path.join(ROOT, "crates", crate, "**", "*"), recursive=True):
        if path.endswith((".rt", ".antt", ".edit")) and "/out/" not in path:
            words.update(re.findall(r"\w+", text_of(path)))
    return words


def places(checks, page, text):
    """A name with a file behind it stands in that file: `NAME` (PATH), or `NAME`, PATH within brackets."""
    crate = os.path.dirname(page)
    for word, path in re.findall(r"`([A-Za-z_][\w:]+)` ?\(`?([\w/.]+\.(?:rt|antt))`?[),]", text) + re.findall(r"`([A-Za-z_][\w:]+)`, `?([\w/.]+\.(?:rt|antt))`?", text):
        files = [file for file in (os.path.join(ROOT, path), os.path.join(ROOT, crate, path)) if os.path.exists(file)] or glob.glob(os.path.join(ROOT, "crates", "*", path))
        holds = any(all(re.search(rf"\b{part}\b", text_of(file)) for part in word.split("::")) for file in files)
        checks.check(holds, f"{page}: {word} does not stand in {path}")


def contracts(crate):
    """The contract of each function of a crate: by its name, the labels of its clauses."""
    found = {}
    for path in glob.glob(os.path.join(ROOT, "crates", crate, "src", "**", "*.rt"), recursive=True):
        for name, contract in re.findall(r"\bfn (\w+)\b(.*?)(?:^ *| )\{(?=\n|\}\n)", text_of(path), flags=re.S | re.M):
            found.setdefault(name, set()).update(re.findall(r"\bensures (\w+) \{", contract))
    return found


def clauses(checks, page, text, clauses_of):
    """`CLAUSE` of `Type::call`: such a call has a clause of that name."""
    for labels, call in re.findall(r"((?:`\w+`, |`\w+` and )*`\w+`) of `(\w+::\w+)`", text):
        name = call.split("::")[-1]
        for label in re.findall(r"\w+", labels.replace(" and ", " ")):
            checks.check(label in clauses_of.get(name, ()), f"{page}: {call} has no clause {label}")


def crate_pages(checks):
    """A crate's page names what stands in the crate or below it, and each crate on which it stands."""
    below = crates_below()

    def all_below(crate):
        return {crate}.union(*(all_below(dep) for dep in below[crate]))

    words = {crate: words_of(crate) for crate in below}
    calls = {crate: contracts(crate) for crate in below}
    for crate, deps in below.items():
        page = f"crates/{crate}/README.md"
        if not os.path.exists(os.path.join(ROOT, page)):
            continue
        text = text_of(page)
        known = set(below).union(OUTSIDE, *(words[dep] for dep in all_below(crate)))
        for word in re.findall(r"`([A-Za-z_][\w:]+)`", without_blocks(text)):
            checks.check(all(part in known for part in word.split("::") if part), f"{page}: neither the crate nor one below it has {word}")
        stands_on = (text.partition("## What it depends on")[2] or text.partition("## What it stands on")[2]).partition("\n## ")[0]
        named = set(re.findall(r"`(av\w+)`", stands_on))
        checks.check(named == set(deps), f"{page}: it stands on {sorted(deps)}, and its page names {sorted(named)}")
        labels = {}
        for dep in all_below(crate):
            for name, found in calls[dep].items():
                labels.setdefault(name, set()).update(found)
        clauses(checks, page, text, labels)


def lemmas(checks):
    """gate/lemmas_above.txt names the lemma files that proofs of other crates cite, and no others."""
    cited = set()
    for path in glob.glob(os.path.join(ROOT, "crates", "*", "**", "*.*t*"), recursive=True):
        own = path.split("/crates/")[-1].split("/")[0]
        if path.endswith((".rt", ".antt")) and "/out/" not in path:
            cited.update((crate, name) for crate, name in re.findall(r"\b(av\w*)(?:\.|::)proofs(?:\.|::)([A-Z]\w+)", text_of(path)) if crate != own)
    lines = [line.split(":") for line in text_of("gate/lemmas_above.txt").splitlines() if not line.startswith("#")]
    named = {(crate, name) for crate, names in lines for name in names.split()}
    checks.check(named == cited, f"gate/lemmas_above.txt: proofs above cite {sorted(cited - named)} too, and not {sorted(named - cited)}")


def fault_lines(checks):
    # (a test of a library has its lines without the program's name, which its standard error puts in front)
    tested = "".join(text_of(path) for path in ("crates/av_status/src/tests.rt", "crates/av_words/src/tests.rt", "crates/avscan_words/src/tests.rt", "crates/avguard_words/src/tests.rt", "crates/avscan/src/tests.rt", "crates/av_sets/src/tests.rt"))
    given = "".join(text_of(path) for path in glob.glob(os.path.join(ROOT, "tests", "*", "*.case")) + glob.glob(os.path.join(ROOT, "tests", "import", "*.err"))) + "".join(text_of(path) for path in ("tests/program.py", "tests/files.py", "tests/sets.py", "tests/tables.py", "tests/sockets.py", "tests/watch.py", "tests/chart.py", "tests/guard.py", "tests/large.py", "tests/paths.py", "tests/clients.py", "tests/attacks.py", "tests/waits.py", "tests/config.py", "tests/status.py", "tests/import.py", "tests/merge.py", "tests/trust.py", "tests/generate.py"))
    for line in re.findall(r"\| `(av(?:scan|guard|tool): [^`]*)` \|", text_of("docs/FORMATS.md")):
        pattern = re.escape(line).replace(r"\.\.", ".*")
        for word, form in (("N", r"(\d+|%d)"), ("K", r"(\d+|%d)"), ("FILE", r".*"), ("FOLDER", r".*"), ("GLOB", r".*"), ("NAME", r".*"), ("SOCKET", r".*"), ("LIST", r".*"), ("SET", r".*"), ("KEY", r".*"), ("OPENS", r".*"), ("SERVICE", r".*"), ("WORDS", r".*"), ("V", r"(\d+|%d)"), ("W", r"(\d+|%d)")):
            pattern = re.sub(rf"\b{word}\b", lambda _: form, pattern)
        in_tests = re.search(pattern.partition(r":\ ")[2], tested)
        checks.check(in_tests or re.search(pattern, given), f"docs/FORMATS.md: no case has the line {line}")


def example(checks, program):
    """Behind each line `running: PROGRAM ..` of README.md's block stands what the program prints, or the front of it before `..`."""
    block = re.search(r"```text\n\$ make run\n(.*?)```", text_of("README.md"), flags=re.S)[1]
    runs = re.findall(r"^running: \S+ ([^\n]*)\n(.*?)(?=^running: |\Z)", block, flags=re.M | re.S)
    checks.check(len(runs) == 2, "README.md: make run shows other runs")
    for line in block.partition("running: ")[0].replace("..\n", "").splitlines():
        checks.check(line.split(":")[0] in ("building", "built") and line.split("(")[0].split("crates/")[0] in text_of("Makefile"), f"README.md: make run does not print {line}")
    for words, told in runs:
        printed = subprocess.run([program] + words.split(), stdout=subprocess.PIPE, text=True, cwd=ROOT, timeout=60).stdout
        told = told.replace("..\n", "")
        checks.check(told and printed.startswith(told), f"README.md: avscan {words} prints other lines")


def printed(checks, page, text, program):
    """A block that begins with `$ avscan ..`, or with another of the programs, has all lines that the command prints."""
    for name, words, block in re.findall(r"```text\n\$ (avscan|avguard|avtool) ([^\n]*)\n(.*?)```", text, flags=re.S):
        done = subprocess.run([program_beside(program, name)] + words.split(), stdout=subprocess.PIPE, text=True, cwd=ROOT, timeout=60)
        checks.check(done.stdout == block, f"{page}: {name} {words} prints other lines")


def pictures(checks, program):
    """Each picture of docs/ is what avtool draws of the example of its name, and what avtool made of examples/ is made so."""
    program = program_beside(program, "avtool")
    for path in sorted(glob.glob(os.path.join(ROOT, "docs", "*.svg"))):
        name = os.path.basename(path)[: -len(".svg")]
        done = subprocess.run([program, "chart", f"examples/{name}.avs"], cwd=ROOT, stdout=subprocess.PIPE)
        with open(path, "rb") as file:
            checks.check(done.stdout == file.read(), f"docs/{name}.svg is not what `avtool chart examples/{name}.avs` draws")
    made = {"random.avs": ["generate", "--seed", "17", "--commands", "200"], "random.svg": ["chart", "--from", "60", "--to", "100", "examples/random.avs"]}
    for name, words in made.items():
        done = subprocess.run([program, *words], cwd=ROOT, stdout=subprocess.PIPE)
        with open(os.path.join(ROOT, "examples", name), "rb") as file:
            checks.check(done.stdout == file.read(), f"examples/{name} is not what `avtool {' '.join(words)}` writes")


def help_of(program, *words):
    return subprocess.run([program, *words, "--help"], stdout=subprocess.PIPE, text=True, timeout=60).stdout


COMMANDS = {"avscan": ["run", "scan", "host", "filter", "service", "check"], "avguard": ["run", "ask", "status", "metrics", "paths", "check-config"], "avtool": ["chart", "generate", "import", "merge", "sign"]}


def manual(checks, program):
    """The manual page and the completions of each program have each of its commands and options; the pages render."""
    for name, wanted in COMMANDS.items():
        at = program_beside(program, name)
        commands = re.findall(r"^  ([\w-]+) ", help_of(at).split("Commands:")[1].split("Options:")[0], flags=re.M)
        checks.check(commands == [*wanted, "help"], f"commands of {name}: {commands}")
        options = set(re.findall(r"(?<![\w-])--?[a-zA-Z][a-z0-9-]*", "".join(help_of(at, *words) for words in [[]] + [[command] for command in wanted])))
        worded(checks, name, at, [*commands, *sorted(options)])
        rendered(checks, name + ".1", at, wanted)
        completed(checks, name)
        checks.check(subprocess.run(["bash", "-n", os.path.join(ROOT, f"completions/{name}.bash")]).returncode == 0, f"completions/{name}.bash is no script")
    for page in ("avsig.5", "avscript.5"):
        rendered(checks, page, program)


def worded(checks, name, program, words):
    """The page and each completion of a program have these words."""
    page = subprocess.run(["sh", os.path.join(ROOT, "man/page.sh"), name + ".1", program], stdout=subprocess.PIPE, text=True).stdout
    page = re.sub(r"\\f[BR]", "", page.replace("\\-", "-"))
    completions = {path: text_of(path) for path in (f"completions/{name}.bash", f"completions/_{name}", f"completions/{name}.fish")}
    for word in words:
        checks.check(re.search(rf"(?<![\w-]){word}\b", page), f"{name}(1) has no {word}")
        for path, text in completions.items():
            form = rf"-(l|s) {word.lstrip('-')}\b" if path.endswith("fish") and word.startswith("-") else rf"(?<![\w-]){word}\b"
            if path.endswith("bash") and re.fullmatch("-[a-zA-Z]", word):
                continue  # bash completes long options alone
            checks.check(re.search(form, text), f"{path} has no {word}")


def rendered(checks, page, program, commands=()):
    """A page is made and renders; that of a program has a synopsis of each command."""
    made = subprocess.run(["sh", os.path.join(ROOT, "man/page.sh"), page, program], stdout=subprocess.PIPE, stderr=subprocess.PIPE)
    checks.check(made.returncode == 0 and made.stderr == b"" and made.stdout.startswith(b".TH "), f"{page} is not made: {made.stderr!r}")
    if not shutil.which("man"):
        return
    shown = subprocess.run(["man", "--warnings", "-E", "UTF-8", "-Tutf8", "-l", "-"], input=made.stdout, stdout=subprocess.PIPE, stderr=subprocess.PIPE, env={**os.environ, "MANPAGER": "cat", "MANWIDTH": "80"})
    checks.check(shown.returncode == 0 and shown.stderr == b"" and len(shown.stdout) > 1000, f"{page} does not render: {shown.stderr[:300]!r}")
    if commands:
        plain = re.sub(r".\x08", "", shown.stdout.decode())
        synopsis = [line.split() for line in plain.split("SYNOPSIS")[1].split("DESCRIPTION")[0].split("\n") if line.strip()]
        starts = [line for line in synopsis if line[0] == page[:-2]]
        checks.check([line[:2] for line in starts] == [[page[:-2], word] for word in commands] and all(len(line) > 2 for line in starts), f"the synopsis of {page} reads {synopsis}")


def completed(checks, name):
    """A name with a blank is completed as one."""
    command = {"avscan": "scan", "avguard": "ask", "avtool": "chart"}[name]
    with tempfile.TemporaryDirectory() as folder:
        open(os.path.join(folder, "two words"), "w").close()
        script = f'. {ROOT}/completions/{name}.bash; cd {folder}; COMP_WORDS=({name} {command} t); COMP_CWORD=2; _{name}; printf "%s|" "${{COMPREPLY[@]}}"'
        done = subprocess.run(["bash", "-c", script], stdout=subprocess.PIPE, stderr=subprocess.PIPE, text=True)
        checks.check(done.stdout == "two words|", f"completions/{name}.bash completes {done.stdout!r} {done.stderr!r}")


def main():
    if len(sys.argv) != 2:
        sys.exit("usage: tests/docs.py PROGRAM")
    checks, words = Checks(), sources()
    for page in PAGES + [os.path.relpath(path, ROOT) for path in sorted(glob.glob(os.path.join(ROOT, "crates", "*", "README.md")))]:
        text = text_of(page)
        paths(checks, page, text)
        names(checks, page, text, words)
        places(checks, page, text)
        printed(checks, page, text, os.path.abspath(sys.argv[1]))
    every = {}
    for crate in crates_below():
        for name, labels in contracts(crate).items():
            every.setdefault(name, set()).update(labels)
    for page in ("docs/PROMISES.md", "docs/MUTANTS.md"):
        clauses(checks, page, text_of(page), every)
    crate_pages(checks)
    lemmas(checks)
    fault_lines(checks)
    example(checks, os.path.abspath(sys.argv[1]))
    manual(checks, os.path.abspath(sys.argv[1]))
    pictures(checks, os.path.abspath(sys.argv[1]))
    print(f"{checks.passed} passed, {checks.failed} failed")
    sys.exit(1 if checks.failed else 0)


main()
