"""The definitions as they are written: the files of specs/ and proofs/, what a name in them or in a clause is, what each leads to, and the
parts of a definition: its type, its equations, and the words in them that name no variable."""
import functools
import glob
import os
import re

from rooms import CRATES

BEGUN = re.compile(r"\s*(?:(?:abbrev|unfoldable) (?:pub )?|(?:pub )?(?:record|data) )([A-Za-z_]\w*)")
WORD = re.compile(r"[A-Za-z_][\w']*(?:-[a-z]\w*)?(?:\.[A-Za-z_]\w*)*")


class Names:
    """What the names of a file stand for: those in braces of its lines of `use`, and modules by another name."""

    def __init__(self, crate, path, lines=()):
        self.crate, self.path, self.uses, self.opened, self.blocks = crate, path, {}, {}, {}
        for line in lines:
            self.take(line)

    def take(self, line):
        """What a line of `use` names: the names in braces, or the module by another name."""
        match = re.match(r"use Rattle\.([\w.]+?)(?:\.\{(.*)\}| as (\w+))?;?$", line)
        if match and match[2] is not None:
            for name in match[2].split(","):
                own, _, here = name.strip().partition(" as ")
                self.uses[here or own] = (match[1], own)
        elif match:
            self.opened[match[3] or match[1].rpartition(".")[2]] = match[1]

    def found(self, word):
        """Where a name that is used here is defined: the module and the name there, or None."""
        first, _, rest = word.partition(".")
        if first in self.blocks:
            return (self, first)
        if first in self.uses:
            return self.uses[first]
        if first in self.opened and rest:
            return (self.opened[first], rest)
        return None

    def definition(self, word):
        """The definition of this repository that a name is, as its module and its name there, or (None, None)."""
        at, name = self.found(word) or (None, None)
        there = module(at) if isinstance(at, str) else at
        return (there, name) if there and name in there.blocks else (None, None)

    def definitions(self, text):
        """Each definition of this repository that a text names, once, in order."""
        found = (self.definition(word) for word in dict.fromkeys(WORD.findall(text)))
        return [it for it in found if it[0]]

    def all_found(self, text):
        """Each definition that a text names, once, in order."""
        found = (self.found(word) for word in dict.fromkeys(WORD.findall(re.sub(r"--.*", "", text))))
        return [it for it in found if it]


class Module(Names):
    """The definitions of a file of specs/ or proofs/, by their names: the first line of each, and its text."""

    def __init__(self, crate, path):
        with open(f"{CRATES}/{crate}/{path}", encoding="utf-8") as file:
            self.lines = file.read().split("\n")
        super().__init__(crate, path, (line for line in self.lines if line.startswith("use ")))
        number = 0
        while number < len(self.lines):
            head = BEGUN.match(self.lines[number])
            if head:
                begun = end = number
                while begun and self.lines[begun - 1].lstrip().startswith("--"):
                    begun -= 1
                while end + 1 < len(self.lines) and self.lines[end + 1].strip():
                    end += 1
                self.blocks[head[1]] = (begun + 1, "\n".join(self.lines[begun : end + 1]))
                number = end
            number += 1


@functools.cache
def module(named):
    """The module of a name as `use` has it, if it is a file of this repository, else None."""
    crate, _, rest = named.partition(".")
    path = rest.replace(".", "/") + ".antt"
    written = rest.startswith(("specs.", "proofs.")) and not rest.startswith("specs.declared.")
    return Module(crate, path) if written and os.path.isfile(f"{CRATES}/{crate}/{path}") else None


def closure(begun, enters=lambda here, name: True, names=lambda text: text):
    """The definitions that these (module, name) lead to, in the order in which they are met: {(crate, path, name): (line, text)}, and
    the names that are not followed. One that is not to be entered is left out, and `names` leaves of a text what is followed."""
    found, outside, waiting = {}, set(), list(begun)
    while waiting:
        at, name = waiting.pop(0)
        here = at if isinstance(at, Module) else module(at)
        if here is None or name not in here.blocks:
            outside.add((at if isinstance(at, str) else f"{at.crate}.{at.path}", name))
            continue
        key = (here.crate, here.path, name)
        if key not in found and enters(here, name):
            found[key] = here.blocks[name]
            waiting += [it for it in here.all_found(names(here.blocks[name][1])) if it != (here, name)]
    return found, outside


def files_of(crate, kind, ending):
    """The files of a crate's src, specs or proofs, in order."""
    return sorted(os.path.relpath(it, f"{CRATES}/{crate}") for it in glob.glob(f"{CRATES}/{crate}/{kind}/**/*.{ending}", recursive=True))


def modules_of(crate, kind):
    """The modules of a crate's specs or proofs."""
    found = (module(f"{crate}.{path[: -len('.antt')].replace('/', '.')}") for path in files_of(crate, kind, "antt"))
    return [it for it in found if it]


@functools.cache
def code(crate, file):
    """The text of a file of code, and what the names of its clauses stand for."""
    with open(f"{CRATES}/{crate}/{file}", encoding="utf-8") as it:
        text = it.read()
    return text, Names(crate, file, re.findall(r"^\s*ghost (use .*)$", text, re.M))


@functools.cache
def plain(text):
    """A text without what its strings and comments hold."""
    return re.sub(r"--.*", "", re.sub(r'"(?:[^"\\]|\\.)*"', '""', text))


def parts(text, sign):
    """A text cut at each such sign that is in no bracket."""
    found, depth, begun = [], 0, 0
    for at, it in enumerate(text):
        depth += (it in "({[") - (it in ")}]")
        if it == sign and depth == 0:
            found.append(text[begun:at].strip())
            begun = at + 1
    return [*found, text[begun:].strip()]


@functools.cache
def signature(text):
    """The type of a definition, or None of a record or data type."""
    lines = [line.strip() for line in plain(text).split("\n") if line.strip()]
    if re.match(r"(pub )?(record|data) ", lines[0]):
        return None
    name = re.match(r"(?:abbrev|unfoldable) (?:pub )?(\w+)", lines[0])[1]
    end = next((at for at, line in enumerate(lines) if at and re.match(rf"{name}( |$)|unfolding ", line)), len(lines))
    return " ".join(lines[:end]).partition(" : ")[2]


@functools.cache
def is_type(text):
    """Whether a definition's values are types: a record, a data type, or a function to `Type`."""
    said = signature(text)
    return said is None or bool(re.match(r"Type\b", parts(said, "→")[-1]))


def equations_of(text):
    """The equations of a definition: of each the patterns, and the right side."""
    name = re.match(r"\s*(?:abbrev|unfoldable) (?:pub )?(\w+)", plain(text))[1]
    sides = (re.split(r" =\s", it, maxsplit=1) for it in re.split(rf"^\s*{name}(?= |$)", plain(text), flags=re.M)[1:])
    return [it for it in sides if len(it) == 2]


@functools.cache
def body(text):
    """The right sides of a definition, or the fields of a record, without words that name a variable or a field."""
    if signature(text) is None:
        front, _, fields = plain(text).partition(" where")
        return free(front, re.sub(r"^  pub \S+ :", "", fields, flags=re.M))
    return " ".join(free(*it) for it in equations_of(text))


def free(patterns, text):
    """A text without fields, and without the variables that it or these patterns bind."""
    bound = set(re.findall(r"\b[a-z]\w*", patterns)) | set(re.findall(r"\blet (\w+)", text))
    bound |= {name for names in re.findall(r"λ ([^.]*)\.", text) for name in names.split()}
    text = re.sub(r"\)(?:\.\w+)+|\b\w+ =(?!=)", ")", text)
    return re.sub(r"(?<![\w.])(\w+)(?:\.\w+)*", lambda it: " " if it[1] in bound else it[0], text)
