#!/usr/bin/env python3
"""Looks that each definition that a public clause leads to and that yields a value is computed, or has a row of docs/COMPUTED.md that says
why it is not.

usage: computed.py [--check] [CRATE ...]

The page gets its table of counts anew; with --check nothing is written, and a table that is not as it is made is a fault. With crates a line
says of each of their definitions how it is computed. Further lines say which definitions are neither computed nor in a row, and which rows
are of no such definition or give a reason that the code contradicts. The last line counts.

A clause is of a function that is public as gate/edited.py has it, of a law, or a `ghost` line of a type or trait. What it cites leads to
other definitions. One whose values are types is a proposition or a type, and yields no value.

A definition is computed by example if an equation without variables that a proof shows by `refl` leads to it. The bodies of what the
equation names are followed, but for one that is `unfoldable` and that the proof's `unfolding` leaves out: the proof does without it. Nor
is a case followed whose constructors nothing makes that was reached. It is computed by test as gate/compared.py has it.
"""
import collections
import functools
import os
import re
import sys

import edited
import edits
import rooms
from compared import Said
from modules import Names, body, closure, code, equations_of, files_of, free, is_type, modules_of, parts, plain, signature
from rooms import TOP

PAGE = "docs/COMPUTED.md"
BEGIN, END = "<!-- counts -->\n", "<!-- as far as here -->\n"
# A row: the crate, definitions of it, each with its file where two have its name, and the reason.
ROW = re.compile(r"^\| (av\w+) \| (`.*`) \| (.+) \|$", re.M)
KINDS = ("Inside", "Law", "Programs", "Statement", "View", "Worked")
COLUMNS = {"proposition": "Propositions", "record": "Records and enumerations", "part": "Parts", "example": "By example",
           "test": "By test", "within": "Within one by test", "row": "With a row"}
# A lemma at the margin of a file of proofs: its name, its statement, what it unfolds, and its proof.
LEMMA = re.compile(r"^(?:pub )?([\w-]+) : (.*\n(?: .*\n)*)(?:unfolding (.*)\n)?\1 (?:c )?=((?: .*)?\n(?:(?: .*|\})\n)*)", re.M)
# A proof that unfolds its statement to equations and comparisons of numbers, and computes each.
PROOF = re.compile(r"(?:refl|tt|lit≤|inl|inr|record|\w+ =|[\s(){},;])+")


def cited(crate):
    """The (module, name) that public clauses of a crate cite."""
    found = []
    for file, owner, _, is_public, clauses, has_body in edited.functions(crate):
        text, names = code(crate, file)
        if is_public or not has_body or re.search(rf"^pub trait {owner}\b", text, re.M):
            found += names.all_found(" ".join(clauses))
    for file in files_of(crate, "src", "rt"):
        if "tests" not in edits.modules_of(file):
            text, names = code(crate, file)
            for line in re.findall(r"^    (?:pub )?ghost \w+(?: =|:) (\{.*?\}[;,])$", text, re.M | re.S):
                found += names.all_found(line)
    return found


def by_law(crates):
    """The laws that lead to each definition."""
    found = collections.defaultdict(set)
    for crate in crates:
        for file, _, name, _, clauses, has_body in edited.functions(crate):
            for key in closure(code(crate, file)[1].all_found(" ".join(clauses)))[0] if not has_body else ():
                found[key].add(name)
    return found


@functools.cache
def opened(here, names):
    """The definitions that these names of an `unfolding` let a proof unfold."""
    found = set()
    for there, name in map(here.definition, names.split()):
        if there:
            found.add((there.crate, there.path, name))
            within = re.search(r"^\s*unfolding (.*)$", there.blocks[name][1], re.M)
            found |= opened(there, within[1]) if within else set()
    return found


def equations(crate):
    """The equations without variables that a crate proves by `refl`: the file whose names each has, its text, and what its proof unfolds.
    One that a lemma writes out is worked for its own sake only in a file RowLemmas; elsewhere it is a step of another proof."""
    for here in modules_of(crate, "proofs"):
        for name, said, unfolding, proof in LEMMA.findall(plain("\n".join(here.lines))):
            said, proof = " ".join(said.split()), " ".join(proof.split())
            if "≡" in said and not here.path.endswith("RowLemmas.antt"):
                continue
            where, said = (here, said) if said != "goal.returns" else of_law(crate, here.path)
            for at, equation in proved(where, said, proof):
                yield at, equation, opened(here, unfolding)


def of_law(crate, path):
    """What the law says that a file of proofs is of."""
    for file, _, name, _, clauses, has_body in edited.functions(crate):
        if not has_body and path == f"proofs/{'/'.join(edits.modules_of(file))}/{name}/Answers.antt" and len(clauses) == 1:
            return code(crate, file)[1], clauses[0].partition("{")[2].rpartition("}")[0].strip()
    return Names(crate, path), ""


def proved(here, said, proof):
    """The equations of a statement that a proof shows by `refl`, each with the file whose names it has. A statement is taken whole if its
    proof is `refl` and trivial parts alone, and else, if it is a record, field by field."""
    if PROOF.fullmatch(proof) and "refl" in proof and len(parts(said, "→")) == 1:
        yield here, said
    elif proof.startswith("record {"):
        there, name = here.definition(said)
        text = plain(there.blocks[name][1]) if there else ""
        given = dict(it.split(" = ", 1) for it in parts(proof[len("record {") : -1], ";") if " = " in it)
        fields = re.split(r"\bwhere\b|\brecord \{", text, maxsplit=1)[-1]
        for field, of_field in re.findall(r"(?:^  pub |^ +)([\w-]+) : (.*?)(?=;|\n  pub |\s*\Z)", fields, re.M | re.S):
            yield from proved(there, " ".join(of_field.split()), given.get(field, ""))


def reached(here, said, unfolds):
    """The definitions that computing an equation leads to. A case of one is followed only once each constructor of its patterns was made."""
    found, made, cases = set(), set(), [(here, set(), free("", said))]
    while True:
        case = next((it for it in cases if it[1] <= made), None)
        if case is None:
            return found
        cases.remove(case)
        made |= constructors(case[2])
        for there, name in case[0].definitions(case[2]):
            key, text = (there.crate, there.path, name), there.blocks[name][1]
            is_shut = re.search(r"^\s*unfoldable ", text, re.M) and key not in unfolds
            if key not in found and not is_shut and not re.search(r"^\s*(?:pub )?data ", text, re.M):
                found.add(key)
                of_it = [("", body(text))] if signature(text) is None else equations_of(text)
                cases += [(there, constructors(patterns), free(patterns, right)) for patterns, right in of_it]


def constructors(text):
    """The names of constructors in a text, but for those of the kit that its functions make too."""
    return {it.rpartition(".")[2] for it in re.findall(r"(?:\w+\.)*[A-Z]\w*", text)} - {"Some", "None", "Ok", "Err", "Less", "Equal", "Greater"}


def by_example(crates):
    """The definitions that worked examples of these crates compute, each with the file of an equation that leads to it."""
    found = {}
    for here, said, unfolds in (it for crate in crates for it in equations(crate)):
        for key in reached(here, said, unfolds):
            found.setdefault(key, f"{here.crate}/{here.path}")
    return found


def is_part(text):
    """Whether a definition but names a part of what it is given."""
    sides = equations_of(text)
    return bool(sides) and all(re.fullmatch(r"[a-z]\w*(\.\w+)*", it.strip()) and not free(patterns, it).strip() for patterns, it in sides)


class Counts:
    """How the definitions that public clauses of all crates lead to are computed."""

    def __init__(self, crates):
        self.found = closure([it for crate in crates for it in cited(crate)])[0]
        self.said, self.laws = Said(crates), by_law(crates)
        self.where = {"example": by_example(crates), "test": self.said.compared, "within": self.said.within}

    def how(self, key):
        """The column of the page in which a definition is counted, and where it is computed."""
        text = self.found[key][1]
        if is_type(text):
            return "record" if signature(text) is None else "proposition", ""
        computed = next(((name, where[key]) for name, where in self.where.items() if key in where), None)
        return computed or ("part" if is_part(text) else "row", "")

    def wrong(self, key, why):
        """What is wrong with a reason of this definition, or nothing."""
        kind, _, rest = why.partition(": ")
        laws = {name for names in self.laws.values() for name in names}
        named = laws.intersection(re.findall(r"`(\w+)`", rest))
        if self.how(key)[0] != "row":
            return f"needs no row: {' '.join(self.how(key))}"
        if kind not in KINDS:
            return f"has no kind of reason: {kind}"
        if kind == "Law" and not named & self.laws[key]:
            return f"is in no law that its row names, but in {sorted(self.laws[key])}"
        scripts = re.findall(r"\btests/\w+\.py", rest)
        if kind == "Programs" and not (scripts and all(os.path.isfile(f"{TOP}/{it}") for it in scripts)):
            return "has a row that names no script of tests/, or one that is not there"
        if (kind in ("Inside", "Programs")) != (key in self.said.returned):
            return "is returned by a function" if key in self.said.returned else "is returned by no function"
        return ""


def rows():
    """The crate and name of each definition that the page lists, and the reason."""
    with open(f"{TOP}/{PAGE}", encoding="utf-8") as file:
        found = ROW.findall(file.read())
    return [(crate, name, why) for crate, names, why in found for name in re.findall(r"`([^`]+)`", names)]


def compared(counts, listed):
    """How many definitions are computed or in a row, and what is wrong."""
    wants, told, given = collections.defaultdict(list), [], set()
    for crate, path, name in counts.found:
        wants[crate, name].append((crate, path, name))
        wants[crate, f"{os.path.basename(path)[: -len('.antt')]}.{name}"].append((crate, path, name))
    for crate, name, why in listed:
        those = wants[crate, name]
        if len(those) != 1 or those[0] in given:
            told.append(f"{PAGE}: {crate} has {len(those)} definitions {name} that a clause leads to, in one row each")
        elif counts.wrong(those[0], why):
            told.append(f"{PAGE}: {crate}, {name} {counts.wrong(those[0], why)}")
        given.update(those)
    left = [key for key in counts.found if counts.how(key)[0] == "row" and key not in given]
    told += [f"{crate}: {path}: neither an example nor a test computes {name}, and {PAGE} has no row for it" for crate, path, name in left]
    return len(counts.found) - len(left), told


def table(counts, crates):
    """The table of the page."""
    lines = []
    for crate in crates:
        hows = collections.Counter(counts.how(key)[0] for key in counts.found if key[0] == crate)
        if hows:
            lines.append([crate, sum(hows.values()), *(hows[it] for it in COLUMNS)])
    lines.append(["all", *(sum(column) for column in list(zip(*lines))[1:])])
    head = f"| Crate | Definitions | {' | '.join(COLUMNS.values())} |\n|---|" + "---:|" * (len(COLUMNS) + 1)
    return "\n" + "\n".join([head, *("| " + " | ".join(map(str, it)) + " |" for it in lines)]) + "\n\n"


def main(words):
    crates = list(rooms.listed())
    counts = Counts(crates)
    for key in counts.found:
        if key[0] in words:
            print(f"{key[0]}/{key[1]}: {key[2]}: {' '.join(counts.how(key))}")
    passed, told = compared(counts, rows())
    with open(f"{TOP}/{PAGE}", encoding="utf-8") as file:
        before, _, rest = file.read().partition(BEGIN)
    made, (old, _, after) = table(counts, crates), rest.partition(END)
    if "--check" not in words:
        with open(f"{TOP}/{PAGE}", "w", encoding="utf-8") as file:
            file.write(before + BEGIN + made + END + after)
    elif old != made:
        told.append(f"{PAGE}: the table of counts is not as it is made")
    print("\n".join([*told, f"{passed} passed, {len(told)} failed"]))
    return 1 if told else 0


if __name__ == "__main__":
    sys.exit(main(sys.argv[1:]))
