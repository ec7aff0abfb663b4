#!/usr/bin/env python3
"""Tries every must-fail edit (crates/NAME/must-fail/*.edit): the prover has to refuse the very function that the edit changes.

usage: edits.py [--until SECONDS] [--again SECONDS | --changed] [--times FILE] [--over FOLDER] [CRATE ...]

`rt must-fail NAME` tries each edit in a check of its own, most of which goes to reading libraries. Here edits of different
functions share a check of a copy of the crate, in which only the functions that edits change are proved, and what they call. The
prover judges a function by its own body and the contracts of what it calls, and doesn't look at one that calls what is not proved: an
edit that is hidden so is tried again without what hid it. An edit whose function passes beside others, and one that changes no
function, is tried alone: with the functions that name the one that it changes, and then with the whole crate. No check is begun once
the clock (seconds since 1970) is past --until: a line says how many edits were not tried then. The crates with the most edits come
first, one a lane, and of the others each day begins with another one, so that it is not always the same that are left. The last lines
name the edits that failed and count those that were tried.

That an edit was refused is kept on this machine, for every clone: with the day, and a digest of the edit, and of the code but tests and
the specs of its crate and of all below. With --changed an edit is passed over that stands so. With --again those that don't stand are
tried first, and then the others, those first that were refused longest ago, until the clock is past that second.

The libraries below a crate are those that `rt ci` or `rt lib` built of FOLDER/NAME (of this repository's crates/NAME, where none is
named). What a check kept of the crate itself is taken where it is there.
"""
import argparse
import concurrent.futures
import datetime
import hashlib
import os
import re
import shutil
import sys
import tempfile
import time

import rooms
from rooms import CRATES, TOP

# How many edits one lane takes of a crate, about, where there are more lanes than crates: each part proves anew what its edits'
# functions call, so that a lane takes a crate whole where it can.
PART = 24
# The edits that were refused on this machine, a line each: the day, and the digest.
REFUSED = os.path.join(os.environ.get("XDG_CACHE_HOME") or os.path.expanduser("~/.cache"), "vizdroun", "edits-refused")
# How many edits share a check at most, so that none takes too long.
MOST = 40
HEAD = re.compile(r"((?: {4})?)(?:pub(?:\(\w+\))? )?(?:const )?fn (\w+)")
OWNER = re.compile(r"(?:pub(?:\(\w+\))? )?(?:impl|trait)\b(?:<.*?>(?= ))?(?: .*? for)? \W*(\w+)")
# What the prover tells of a function, but where it tried no contract: where the borrow checker covers no such form.
TOLD = re.compile(r"^fn (\S+): (proved|not proved|no proof: it calls|no proof(?!.*the borrow checker does not cover))", re.M)

# How a check ends that reached the prover: whether the crate is proved, or how many of the functions asked for are.
END = re.compile(r"^(?:logic=(?:(proved)|not-proved)|only=(\d+) proved=(\d+)$)", re.M)


class Edit:
    """An edit: the file it changes, its pairs of texts, and the functions of which it changes lines, each with its type, if any."""

    def __init__(self, crate, path):
        self.crate, self.name = crate, os.path.basename(path)[: -len(".edit")]
        self.file, self.pairs, old = None, [], None
        with open(path, encoding="utf-8") as file:
            for line in file.read().split("\n"):
                key, _, text = line.partition(": ") if line != "new:" else ("new", "", "")
                if key == "file":
                    self.file = text.strip()
                elif key == "old":
                    old = text
                elif key == "new":
                    self.pairs.append((old, text))
        # (a pair that changes spaces alone is there so that the text of a later one stands once)
        text, self.functions = source(self), set()
        for old, new in self.pairs:
            if text.count(old) == 1 and old.split() != new.split():
                self.functions.add(function_at(text, text.index(old)))
            text = text.replace(old, new)

    def apply(self, text):
        """The text with the edit made, or None where a text of it doesn't stand there once."""
        for old, new in self.pairs:
            if text.count(old) != 1:
                return None
            text = text.replace(old, new)
        return text

    def digest(self, crates):
        """A digest of the edit and of what its proof rests on."""
        digest = hashlib.sha256(repr((self.crate, self.name, self.file, self.pairs)).encode())
        for crate in rooms.below(crates, [self.crate]):
            digest.update(rooms.definitions(crate).encode())
        return digest.hexdigest()

    def paths(self):
        """What `rt check --only` names its functions by."""
        return {path_of(self.file, *one) for one in self.functions - {None}}

    def names(self):
        return " and ".join(sorted(name for _, name in self.functions))

    def is_told(self, functions, *how):
        """Whether each function that it changes, or a closure in it, was told to be so."""
        return None not in self.functions and all(
            any(told in how and self.is_function(path, *one) for path, told in functions) for one in self.functions
        )

    def is_function(self, path, owner, name):
        """Whether a path in the prover's words is that of a function of this type, or of none in this file, or of a closure in it."""
        words = [it for it in path.split("::") if it != "fn"]
        if owner:
            return any(one.startswith(owner) and other == name for one, other in zip(words, words[1:]))
        modules = modules_of(self.file)
        return words[: 2 + len(modules)] == [self.crate, *modules, name]


def modules_of(file):
    """The names of the modules that a file's items are within."""
    return [it for it in file[len("src/") : -len(".rt")].split("/") if it not in ("lib", "main", "mod")]


def path_of(file, owner, name):
    """What `rt check --only` names a function by: a function by itself, a method by its type."""
    return "::".join([*modules_of(file), owner or name])


def source(edit):
    with open(f"{CRATES}/{edit.crate}/{edit.file}", encoding="utf-8") as file:
        return file.read()


def function_at(text, place):
    """The function whose lines hold this place, if one does: its type, if any, and its name."""
    lines, at = text.split("\n"), text.count("\n", 0, place)
    for first in range(at, -1, -1):
        head = HEAD.match(lines[first])
        if head:
            end = f"{head[1]}}}"
            if end in lines[first:at] or end not in lines[at:]:
                return None
            owners = [OWNER.match(line) for line in lines[:first]] if head[1] else []
            return next((owner[1] for owner in reversed(owners) if owner), None), head[2]
    return None


def groups_of(edits):
    """The edits in groups, each with the texts that it makes, in which no function is changed twice and each edit's texts stand
    once; an edit that changes no function is alone."""
    groups = []
    for edit in edits:
        for texts, functions, members in groups:
            if None in functions | edit.functions or any((edit.file, it) in functions for it in edit.functions):
                continue
            if len(members) == MOST:
                continue
            changed = edit.apply(texts.get(edit.file) or source(edit))
            if changed is not None:
                texts[edit.file] = changed
                functions.update((edit.file, it) for it in edit.functions)
                members.append(edit)
                break
        else:
            changed = edit.apply(source(edit))
            functions = {None} if None in edit.functions else {(edit.file, it) for it in edit.functions}
            groups.append(({edit.file: changed}, functions, [edit]))
    return [(texts, members) for texts, _, members in groups]


class Copy:
    """A room for a crate, over libraries that are built, with what earlier checks kept of it."""

    def __init__(self, crate, crates, room, libraries):
        self.folder = room
        for part in rooms.PARTS:
            if os.path.isdir(f"{CRATES}/{crate}/{part}"):
                shutil.copytree(f"{CRATES}/{crate}/{part}", f"{room}/{part}")
        os.makedirs(f"{room}/out")
        proofs = f"{CRATES}/{crate}/out/incremental"
        if os.path.isdir(proofs):
            shutil.copytree(proofs, f"{room}/out/incremental")
        self.words = rooms.prover_words("check", crate, crates, libraries)
        self.checks = self.used = self.mebibytes = 0

    def check(self, texts, paths):
        """Checks these functions, all where none is named, with these texts in place of the crate's own: what the prover told of each
        function, and all that was said."""
        self.checks += 1
        own = {}
        for file, text in texts.items():
            with open(f"{self.folder}/{file}", encoding="utf-8") as it:
                own[file] = it.read()
            with open(f"{self.folder}/{file}", "w", encoding="utf-8") as it:
                it.write(text)
        only = [word for path in sorted(paths) for word in ("--only", path)]
        # (a path that fits nothing, as a function's that a macro writes, ends with 2: then all are checked)
        for words in (only, []) if only else ([],):
            job = rooms.Job([*self.words, *words], self.folder, f"{self.folder}/out/edits.log")
            job.wait()
            self.used, self.mebibytes = self.used + job.used, max(self.mebibytes, job.mebibytes)
            if job.status != 2:
                break
        for file, text in own.items():
            with open(f"{self.folder}/{file}", "w", encoding="utf-8") as it:
                it.write(text)
        said = job.said()
        return TOLD.findall(said), said

    def naming(self, edit):
        """What `rt check --only` names the functions by that name one that the edit changes."""
        named = re.compile(rf"\b(?:{'|'.join(name for _, name in edit.functions - {None}) or '(?!)'})\b")
        files = [os.path.relpath(f"{at}/{it}", self.folder) for at, _, names in os.walk(f"{self.folder}/src") for it in names]
        found = set()
        for file in [it for it in files if "tests" not in modules_of(it)]:
            with open(f"{self.folder}/{file}", encoding="utf-8") as it:
                text = it.read()
            found |= {path_of(file, *one) for one in {function_at(text, it.start()) for it in named.finditer(text)} - {None}}
        return found


def refused_before():
    """The last day on which each edit was refused, by its digest."""
    try:
        with open(REFUSED, encoding="utf-8") as file:
            return {digest: day for day, digest in (line.split() for line in file if len(line.split()) == 2)}
    except OSError:
        return {}


def keep(digest):
    """Keeps that an edit was refused today. Where that can't be written, it is tried anew the next time."""
    try:
        os.makedirs(os.path.dirname(REFUSED), exist_ok=True)
        with open(REFUSED, "a", encoding="utf-8") as file:
            file.write(f"{datetime.date.today()} {digest}\n")
    except OSError:
        pass


class Tally:
    """What became of the edits of a crate, with a line for each that was tried."""

    def __init__(self, until, crates):
        self.copy, self.until, self.crates = None, until, crates
        self.refused = self.untried = 0
        self.failed = []

    def tell(self, edit, is_refused, text):
        print(f"must-fail {edit.crate}/{edit.name}: {text}", flush=True)
        if is_refused:
            keep(edit.digest(self.crates))
        self.refused += is_refused
        self.failed += [] if is_refused else [f"{edit.crate}/{edit.name} failed: {text}"]

    def is_over(self, count):
        """Whether the time is over, so that so many edits are not tried."""
        over = time.time() > self.until
        self.untried += count * over
        return over

    def try_all(self, edits):
        while edits:
            hidden = self.try_together(edits)
            if len(hidden) == len(edits):
                for edit in hidden:
                    self.try_alone(edit)
                return
            edits = hidden

    def try_together(self, edits):
        """Tries edits in groups, and gives those that others hid."""
        hidden = []
        for texts, members in groups_of(edits):
            if self.is_over(len(members)):
                continue
            functions, _ = self.copy.check(texts, set().union(*[edit.paths() for edit in members]))
            for edit in members:
                if edit.is_told(functions, "not proved", "no proof"):
                    self.tell(edit, True, f"refused in {edit.names()}")
                elif edit.is_told(functions, "not proved", "no proof", "no proof: it calls"):
                    hidden.append(edit)
                else:
                    self.try_alone(edit)
        return hidden

    def try_alone(self, edit):
        """Tries an edit in checks of its own, where any function may be the one that is refused: first of those near it, then of all."""
        near = edit.paths() | self.copy.naming(edit)
        for paths in (near, set()) if near else (set(),):
            if self.is_over(1):
                return
            functions, said = self.copy.check({edit.file: edit.apply(source(edit))}, paths)
            ended = END.search(said)
            if not ended:
                self.tell(edit, False, f"doesn't compile: {said[-300:]!r}")
                return
            if not (ended[1] or ended[2] and ended[2] == ended[3]):
                refused = [path for path, how in functions if how in ("not proved", "no proof")]
                where = f"in {refused[0]}" if refused else "but by no function's contract, so that it says little"
                self.tell(edit, True, f"refused, alone, {where}")
                return
        self.tell(edit, False, "NOT REFUSED: the crate is still proved with this edit")


def tried(crate, edits, crates, libraries, until, times):
    """Tries edits of a crate in a room of their own. Where the machine has no room for it, those that are left count as not tried."""
    begun, tally = time.time(), Tally(until, crates)
    built = [rooms.library(it, libraries) for it in rooms.below(crates, [crate]) if it != crate]
    if tally.is_over(len(edits)) or not all(map(os.path.exists, built)):
        tally.untried = len(edits)
        print(f"{crate}: {len(edits)} edits were not tried, for want of time or of a library that is built", flush=True)
        return tally
    with tempfile.TemporaryDirectory(prefix="edits-", dir=f"{TOP}/out", ignore_cleanup_errors=True) as room:
        try:
            tally.copy = Copy(crate, crates, room, libraries)
            lost = [edit for edit in edits if edit.apply(source(edit)) is None]
            for edit in lost:
                tally.tell(edit, False, "its text doesn't stand once in its file")
            tally.try_all([edit for edit in edits if edit not in lost])
            copy, seconds = tally.copy, time.time() - begun
            print(f"{crate}: {len(edits)} edits in {copy.checks} checks, {seconds:.0f} s, {copy.used:.0f} processor seconds", flush=True)
            rooms.note(times, "edits", crate, len(edits) - tally.untried, seconds, copy.used, copy.mebibytes)
        except OSError as error:
            tally.untried = len(edits) - tally.refused - len(tally.failed)
            print(f"{crate}: {tally.untried} of its {len(edits)} edits could not be tried: {str(error)[:300]}", flush=True)
    return tally


def edits_of(crate):
    """A crate's edits, those of one file together."""
    folder = f"{CRATES}/{crate}/must-fail"
    edits = [Edit(crate, f"{folder}/{name}") for name in sorted(os.listdir(folder)) if name.endswith(".edit")]
    return sorted(edits, key=lambda it: it.file)


def parts_of(edits, lanes):
    """A crate's edits in parts of about the same number, which are tried side by side in so many lanes."""
    count = max(1, min(lanes, round(len(edits) / PART)))
    size = max(1, -(-len(edits) // count))
    return [edits[at : at + size] for at in range(0, len(edits), size)]


def in_turn(edits, lanes, day):
    """The crates that have edits to be tried, in the order in which they are."""
    most = sorted((it for it in edits if edits[it]), key=lambda it: -len(edits[it]))
    first, others = most[:lanes], sorted(most[lanes:])
    at = day % max(len(others), 1)
    return [*first, *others[at:], *others[:at]]


def all_tried(edits, crates, asked, until):
    """Tries the edits of these crates, in their order, as many crates at once as there are processors: what became of each crate's."""
    lanes = rooms.processors()
    each = max(1, lanes // max(len(edits), 1))
    parts = [(it, part) for it in edits for part in parts_of(edits[it], each) if part]
    with concurrent.futures.ThreadPoolExecutor(lanes) as pool:
        begun = [pool.submit(tried, crate, part, crates, os.path.abspath(asked.over), until, asked.times) for crate, part in parts]
    return [run.result() for run in begun]


def main(words):
    asked = argparse.ArgumentParser(add_help=False)
    asked.add_argument("--until", type=float, default=float("inf"))
    asked.add_argument("--again", type=float)
    asked.add_argument("--times")
    asked.add_argument("--over", default=CRATES)
    asked.add_argument("--changed", action="store_true")
    asked.add_argument("crates", nargs="*")
    asked = asked.parse_args(words)
    crates = rooms.listed()
    with_edits = [it for it in crates if (not asked.crates or it in asked.crates) and os.path.isdir(f"{CRATES}/{it}/must-fail")]
    edits = {it: edits_of(it) for it in with_edits}
    before = refused_before() if asked.changed or asked.again is not None else {}
    days = {(it.crate, it.name): before.get(it.digest(crates)) for each in edits.values() for it in each}
    day_of = lambda it: days[it.crate, it.name]
    os.makedirs(f"{TOP}/out", exist_ok=True)
    new = {it: [edit for edit in edits[it] if not day_of(edit)] for it in edits}
    tallies = all_tried({it: new[it] for it in in_turn(new, rooms.processors(), int(time.time() / 86400))}, crates, asked, asked.until)
    never = sum(it.untried for it in tallies)
    standing = {it: sorted((edit for edit in edits[it] if day_of(edit)), key=day_of) for it in edits}
    oldest_first = sorted((it for it in standing if standing[it]), key=lambda it: day_of(standing[it][0]))
    if asked.again is not None and time.time() < asked.again:
        tallies += all_tried({it: standing[it] for it in oldest_first}, crates, asked, asked.again)
    refused, failed = sum(it.refused for it in tallies), sorted(why for it in tallies for why in it.failed)
    stand = sum(map(len, standing.values()))
    since = f", the oldest since {day_of(standing[oldest_first[0]][0])}" if stand else ""
    print(f"edits: {refused + len(failed)} tried now; {stand} were refused before as they are{since}; {never} were never tried as they are")
    print("\n".join(f"edits: {why}" for why in failed), end="\n" * bool(failed))
    print(f"{refused} passed, {len(failed)} failed")
    return 1 if failed or never and not refused else 0


if __name__ == "__main__":
    sys.exit(main(sys.argv[1:]))
