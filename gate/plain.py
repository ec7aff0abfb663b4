#!/usr/bin/env python3
"""Checks that the pages are in plain English: short sentences, no phrase of a known list, lines of at most 100 columns.

usage: plain.py [--counts] [PAGE..]

A unit is a paragraph, a list item, a heading or a table cell. Sentences end within a unit, and a unit ends its sentence. Code blocks
don't count, a code span counts as one word. In a table cell a label of a clause (`ok`: ..) begins a sentence too, since a cell has no
list. The mean is that of paragraphs and list items; the longest sentence may be in a cell. With --counts each page has a line of its
counts. The last line says how many checks passed and failed, of four a page."""
import glob
import os
import re
import sys

ROOT = os.path.dirname(os.path.dirname(os.path.abspath(__file__)))
PAGES = ("README.md", "docs/*.md", "crates/*/README.md", "bench/*.md", "gate/README.md", "tests/README.md", "examples/*.md", "examples/*/README.md")
MEAN, LONGEST, LONG, COLUMNS = 16, 35, 25, 100
# What not to write, and what to write in its place. Code, quotes and comments may have it.
PHRASES = (
    (r"\bbehind\b(?! (?:(?:a|an|its|one|the|this|that|each) )?(?:\w+ )?(?:locks?|ports?|sockets?)\b)", "after, below"),
    (r"\b(?:stands?|stood|standing)\b(?! (?:by|for)\b)", "is, depends on"),
    (r"(?:^|(?<=[.;:] ))Where\b(?=[^?]*,)", "if, when"),
    (r"\b(?:only|exactly|but|except|even|also) where\b", "if, when"),
    (r"\bwhere (?:there|nothing|nobody|no|none|memory|anything|it isn't|it is not|they are|one is|that is)\b", "if, when"),
    (r"\b(?:is|are|was|were|be|been) told\b", "gets, is reported"),
    (r"\btells?\b", "reports, prints, shows"),
    (r"\b(?:[Ff]ilter|[Ss]ervice|[Gg]uard|[Hh]ost|[Pp]rogram|[Cc]lient|[Dd]esk|[Gg]ate)s? (?:then )?says?\b", "reports, prints, sends"),
    (r"\bwant of memory\b", "out of memory"),
    (r"\b(?:let|lets|letting) go\b", "drops, is freed"),
    (r"\bhand(?:s|ed|ing)? (?:over|back|on|in|out|it|them)\b", "passes, returns"),
    (r"\b[Ww]hoever\b|\bwho (?:asks|opens|waits|comes|ends|holds|takes)\b", "a client, a caller"),
    (r"\bthose (?:that|which)\b", "name them"),
    (r"\bsome [0-9]", "about N"),
    (r"\b(?:wrong|planted) bod(?:y|ies)\b", "mutant"),
    (r"\bedits? that must fail\b", "must-fail edit"),
    (r"\bpremises?\b|\b(?:is|are) asked for\b", "assumption, is assumed"),
    (r"\bthe (?:same|like) of\b", "also"),
    (r"\brooms\b|\bhouse\b", "modules, layout"),
    (r"\b[Ll]ooks? before\b", "polls before blocking"),
    (r"\bowed\b", "has an unanswered request"),
    (r"\bby turns\b", "in turn"),
    (r"\bset that came\b", "newly published set"),
    (r"\bmeans to\b|\b(?:is|are) to (?!the\b|a\b|an\b|its\b|their\b|each\b|one\b|this\b|that\b|`)[a-z]+", "will, must"),
)
FENCE, TABLE, ITEM, HEADING = re.compile(r"\s*```"), re.compile(r"\s*\|"), re.compile(r"^(\s*)(?:[-*]|\d+\.)\s+"), re.compile(r"^#+\s+")


def without_comments(text):
    """The text with comments blank, so that lines keep their numbers."""
    return re.sub(r"<!--.*?-->", lambda found: "\n" * found[0].count("\n"), text, flags=re.S)


def units(text):
    """What is read as one: its kind, its first line and its text."""
    kind, first, words, fenced, blank, indented = None, 0, [], False, True, False
    for at, line in enumerate(without_comments(text).split("\n"), 1):
        if FENCE.match(line):
            fenced = not fenced
            line = ""
        elif fenced:
            continue
        indented = line.startswith("    ") and (blank and kind is None or indented)
        starts = HEADING.match(line) or ITEM.match(line) or TABLE.match(line)
        if words and (not line.strip() or starts):
            yield kind, first, " ".join(words)
            kind, words = None, []
        blank = not line.strip()
        if blank or indented:
            continue
        if TABLE.match(line):
            for cell in re.split(r"(?<!\\)\|", line.strip().strip("|")):
                if cell.strip() and not re.fullmatch(r"\s*:?-+:?\s*", cell):
                    yield "cell", at, cell.strip()
        elif HEADING.match(line):
            yield "heading", at, HEADING.sub("", line, count=1)
        else:
            kind, first = (kind, first) if words else ("item" if ITEM.match(line) else "prose", at)
            words.append(ITEM.sub("", line, count=1).strip() if not words else line.strip())
    if words:
        yield kind, first, " ".join(words)


def read(unit):
    """A unit as it is read: a code span is one word, a link its text."""
    unit = re.sub(r"(`+).+?\1", "Code", unit)
    unit = re.sub(r"!?\[([^\]]*)\]\([^)]*\)", r"\1", unit)
    return unit.replace("*", "")


def sentences(kind, unit):
    text = read(unit)
    if kind == "cell":
        text = re.sub(r"; (?=Code(?:, Code)*(?: and Code)?:)", ". ", text)
    text = re.sub(r"\b(e\.g|i\.e|etc|vs)\.", r"\1", text)
    return [it for it in re.split(r"(?<=[.?!])[\"')]*\s+(?=[\"'(]?(?:[A-Z0-9]|[a-z]+[/_]))", text) if it.strip()]


def count(sentence):
    return len([word for word in sentence.split() if re.search(r"\w", word)])


class Page:
    def __init__(self, path):
        self.path = path
        with open(os.path.join(ROOT, path), encoding="utf-8") as file:
            self.text = file.read()
        self.units = list(units(self.text))
        self.sentences = [(kind, at, it, count(it)) for kind, at, unit in self.units for it in sentences(kind, unit)]
        self.prose = [words for kind, _, _, words in self.sentences if kind in ("prose", "item")]
        self.words = sum(words for _, _, _, words in self.sentences)
        self.mean = sum(self.prose) / max(1, len(self.prose))
        self.longest = max((words for _, _, _, words in self.sentences), default=0)
        self.long = sum(words > LONG for _, _, _, words in self.sentences)

    def too_long(self):
        return [f"{self.path}:{at}: {words} words: {it}" for _, at, it, words in self.sentences if words > LONGEST]

    def phrases(self):
        for kind, at, unit in self.units:
            for sentence in sentences(kind, re.sub(r"\"[^\"]*\"", "Quote", unit)):
                for phrase, better in PHRASES:
                    for found in re.finditer(phrase, sentence):
                        yield f"{self.path}:{at}: not `{found[0]}` ({better}): {sentence}"

    def wide(self):
        fenced = False
        for at, line in enumerate(without_comments(self.text).split("\n"), 1):
            if FENCE.match(line):
                fenced = not fenced
            elif not fenced and len(line) > COLUMNS and not TABLE.match(line) and not line.startswith("    "):
                yield f"{self.path}:{at}: {len(line)} columns"


def main(words):
    counts = "--counts" in words
    named = [it for it in words if not it.startswith("-")]
    found = [os.path.relpath(path, ROOT) for pattern in PAGES for path in glob.glob(os.path.join(ROOT, pattern))]
    pages = [Page(path) for path in named or sorted(found)]
    passed = failed = 0
    for page in pages:
        if counts:
            print(f"{page.path}: {page.words:,} words, {len(page.sentences)} sentences, mean {page.mean:.1f}, longest {page.longest}, {page.long} above {LONG}")
        mean = [f"{page.path}: {page.mean:.1f} words a sentence"] if page.mean > MEAN else []
        for faults in (mean, page.too_long(), list(page.phrases()), list(page.wide())):
            print("".join(f"{fault}\n" for fault in faults), end="")
            passed, failed = passed + (not faults), failed + bool(faults)
    if counts:
        print(f"all: {sum(page.words for page in pages):,} words, {sum(page.long for page in pages)} sentences above {LONG}")
    print(f"{passed} passed, {failed} failed")
    return int(failed > 0)


if __name__ == "__main__":
    sys.exit(main(sys.argv[1:]))
