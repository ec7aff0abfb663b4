"""What the tests of crates compare: the definitions of which a clause says that they are what a call returned or left, where a test calls it.

A clause says so by an equation: one side is `result`, `self.new` or the like, and the other side a definition with its arguments. The
equation may be within `IfOk` and other such words, in the fields of a record, or in another statement, which is then looked up with what
it is given. A side that is more than one definition, as `f a ++ g b`, is made by each.
"""
import collections
import functools
import itertools
import re

import edited
import edits
import rooms
from modules import WORD, body, closure, code, equations_of, files_of, free, is_type, parts, plain, signature

WITHIN = re.compile(r"(?:If|On|For)(?:Ok|Err|Some|None)$")
# What a variable of a statement is that names what a call returned or left.
RESULT = object()
# Words of the kit that give the content of a type of the code.
VIEWS = ("option_copied", "map", "view", "contents", "W.contents", "string_bytes", "arc_value", "option_to_list", "path_buf_bytes")
CALLED = re.compile(r"\b(\w+)(?:::<[^>]*>)?\(")
# Names of methods that types of the standard library have too: a call counts only if its type is seen.
COMMON = set("new len get get_mut push pop next take clone eq cmp read write flush fmt is_empty iter from into with find split insert remove run send join".split())


def is_made_of(text, names, known, is_it):
    """Whether a text is made of such words alone, and of constructors and of definitions that they are given to."""
    words = [it for it in re.findall(r"[\w.]+", text) if it[0].islower()]
    those = [it for it in words if is_it(it)]
    return bool(those) and all(it in those or it not in known and ((names.definition(it)[0] or it in VIEWS)) for it in words)


def is_result(text, names, known):
    """Whether a side of an equation is what a call returned or left."""
    alone = "++" not in text and "∷" not in text
    return alone and is_made_of(text, names, known, lambda it: re.match(r"result\b|\w+\.new\b", it) or known.get(it.partition(".")[0]) is RESULT)


def is_old(text, names, known):
    """Whether a text is what there was before a call."""

    def is_it(word):
        given = known.get(word.partition(".")[0])
        return re.match(r"\w+\.old\b", word) or given and given is not RESULT and is_old(*given)

    return is_made_of(text, names, known, is_it)


def exact(text, names, known, within=()):
    """The definitions of which a statement says that they are what a call returned or left. What it says by another statement is looked up
    there. `known` has what each variable is: RESULT, or a text with the names and variables of it. What is said to exist is a result."""
    text = without_brackets(" ".join(text.split()))
    if text.startswith("let ") and " in " in text:
        text = text.rpartition(" in ")[2]
    said = parts(text, "→")[-1]
    both, sides, atoms = parts(said, "×"), parts(said, "≡"), arguments(said)
    if said != text or len(both) > 1:
        there_is = {it: RESULT for one in both[:-1] for it in re.findall(r"^\((\w+) : ", one)}
        for one in both:
            yield from exact(one, names, known | there_is, within)
    elif len(sides) == 2:
        for side, other in (sides, sides[::-1]):
            if is_result(side, names, known):
                yield from head(other, names, known)
    elif atoms[0] == "Appends":
        # (the kit's: these bytes were written)
        yield from head(atoms[-1], names, known)
    elif WITHIN.match(atoms[0]) and len(atoms) == 3:
        value, inner = re.match(r"(?:λ ([^.]*)\. )?(.*)", without_brackets(atoms[2])).groups()
        bound = RESULT if is_result(atoms[1], names, known) else (atoms[1], names, known)
        if value is None and atoms[0].startswith("If") and atoms[0] != "IfNone":
            value, inner = "found", f"{inner} found"
        yield from exact(inner, names, known | {it: bound for it in (value or "").split()}, within)
    elif isinstance(known.get(atoms[0]), tuple):
        # (a statement that another one was given: with what it is given there, where what is said to exist is an argument and no result)
        inner, there, own = known[atoms[0]]
        value, inner = re.match(r"(?:λ ([^.]*)\. )?(.*)", without_brackets(inner)).groups()
        given = [("", names, known) if known.get(it) is RESULT else (it, names, known) for it in atoms[1:]]
        words = value.split() if value else [f"given_{n}" for n in range(len(given))]
        yield from exact(inner if value else " ".join([inner, *words]), there, own | dict(zip(words, given)), within)
    else:
        yield from by_statement(atoms, names, known, within)


def by_statement(atoms, names, known, within):
    """The same of a statement that is a definition with its arguments."""
    there, name = names.definition(atoms[0])
    if not there or (there, name) in within:
        return
    text = plain(there.blocks[name][1])
    given = [RESULT if is_result(it, names, known) else (it, names, known) for it in atoms[1:]]
    if signature(text) is None:
        front, _, fields = text.partition(" where")
        variables = [it for group in re.findall(r"[({]([^:(){}]*) : ", front) for it in group.split()]
        implicit = [it for group in re.findall(r"\{([^:{}]*) : ", front) for it in group.split()]
        own = dict(zip((it for it in variables if it not in implicit), given))
        for field, said in re.findall(r"\n  pub ([\w-]+) : (.*?)(?=\n  pub |\Z)", fields, re.S):
            yield from exact(said, there, own, (*within, (there, name)))
            own[field] = RESULT
    elif is_type(text):
        for patterns, said in equations_of(text):
            own = {it: one for pattern, one in zip(arguments(patterns), given) for it in re.findall(r"\b[a-z]\w*", pattern)}
            yield from exact(said, there, own, (*within, (there, name)))


def without_brackets(text):
    """A text without brackets round all of it."""
    while text.startswith("(") and is_closed_at_end(text) and len(parts(text[1:-1], ",")) == 1:
        text = text[1:-1].strip()
    return text


def is_closed_at_end(text):
    """Whether the bracket that begins a text closes at its end."""
    depths = list(itertools.accumulate((it in "({[") - (it in ")}]") for it in text))
    return depths.index(0) == len(text) - 1 if 0 in depths else False


def arguments(text):
    """The words of an application, each in its brackets."""
    return [it for it in parts(text.strip(), " ") if it] or [""]


def head(text, names, known):
    """The definitions that a value is made by, and of each whether it is the one whose value it is, or that of a field."""
    text = without_brackets(text.strip())
    joined = [it for it in parts(text.replace("++", "⧺"), "⧺") if not is_old(it, names, known)]
    text = without_brackets(joined[0]) if len(joined) == 1 else text
    fields = re.fullmatch(r"record (?:[\w.]+ )?\{(.*)\}", text)
    if fields or text.startswith("(") and len(parts(text[1:-1], ",")) > 1:
        for one in parts(fields[1], ";") if fields else parts(text[1:-1], ","):
            yield from head(one.partition(" = ")[2] if fields else one, names, known)
        return
    first = re.match(r"(?:(?:Some|Ok|Err|map) )*\(*([a-z][\w.]*)", text)
    is_whole = first and not any(len(parts(text, sign)) > 1 for sign in "+∷×&|=<≤-⧺")
    for word in dict.fromkeys(WORD.findall(free("", text))):
        given = known.get(word.partition(".")[0])
        is_head = bool(is_whole) and first[1] == word
        if given and given is not RESULT:
            yield from ((one, is_head and at_head) for one, at_head in head(*given))
        elif not given and names.definition(word)[0]:
            yield names.definition(word), is_head


class Test:
    """A test: its file, the text of it and of all functions of the tests that it calls, and what the tests of its crate import."""

    def __init__(self, crate, path, name, helpers, uses):
        self.crate, self.path, self.own, self.uses, waiting = crate, path, set(), uses, [name]
        while waiting:
            one = waiting.pop()
            if one not in self.own:
                self.own.add(one)
                waiting += [it for it in CALLED.findall(helpers[one]) if it in helpers]
        self.text = "\n".join(helpers[it] for it in sorted(self.own))
        self.called = set(CALLED.findall(self.text))


@functools.cache
def tests(crate):
    """The tests of a crate that have an assertion."""
    helpers, marked, uses = {}, [], ""
    for file in files_of(crate, "src", "rt"):
        text = code(crate, file)[0]
        if "tests" not in edits.modules_of(file):
            text = text.partition("\nmod tests {\n")[2]
        uses += "".join(re.findall(r"^ *use [^;]*;\n", text, re.M))
        for match in re.finditer(r"(#\[test\]\n)?^( *)(?:pub(?:\(\w+\))? )?fn (\w+)", text, re.M):
            helpers[match[3]] = helpers.get(match[3], "") + text[match.start() :].partition(f"\n{match[2]}}}\n")[0]
            marked += [(f"{crate}/{file}", match[3])] if match[1] else []
    found = (Test(crate, path, name, helpers, uses) for path, name in marked)
    return [it for it in found if "assert" in it.text]


def calls(test, crate, file, owner, name, is_alone):
    """Whether a test calls this function: one that it imports, a method by its type or on a value of its type, or by a name that no other
    method has."""
    if name not in test.called:
        return False
    if owner is None:
        modules = edits.modules_of(file)
        place = rf"\b{'crate' if crate == test.crate else crate}::[^;]*\b{'' if is_alone or not modules else modules[-1] + '::'}(?:\{{[^;]*)?\b{name}\b"
        imports = re.search(place, test.uses) or crate == test.crate and is_alone and "super::*" in test.uses
        by_module = modules and re.search(rf"\b{modules[-1]}::{name}\(", test.text)
        return bool(by_module or imports and name not in test.own and re.search(rf"(?<![.\w:]){name}(?:::<[^>]*>)?\(", test.text))
    if re.search(rf"\b{owner}(?:::<[^>]*>)?::{name}\(", test.text):
        return True
    values = re.findall(rf"\b(\w+): &?(?:mut )?{owner}\b|\b(\w+) = {owner}(?:::<[^>]*>)?::\w+\(", test.text)
    named = is_alone and name not in COMMON and name not in test.own
    return any(re.search(rf"\b{one or other}\.{name}\(", test.text) for one, other in values) or named and f".{name}(" in test.text


class Said:
    """What clauses say of the functions of all crates: the definitions that tests compare, those that such are made by, each with a test
    and the function that it calls, and all that functions return or leave, or make it by."""

    def __init__(self, crates):
        self.compared, self.within, self.returned = {}, {}, set()
        functions = [(crate, *it) for crate in crates for it in edited.functions(crate)]
        alone = collections.Counter(name if owner else (crate, name) for crate, _, owner, name, *_ in functions)
        above = {crate: rooms.above(rooms.listed(), crate) for crate in crates}
        for crate, file, owner, name, _, clauses, has_body in functions:
            names = code(crate, file)[1]
            said = [it for clause in clauses if clause.startswith("ensures") for it in exact(clause.partition("{")[2].rpartition("}")[0], names, {})]
            if said and has_body:
                is_alone = alone[name if owner else (crate, name)] == 1
                test = next((it for at in above[crate] for it in tests(at) if calls(it, crate, file, owner, name, is_alone)), None)
                self.take(said, f"{test.path}: {owner or crate}::{name}" if test else None)

    def take(self, said, where):
        for (there, name), is_head in said:
            made_by = closure([(there, name)], lambda at, one: not is_type(at.blocks[one][1]), body)[0]
            self.returned.update(made_by)
            for key in made_by if where else []:
                self.within.setdefault(key, where)
            if where and is_head:
                self.compared.setdefault((there.crate, there.path, name), where)
