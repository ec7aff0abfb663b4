#!/usr/bin/env python3
"""A value that must be spent can't be let go, nor used twice: code that does so isn't compiled.

usage: must_be_spent.py [CRATE ...]

For each case of the named crates (all, without a name) a copy of the crate gets a function, and `rt try`, which compiles a crate's tests
without proving, has to refuse it with the error of the case. The last line counts the cases.
"""
import os
import re
import sys
import tempfile

import rooms
from rooms import TOP

# Of each crate: the module of a type that must be spent, and the type.
SPENT = {
    "av_pend": [("pended_open", "PendedOpen")],
    "av_context": [("context_ref", "ContextRef")],
    "av_filter_table": [("filter_table", "FilterTable")],
    "av_filter": [("filter", "Filter"), ("mounted", "Mounted")],
    "av_service": [("work", "Work"), ("done", "Done"), ("out", "ServiceOut")],
    "av_gate": [("gate", "Gate")],
    "av_desk": [("lent", "Lent"), ("lent", "Taken")],
    "av_pool": [("pool", "Pool"), ("stopped", "Stopped")],
    # of av_world, in a crate that has tests
    "av_script": [("run_script", "World")],
}
LET_GO = "\npub fn let_go_%s(value: %s) {\n    let _left = value;\n}\n"

# The same of a type of which one call more would answer twice.
ONCE = {
    "av_pend": ("pended_open", "PendedOpen"),
    "av_context": ("context_ref", "ContextRef"),
    "av_service": ("done", "Done"),
    "av_pool": ("ran", "Ran"),
}
USED_TWICE = "\npub fn use_twice(value: %s) -> (%s, %s) {\n    (value, value)\n}\n"


def cases():
    """The rooms that are tried: (CRATE, NUMBER), and for each the code, by modules, and what has to be said, with the case in words."""
    found = {}
    for crate, types in SPENT.items():
        code = [(module, LET_GO % (name, name)) for module, name in types]
        said = [(rf"linear-value-let-go.*`{name}` is not `Drop`", f"a {name} that is let go") for _, name in types]
        found[crate, 0] = code, said
    for crate, (module, name) in ONCE.items():
        found[crate, 1] = [(module, USED_TWICE % (name, name, name))], [(r"use of moved value: `value`", f"a {name} that is used twice")]
    return found


def main(words):
    crates, passed, failed = rooms.listed(), 0, 0
    tried = {key: case for key, case in cases().items() if not words or key[0] in words}
    os.makedirs(f"{TOP}/out", exist_ok=True)
    with tempfile.TemporaryDirectory(prefix="spent-", dir=f"{TOP}/out", ignore_cleanup_errors=True) as room:

        def begin(key, jobs, ended):
            place = f"{room}/{key[0]}-{key[1]}"
            folder = rooms.put_up(place, key[0], crates)
            for module, code in tried[key][0]:
                with open(f"{folder}/src/{module}.rt", "a", encoding="utf-8") as file:
                    file.write(code)
            return rooms.Job(["rt", "try", "--test"], folder, f"{place}.log", ended)

        def ended_with(key, job):
            nonlocal passed, failed
            said = job.said()
            for wanted, text in tried[key][1]:
                is_refused = re.search(wanted, said)
                print(f"{key[0]}: {text} {'is' if is_refused else 'was not'} refused", flush=True)
                passed, failed = passed + bool(is_refused), failed + (not is_refused)
                if not is_refused:
                    print(said[-2000:], flush=True)
            return True

        rooms.in_lanes({it: (1, []) for it in tried}, begin, ended_with, rooms.processors())
    print(f"{passed} passed, {failed} failed", flush=True)
    return 1 if failed else 0


sys.exit(main(sys.argv[1:]))
