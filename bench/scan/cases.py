"""The sets of patterns and the files that scanners are measured on.

Files of 1 MiB: program code, random bytes, text, zeros, and for each set `deep`, its own patterns less their last bytes. Sets: random
patterns of 16 bytes; patterns of 8 to 64 bytes cut from another program's code, cut from prose, and of random bytes; and 99 of 16
random bytes with one of 2 or of 4. No pattern has a line feed, which grep could not be given, and none is in a file but in those that
are made to have one: `early` has the set's last pattern in its first KiB, and `late` at its very end."""
import glob, os, random, sys

MIB = 1 << 20
ORDINARY = ("code", "random", "text", "zeros")
KINDS = ORDINARY + ("deep",)
RANDOM = (1, 10, 100, 1000)


def joined(paths):
    """The first MiB of the files one after the other, again from the front where they are short."""
    data = b""
    for path in paths:
        with open(path, "rb") as file:
            data += file.read()
        if len(data) >= MIB + 4096:
            break
    while len(data) < MIB + 4096:
        data += data
    return data[4096:MIB + 4096]


def ordinary_files():
    return {
        "code": joined([os.path.realpath(sys.executable), *sorted(glob.glob("/usr/lib/*/libc.so.6"))]),
        "random": random.Random("a file").randbytes(MIB),
        "text": joined(sorted(glob.glob(os.path.join(os.path.dirname(os.__file__), "*.py")))),
        "zeros": bytes(MIB),
    }


def chosen(count, files, draw):
    """So many patterns that are drawn, less those that a file has, that have a line feed, or that may follow on themselves."""
    made = []
    while len(made) < count:
        p = draw()
        if len(set(p)) > 1 and p[0] != p[-1] and b"\n" not in p and p not in made and not any(p in text for text in files.values()):
            made.append(p)
    return made


def drawn(rng, source, lengths):
    """Draws from a source, or random bytes where there is none."""
    def draw():
        length = rng.choice(lengths)
        if source is None:
            return rng.randbytes(length)
        at = rng.randrange(len(source) - length)
        return source[at:at + length]
    return draw


def sets_of(files):
    """The patterns of each set by its name."""
    code = joined(["/usr/bin/perl", "/bin/bash"])
    prose = joined(sorted(path for path in glob.glob("/usr/share/common-licenses/*") if os.path.isfile(path)))
    short, long = range(8, 25), range(8, 65)
    made = {f"r16-{count}": chosen(count, files, drawn(random.Random(f"patterns {count}"), None, [16])) for count in RANDOM}
    for name, source in (("code", code), ("words", prose), ("mixed", None)):
        for count, lengths in ((100, long), (800, short)):
            made[f"{name}-{count}"] = chosen(count, files, drawn(random.Random(f"{name} {count}"), source, lengths))
    for length in (2, 4):
        one = {kind: text for kind, text in files.items() if kind not in ("random", "code") or length > 2}
        made[f"short-{length}"] = made["r16-100"][1:] + chosen(1, one, drawn(random.Random(f"short {length}"), None, [length]))
    return made


def deep(made, rng):
    """Patterns less their last bytes: an automaton is nearly always far from its root."""
    text, last = bytearray(), None
    while len(text) < MIB:
        p = rng.choice(made)
        if last is None or p[0] != last:
            text += p[:-1]
            last = p[-1]
    return bytes(text[:MIB])


def without(text, made):
    """The text with a byte changed in each place where a pattern is, until none is left."""
    text, changed = bytearray(text), True
    while changed:
        changed = False
        for p in made:
            at = text.find(p)
            while at >= 0:
                text[at + len(p) // 2] ^= 0x55
                changed, at = True, text.find(p)
    return bytes(text)


def put(path, data):
    with open(path, "wb") as file:
        file.write(data)


class Case:
    """A set with its files, written to a folder."""

    def __init__(self, folder, name, made, ordinary):
        self.name, self.patterns = name, made
        self.base = os.path.join(folder, name)
        self.set = f"{self.base}.avsig"
        put(self.set, ("avsig 1\nversion 1\n" + "".join(f"s{i} {p.hex()}\n" for i, p in enumerate(made))).encode())
        contents = {kind: without(text, made) for kind, text in ordinary.items()}
        contents["deep"] = without(deep(made, random.Random(name)), made)
        code, last = contents["code"], made[-1]
        contents["early"] = code[:500] + last + code[500 + len(last):]
        contents["late"] = code[:-len(last)] + last
        self.files = {kind: f"{self.base}-{kind}" for kind in contents}
        for kind, text in contents.items():
            put(self.files[kind], text)
        ends = {"early": 500 + len(last), "late": MIB}
        self.answers = {kind: f"infected {len(made) - 1} end {ends[kind]}" if kind in ends else "clean" for kind in contents}
