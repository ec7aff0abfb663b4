"""Sets whose signatures are bound to ranges, scanned alone: what a content costs that is full of places at which a signature ends out
of its range, and what is read behind the last range.

`bound-N`: N random patterns of 16 bytes that may begin anywhere, `MZ` that has to begin at place 0, and `M` at place 1. `magic`: eight
magic numbers, each at place 0. Files of 1 MiB: those of cases.py, and four that whoever sends a content may choose: `MZ` in every 8 bytes,
in every 2, `M` in every byte, and `deep` with an `MZ` in each 512 bytes. None of them is infected."""
import os, random

from cases import MIB, chosen, deep, drawn, put, without

MAGIC = [b"MZ", b"\x7fELF", b"PK\x03\x04", b"%PDF", b"\x89PNG", b"GIF8", b"\xca\xfe\xba\xbe", b"\x1f\x8b\x08"]
SENT = ("every-8", "every-2", "every-1", "deep-512")


def spaced(text, step):
    """The text with `MZ` in each stretch of so many bytes, but for the first."""
    text = bytearray(text)
    for at in range(step, len(text) - 1, step):
        text[at:at + 2] = b"MZ"
    return bytes(text)


class RangedCase:
    """A set of format 2 with its files, written to a folder. A pattern is its bytes, its first place and its last."""

    def __init__(self, folder, name, free, bound, contents):
        self.name = name
        base = os.path.join(folder, name)
        self.set = f"{base}.avsig"
        lines = [f"f{i} {p.hex()}\n" for i, p in enumerate(free)] + [f"b{i} {p.hex()} {low} {high}\n" for i, (p, low, high) in enumerate(bound)]
        put(self.set, ("avsig 2\nversion 1\n" + "".join(lines)).encode())
        self.kinds = tuple(contents)
        self.files = {kind: f"{base}-{kind}" for kind in contents}
        for kind, text in contents.items():
            put(self.files[kind], b"\0\0" + without(text, free)[2:])
        self.answers = {kind: "clean" for kind in contents}


def ranged_cases(folder, ordinary):
    cases = [RangedCase(folder, "magic", [], [(p, 0, 0) for p in MAGIC], ordinary)]
    for count in (1, 100, 1000):
        free = chosen(count, ordinary, drawn(random.Random(f"patterns {count}"), None, [16]))
        rng = random.Random(f"bound {count}")
        sent = (spaced(rng.randbytes(MIB), 8), b"MZ" * (MIB // 2), b"M" * MIB, spaced(deep(free, rng), 512))
        contents = {**ordinary, **dict(zip(SENT, sent))}
        cases.append(RangedCase(folder, f"bound-{count}", free, [(b"MZ", 0, 0), (b"M", 1, 1)], contents))
    return cases


def measured(cases, scanners, rounds):
    """Gigabytes a second by set, file and column, the best of all rounds."""
    best = {}
    for case in cases:
        for _ in range(rounds):
            for scanner in scanners:
                for kind, times in scanner.times(case, list(case.kinds)).items():
                    key = case.name, kind, scanner.columns[0]
                    best[key] = max(MIB / max(times[0], 1), best.get(key, 0))
    return best


def table(cases, scanners, speed):
    columns = [scanner.columns[0] for scanner in scanners]
    print("GB/s, scanning alone, of sets with ranges; 4k: in chunks of 4,096 bytes")
    print(f"{'set':12}{'file':10}" + "".join(f"{column:>10}" for column in columns))
    for case in cases:
        for kind in case.kinds:
            print(f"{case.name:12}{kind:10}" + "".join(f"{speed[case.name, kind, column]:10.2f}" for column in columns), flush=True)


def goals(cases, speed, judge):
    bound = [(figure, *key) for key, figure in speed.items() if key[0] != "magic"]
    figure, name, kind, column = min(bound)
    judge.judge(f"the slowest file under a set with ranges ({name} {kind}, {column})", figure, 0.25, True, " GB/s")
    below = [f"{name} {kind} {column} {figure:.2f}" for figure, name, kind, column in sorted(bound) if figure < 0.25]
    judge.lines.append("       below the goal: " + (", ".join(below) or "none"))
    slowest = min(figure for key, figure in speed.items() if key[0] == "magic" and key[2] == "ours")
    judge.judge("1 MiB under eight magic numbers at place 0", MIB / slowest / 1000, 2, False, " us")
