#!/usr/bin/env python3
"""Random scripts of both ports, run by the built program and by the plain model of plain_world.py: both must print the same lines, and together the
scripts must reach every row of rows.py.

Small limits, few names and short contents, so that limits are met and scans are overtaken; messages are delivered late, again and
out of their order. What comes next is led by the model's world: verbs that have something to do weigh more; for a spell of some
commands each weight is taken times a temper, so that in some spells nothing is delivered and in others little else happens; and by
the spell's eagerness what was just sent or lent is carried on at once, so that long chains of deliveries come about. The seed is the
script's number, so a script that fails can be made again: `tests/random_scripts.py PROGRAM 17`. It is also written to out/random, its
picture beside it. The last line says how many passed and how many failed."""
import collections, os, random, subprocess, sys
import plain_world, rows
from programs import program_beside

SECONDS = 60
# Where scripts that fail are written.
FAILED = os.path.join(os.path.dirname(os.path.dirname(os.path.abspath(__file__))), "out", "random")
SCRIPTS = 2000
STEPS = 500
NAMES = ["a", "b", "c"]
SHARES = ((4, 4, 1), (10, 1, 1))    # how often each name is taken: one of these a script
# each verb, what it weighs where it has something to do, and what else
WEIGHTS = {"publish": (12, 2), "create": (12, 1), "write": (8, 1), "cut": (8, 1), "remove": (1, 1), "judge": (1, 1), "open": (16, 2), "cleanup": (5, 1),
           "connect": (12, 1), "down": (24, 2), "up": (24, 2), "work": (20, 1), "timeout": (2, 1), "disconnect filter": (1, 1), "disconnect service": (1, 1),
           "restart filter": (1, 1), "restart service": (1, 1), "connect 2": (12, 1), "disconnect filter 2": (1, 1), "disconnect service 2": (1, 1),
           "restart service 2": (1, 1)}
SPELL = 16
TEMPERS = (0, 1, 1, 6)
EAGERNESS = (0, 3 / 8, 6 / 8, 1)


def head(chance):
    lines = []
    for field, most in (("questions", 2), ("pended", 4), ("jobs", 2), ("cache", 3), ("chunk", 3), ("streams", 2), ("length", 8), ("generation", 40)):
        if chance.random() < 0.2:
            lines.append(f"limit {field} {chance.randint(1, most)}")
    return lines + [f"volume {chance.randint(1, 3)} {chance.choice(['closed', 'open'])}"]


def some_bytes(chance, most):
    return bytes(chance.choice(b"AB") for _ in range(chance.randint(0, most))).hex() or "-"


def places(chance):
    """Where a signature may begin: anywhere, or in a range, which now and then is out of order."""
    if chance.random() < 0.5:
        return ""
    low = chance.randrange(5)
    return f"@{low}-{chance.choice([low, low, low + 1, low + 2, 1048575, low - 1 if low and chance.random() < 0.2 else low])}"


def place(chance, count):
    """A place of a list: mostly one of the last three, sometimes any, and now and then none that is there."""
    if count == 0 or chance.random() < 0.02:
        return count + 1
    return max(count - chance.choice([0, 0, 0, 1, 2]), 1) if chance.random() < 0.9 else chance.randint(1, count)


def has_something_to_do(verb, world):
    ready = {"publish": not world.sets, "create": len(world.volume.streams) < 2, "connect": not world.services[1].connected, "connect 2": not world.services[2].connected, "down": world.down, "up": world.up,
             "work": any(work[0] is not None for work in world.works), "timeout": world.questions}
    return bool(ready.get(verb, world.volume.streams))


class Author:
    """Writes a script's commands one by one, led by the world that they made."""

    def __init__(self, chance, world):
        self.chance, self.world, self.left = chance, world, 0
        self.sent, self.shares = self.sizes(), chance.choice(SHARES)

    def sizes(self):
        return {"down": len(self.world.down), "up": len(self.world.up), "work": len(self.world.works)}

    def fresh(self):
        """The delivery, or the run of lent work, of what the command before sent or lent."""
        before, self.sent = self.sent, self.sizes()
        return next((f"{verb} {count}" for verb, count in self.sent.items() if count > before[verb]), None)

    def loss(self):
        """Now and then the port of a question is lost that an open has waited for as often as it may."""
        spent = [self.world.questions[p[0]][2] for p in self.world.pended if p[3] >= rows.RESCANS]
        return f"disconnect filter{' 2' * (spent[0] == 2)}" if spent and self.chance.random() < 1 / 8 else None

    def command(self):
        fresh = self.fresh()
        if self.left == 0:
            self.left = SPELL
            self.tempers = [self.chance.choice(TEMPERS) for _ in WEIGHTS]
            self.eagerness = self.chance.choice(EAGERNESS)
        self.left -= 1
        if fresh and self.chance.random() < self.eagerness:
            return fresh
        loss = self.loss()
        if loss:
            return loss
        weights = [weight[not has_something_to_do(verb, self.world)] * temper for (verb, weight), temper in zip(WEIGHTS.items(), self.tempers)]
        return self.words(self.chance.choices(list(WEIGHTS), weights)[0] if any(weights) else "open")

    def words(self, verb):
        chance, world = self.chance, self.world
        name = chance.choices(NAMES, self.shares)[0]
        if verb == "publish":
            last = world.sets[-1][0] if world.sets else 0
            patterns = [some_bytes(chance, 3) for _ in range(chance.randrange(4))]
            return " ".join(["publish", str(last + chance.choice([0, 1, 1, 2]))] + [p + places(chance) for p in patterns if p != "-"])
        if verb == "write":
            return f"write {name} {chance.choice([0, 0, 1, 2, 5])} {some_bytes(chance, 4)}"
        if verb == "cut":
            return f"cut {name} {chance.randrange(4)}"
        if verb == "open":
            return f"open {name}" + (f" {chance.randrange(world.floor + 2)}" if chance.random() < 0.2 else "")
        if verb == "timeout":
            return f"timeout {max(world.seq - chance.randrange(3), 0)}"
        lists = {"down": world.down, "up": world.up, "work": world.works}
        if verb in lists:
            return f"{verb} {place(chance, len(lists[verb]))}"
        return f"{verb} {name}" if verb in ("create", "remove", "judge", "cleanup") else verb


def played(number, steps=STEPS, reached=None, begun=()):
    """A script's first lines up to its volume, its commands each beside the lines that the model prints for it, and the model's world
    after so many random ones behind those that it is begun with. The rows of the commands are counted in `reached`."""
    chance = random.Random(number)
    lines = head(chance)
    limits = dict(plain_world.MAXIMA)
    limits.update((line.split()[1], int(line.split()[2])) for line in lines[:-1])
    _, volume, mode = lines[-1].split()
    world = plain_world.World(int(volume), mode == "open", limits)
    author = Author(chance, world)
    commands = []
    for line in [*begun, *[None] * steps]:
        line = line or author.command()
        if reached is not None:
            reached[rows.row_of(world, line)] += 1
        commands.append((line, plain_world.lines_of_command(world, line)))
    return lines, commands, world


def script_of(number, reached=None):
    """A script, and the lines that the model prints for it."""
    lines, commands, world = played(number, reached=reached)
    return "".join(line + "\n" for line in lines + [line for line, _ in commands]), world.lines


def keep(program, number, script):
    """Writes a script that failed, and its picture beside it."""
    os.makedirs(FAILED, exist_ok=True)
    path = os.path.join(FAILED, f"{number}.avs")
    with open(path, "w", encoding="utf-8") as file:
        file.write(script)
    with open(f"{path[:-4]}.svg", "wb") as picture:
        subprocess.run([program_beside(program, "avtool"), "chart", path], stdout=picture, stderr=subprocess.DEVNULL, timeout=SECONDS)
    print(f"  the script is out/random/{number}.avs, its picture out/random/{number}.svg")


def holds(program, number, reached):
    """Whether the program prints what the model does; where not, says the first line that differs."""
    script, lines = script_of(number, reached)
    done = subprocess.run([program, "run", "-"], input=script.encode(), stdout=subprocess.PIPE, stderr=subprocess.PIPE, timeout=SECONDS)
    if done.returncode == 0 and done.stdout.decode() == "".join(line + "\n" for line in lines):
        return True
    print(f"script {number}: status {done.returncode}, {done.stderr!r}")
    told = done.stdout.decode().splitlines()
    print(next((f"  wanted {a!r}, got {b!r}" for a, b in zip(lines, told) if a != b), f"  wanted {len(lines)} lines, got {len(told)}"))
    keep(program, number, script)
    return False


def missing(reached):
    """The rows that no script reached; says how many were, and which were the rarest."""
    for row in (row for row in reached if row not in rows.ROWS):
        print(f"row {row!r} is not listed")
    rarest = sorted((reached[row], row) for row in rows.ROWS if reached[row])[:3]
    print(f"{sum(reached.values())} commands reached {sum(1 for row in rows.ROWS if reached[row])} of {len(rows.ROWS)} rows; rarest: "
          + "; ".join(f"{row} {count} times" for count, row in rarest))
    return [row for row in rows.ROWS if not reached[row]]


def main():
    if len(sys.argv) not in (2, 3):
        sys.exit("usage: tests/random_scripts.py PROGRAM [NUMBER]")
    program, reached = os.path.abspath(sys.argv[1]), collections.Counter()
    numbers = [int(sys.argv[2])] if len(sys.argv) == 3 else range(SCRIPTS)
    passed = sum(holds(program, number, reached) for number in numbers)
    failed = len(numbers) - passed
    if len(sys.argv) == 2:
        never = missing(reached)
        for row in never:
            print(f"no script reaches {row!r}")
        passed, failed = passed + len(rows.ROWS) - len(never), failed + len(never) + sum(row not in rows.ROWS for row in reached)
    print(f"{passed} passed, {failed} failed")
    sys.exit(1 if failed else 0)


if __name__ == "__main__":
    main()
