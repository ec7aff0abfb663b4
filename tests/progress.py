#!/usr/bin/env python3
"""Random scripts, each stopped at a random place and then finished: by deliveries, runs and a new connection of both services alone, each
open that waited must get the verdict of its stream.

Which commands finish a script is read off the lines that the program printed. A name that is too long is refused and changes nothing: its
creation stands after each command, and its line tells apart what the commands printed. The plain model foretells the list, so that the program runs once. The
seed is the script's number: `tests/progress.py PROGRAM 17` tries that one. The last line says how many passed and how many failed."""
import os, random, subprocess, sys
import plain_world, random_scripts

SECONDS = 60
SCRIPTS = 2800
STEPS = 150
BEGUN = "publish 1 424142", "create a", "write a 0 414141", "create b", "connect", "up 1"
ENOUGH = 500
MARK, MARKED = "create " + "x" * 256, "refused BadName"
CARRYING = ("down ", "up ", "work ", "connect", "disconnect service")


class Wrong(Exception):
    pass


def wants(holds, why):
    if not holds:
        raise Wrong(why)


class Watch:
    """What the printed lines tell: the messages each way, how many works were lent, and which opens wait and questions run."""

    def __init__(self, chunk):
        self.chunk, self.down, self.up, self.works = chunk, [], [], 0
        self.streams, self.waiting = {}, {}
        # the chunks that are left of each question that runs, and its port
        self.running, self.ports = {}, {}

    def see(self, command, lines):
        verb, *words = command.split()
        if command.startswith("disconnect filter"):
            self.loses("2" if words[-1] == "2" else "1")
        if verb == "up" and not {"note NoWaiter", "refused NoSuchFrame"} & set(lines):
            self.comes_up(*self.up[int(words[0]) - 1])
        for kind, place, *rest in (line.split() for line in lines if " " in line):
            if kind == "stream" and verb == "create":
                self.streams[words[0]] = place
            elif kind == "open" and rest == ["pended"]:
                self.waiting[place] = self.streams[words[0]], words[1] if len(words) > 1 else "0"
            elif kind == "open":
                self.waiting.pop(place, None)
            elif kind == "down":
                self.down.append(rest)
                self.goes_down(*rest)
            elif kind == "up":
                self.up.append(rest)
            elif kind == "work":
                self.works += 1
            elif kind == "boot":
                self.running.clear()

    def loses(self, port):
        """Each question of a port ends with it: where it is asked again, the command's own lines say so."""
        for identity in [it for it in self.running if self.ports[it] == port]:
            del self.running[identity]

    def comes_up(self, kind, identity, *words):
        if kind == "reply":
            self.running.pop(identity, None)

    def goes_down(self, kind, identity, *words):
        if kind == "scan":
            self.ports[identity] = "2" if words[-2:] == ("port", "2") else "1"
            self.running[identity] = -(-int(words[words.index("length") + 1]) // self.chunk)
        elif kind == "abort":
            self.running.pop(identity, None)

    def scan(self, identity):
        return 1 + [message[:2] for message in self.down].index(["scan", identity])


def finishing(watch):
    """The commands that finish a script, each by what was printed before it."""
    if not watch.waiting:
        return
    for port in ("", " 2"):
        yield "disconnect service" + port
        yield "connect" + port
    for identity, chunks in list(watch.running.items()):
        yield f"down {watch.scan(identity)}"
        for _ in range(chunks):
            if watch.up[-1][0] == "reply":
                break
            yield f"up {len(watch.up)}"
            yield f"down {len(watch.down)}"
            yield f"work {watch.works}"
        yield f"up {len(watch.up)}"


def foretold(commands, world):
    """The commands that finish a script, if the program prints what the model does."""
    watch, appended = Watch(world.limits["chunk"]), []
    for command, lines in commands:
        watch.see(command, lines)
    for command in finishing(watch):
        appended.append(command)
        watch.see(command, plain_world.lines_of_command(world, command))
    return appended


def printed(program, first, commands):
    """What the program prints for each command."""
    script = "".join(line + "\n" for line in first + [line for command in commands for line in (MARK, command)] + [MARK])
    done = subprocess.run([program, "run", "-"], input=script.encode(), stdout=subprocess.PIPE, stderr=subprocess.PIPE, timeout=SECONDS)
    parts, part = [], []
    for line in done.stdout.decode().splitlines():
        if line == MARKED:
            parts.append(part)
            part = []
        else:
            part.append(line)
    wants(done.returncode == 0, f"status {done.returncode}, {done.stderr!r}")
    wants(not part and len(parts) == len(commands) + 1, f"{len(parts)} parts and {len(part)} lines for {len(commands)} commands")
    return list(zip(commands, parts[1:]))


def answer(identity, least, judged):
    """The line of an open that is answered by this line of a judge."""
    _, stream, _, generation, _, version, verdict, *_ = judged.split()
    if verdict == "clean":
        return f"open {identity} granted stream {stream} generation {generation} version {version} least {least}"
    return f"open {identity} denied cause {plain_world.INFECTED}"


def check_list(watch, steps):
    """The commands are those that the printed lines say, they carry and happen, and they are few; gives the opens' answers."""
    most = 4 + 2 * len(watch.running) + 3 * sum(watch.running.values())
    answers, rule = [], finishing(watch)
    for command, lines in steps:
        wants(command == next(rule, None), f"the lines printed so far do not say {command!r}")
        wants(command.startswith(CARRYING), f"{command!r} is neither a delivery, a run nor a connection of a service")
        wants(not any(line.startswith("refused") for line in lines), f"{command!r} is refused")
        answers += [line for line in lines if line.startswith("open ")]
        watch.see(command, lines)
    wants(next(rule, None) is None, "the list ends too early")
    wants(len(steps) <= most, f"{len(steps)} commands, and at most {most} are allowed")
    return answers


def check(program, number):
    """Whether an open waited that could be answered, where all is as it must be."""
    chance = random.Random(SCRIPTS + number)
    first, commands, world = random_scripts.played(number, chance.randrange(STEPS), begun=BEGUN)
    can = world.floor <= world.sets[-1][0]
    appended = foretold(commands, world) if can else []
    before = len(commands)
    steps = printed(program, first, [command for command, _ in commands] + appended + [f"judge {name}" for name in random_scripts.NAMES])
    watch = Watch(world.limits["chunk"])
    for command, lines in steps[:before]:
        watch.see(command, lines)
    if not can:
        return False
    waiting = dict(watch.waiting)
    answers = check_list(watch, steps[before:before + len(appended)])
    judged = {line.split()[1]: line for _, lines in steps[before + len(appended):] for line in lines if line.startswith("judge ")}
    wanted = [answer(identity, least, judged[stream]) for identity, (stream, least) in waiting.items()]
    wants(sorted(answers) == sorted(wanted), f"wanted {wanted}, got {answers}")
    wants(not watch.waiting, f"{sorted(watch.waiting)} wait")
    return bool(waiting)


def main():
    if len(sys.argv) not in (2, 3):
        sys.exit("usage: tests/progress.py PROGRAM [NUMBER]")
    program = os.path.abspath(sys.argv[1])
    passed = failed = waited = 0
    for number in [int(sys.argv[2])] if len(sys.argv) == 3 else range(SCRIPTS):
        try:
            waited += check(program, number)
            passed += 1
        except (Wrong, LookupError, ValueError) as wrong:
            failed += 1
            print(f"script {number}: {wrong!r}")
    print(f"{waited} scripts were stopped where an open waited and a version was published that it may be granted under")
    if len(sys.argv) == 2:
        passed, failed = passed + (waited >= ENOUGH), failed + (waited < ENOUGH)
    print(f"{passed} passed, {failed} failed")
    sys.exit(1 if failed else 0)


if __name__ == "__main__":
    main()
