"""The rows of docs/CONDUCT.md that a script can reach, and which of them a command is: `row_of(world, line)` asks the plain model's world
before the step. A row that goes by the mode stands here twice, and so does one whose opens are answered in different ways. Run, it
looks whether each row has its case in tests/conduct; the last line says how many passed and how many failed."""
import os, sys
import plain_world
from cases import Cases

RESCANS = 8


def by_mode(row):
    return [row + ", closed", row + ", open"]


def asked_again(row):
    return [row + "asked again", row + "no open waits", *by_mode(row + "all rescans spent"), *by_mode(row + "some rescans spent")]


ROWS = [
    "open: no such stream", "open: judged clean", "open: judged infected", "open: joins a question", *by_mode("open: question runs, as many wait as may"),
    *by_mode("open: as many wait as may"), *by_mode("open: not connected"), *by_mode("open: no question can be asked"), "open: asked",
    "create: accepted", "create: Exists", "create: Full",
    *(f"{verb}: {case}" for verb in ("write", "cut") for case in ("NoSuchName", "Hole", "GenerationSpent", "no question")), "write: TooLarge",
    *asked_again("write: "), *asked_again("cut: "),
    "remove: NoSuchName", "remove: no question", "remove: question with opens", "remove: question without opens",
    "cleanup: NoSuchName", "cleanup: never changed", "cleanup: scanning", "cleanup: judged clean", "cleanup: judged infected", "cleanup: asked", "cleanup: can't ask",
    "judge: NoSuchName", "judge: NoSignatures", "judge: verdict",
    "timeout: NoWaiter", "timeout: question without opens", *by_mode("timeout: question with opens"),
    "disconnect filter: no question", "disconnect filter: questions without opens", *by_mode("disconnect filter: questions with opens"),
    "disconnect filter, a port is left: no question", *asked_again("disconnect filter, a port is left: "),
    "restart filter: none waits", *by_mode("restart filter: opens wait"),
    "connect: NoSignatures", "connect: AlreadyConnected", "connect: Hello",
    *(f"{verb} service: {jobs}" for verb in ("disconnect", "restart") for jobs in ("jobs", "no job")),
    "publish: BadSet", "publish: OldVersion", "publish: not connected",
    *(f"publish: {jobs}{told}" for jobs in ("no job", "jobs wait", "a job is lent") for told in ("", ", both are told")),
    "work: NoSuchWork", "work: Orphan", "work: hit", "work: all judged", "work: goes on",
    "down: NoSuchFrame", "up: NoSuchFrame",
    *(f"{kind}: not connected" for kind in ("scan", "chunk", "nochunk", "abort")),
    "scan: Repeat", "scan: cached verdict", "scan: as many jobs as may be", "scan: length 0", "scan: job",
    "chunk: no job", "chunk: lent already", "chunk: another offset", "chunk: lent",
    *(f"{kind}: {job}" for kind in ("abort", "nochunk") for job in ("no job", "a lent job ends", "a waiting job ends")),
    "hello: Connected", "hello: OldVersion", "hello: Welcome", "hello: Welcome beside the other port", "hello: OldVersion beside the other port",
    "updated: raises the floor", "updated: nothing",
    "read: no question", "read: chunk",
    "reply: NoWaiter", "reply: failed, no open waits", *by_mode("reply: failed, opens wait"), *asked_again("reply below the floor: "),
    *(f"reply: {verdict}, {opens}" for verdict in ("clean", "infected") for opens in ("opens wait", "no open waits")),
]


def mode(world):
    return ", open" if world.is_open else ", closed"


def opens_of(world, q):
    return [p for p in world.pended if p[0] == q]


def again(world, q):
    """How a question is asked again."""
    opens = opens_of(world, q)
    spent = [p for p in opens if p[3] >= RESCANS]
    if not opens:
        return "no open waits"
    return "asked again" if not spent else ("all" if spent == opens else "some") + " rescans spent" + mode(world)


def judged(verdict):
    return "clean" if verdict is None else "infected"


def open_row(world, name, least=0):
    s, floor, full = world.volume.find(name), max(world.floor, int(least)), len(world.pended) >= world.limits["pended"]
    if s is None:
        return "no such stream"
    context = world.contexts.get(s)
    if isinstance(context, tuple) and context[0] == floor:
        return "judged " + judged(context[1])
    if world.question_of(s) is not None:
        return "question runs, as many wait as may" + mode(world) if full else "joins a question"
    if full:
        return "as many wait as may" + mode(world)
    if not world.connected:
        return "not connected" + mode(world)
    return "no question can be asked" + mode(world) if len(world.questions) >= world.limits["questions"] else "asked"


def create_row(world, name):
    if world.volume.find(name) is not None:
        return "Exists"
    return "Full" if len(world.volume.streams) >= world.limits["streams"] else "accepted"


def change_row(world, s, offset, added):
    _, generation, content = world.volume.streams[s]
    if offset > len(content):
        return "Hole"
    if added is not None and offset + added > world.limits["length"]:
        return "TooLarge"
    if generation >= world.limits["generation"]:
        return "GenerationSpent"
    q = world.question_of(s)
    return "no question" if q is None else again(world, q)


def question_row(world, s):
    q = world.question_of(s)
    return "no question" if q is None else "question with opens" if opens_of(world, q) else "question without opens"


def cleanup_row(world, s):
    context = world.contexts.get(s)
    if context == "modified":
        return "asked" if world.connected and len(world.questions) < world.limits["questions"] else "can't ask"
    return {None: "never changed", "scanning": "scanning"}[context] if not isinstance(context, tuple) else "judged " + judged(context[1])


def named_row(world, verb, name, *words):
    s = world.volume.find(name)
    if s is None:
        return "NoSuchName"
    if verb == "write":
        return change_row(world, s, int(words[0]), 0 if words[1] == "-" else len(words[1]) // 2)
    if verb == "cut":
        return change_row(world, s, int(words[0]), None)
    if verb == "remove":
        return question_row(world, s)
    if verb == "cleanup":
        return cleanup_row(world, s)
    return "verdict" if world.sets else "NoSignatures"


def timeout_row(world, seq):
    if int(seq) not in world.questions:
        return "NoWaiter"
    return "question with opens" + mode(world) if opens_of(world, int(seq)) else "question without opens"


def lost_row(world, port):
    """A port is lost and the other one is left: how the first question that ran on it goes on."""
    lost = [q for q, question in sorted(world.questions.items()) if question[2] == port]
    return again(world, lost[0]) if lost else "no question"


def filter_row(world, verb):
    if verb == "restart":
        return "opens wait" + mode(world) if world.pended else "none waits"
    return "no question" if not world.questions else "questions with opens" + mode(world) if world.pended else "questions without opens"


def connect_row(service):
    return "NoSignatures" if service.version is None else "AlreadyConnected" if service.connected else "Hello"


def publish_row(world, version, *patterns):
    spans = [list(map(int, p.partition("@")[2].split("-"))) for p in patterns if "@" in p]
    if int(version) == 0 or any(not low <= high <= (1 << 20) - 1 for low, high in spans):
        return "BadSet"
    if world.sets and int(version) <= world.sets[-1][0]:
        return "OldVersion"
    told = [service for service in world.services.values() if service.connected]
    if not told:
        return "not connected"
    jobs = [job for service in told for job in service.jobs]
    return ("no job" if not jobs else "a job is lent" if any(job[5] is not None for job in jobs) else "jobs wait") + ", both are told" * (len(told) == 2)


def work_row(world, k):
    if not 1 <= int(k) <= len(world.works) or world.works[int(k) - 1][0] is None:
        return "NoSuchWork"
    lease, _, version, _, chunk, port = world.works[int(k) - 1]
    job = next((job for job in world.services[port].jobs if job[5] == lease), None)
    if job is None:
        return "Orphan"
    content = job[4] + chunk
    return "hit" if plain_world.verdict_of(world.patterns(version), content) is not None else "all judged" if len(content) == job[3] else "goes on"


def scan_row(service, job, s, generation, length):
    if job is not None:
        return "Repeat"
    if any(entry[0] == (s, generation, service.version) for entry in service.cache.entries):
        return "cached verdict"
    if len(service.jobs) >= service.world.limits["jobs"]:
        return "as many jobs as may be"
    return "length 0" if length == 0 else "job"


def down_row(service, kind, id_, *fields):
    job = service.job(id_)
    if not service.connected:
        return "not connected"
    if kind == "scan":
        return scan_row(service, job, *fields)
    if job is None:
        return "no job"
    if kind != "chunk":
        return "a lent job ends" if job[5] is not None else "a waiting job ends"
    return "lent already" if job[5] is not None else "another offset" if fields[0] != len(job[4]) else "lent"


def hello_row(world, port, version):
    beside = " beside the other port" if world.connected else ""
    return "Connected" if port in world.connected else ("OldVersion" if version < world.floor else "Welcome") + beside


def reply_row(world, id_, failed, version=None, verdict=None):
    boot, q = id_
    if boot != world.boot or q not in world.questions:
        return "reply: NoWaiter"
    opens = bool(opens_of(world, q))
    if failed:
        return "reply: failed, opens wait" + mode(world) if opens else "reply: failed, no open waits"
    if version < world.floor:
        return "reply below the floor: " + again(world, q)
    return f"reply: {judged(verdict)}, " + ("opens wait" if opens else "no open waits")


def up_row(world, port, kind, *fields):
    if kind == "hello":
        return "hello: " + hello_row(world, port, fields[1])
    if kind == "updated":
        return "updated: " + ("raises the floor" if fields[0] > world.floor else "nothing")
    if kind == "reply":
        return reply_row(world, *fields)
    boot, q = fields[0]
    return "read: chunk" if boot == world.boot and q in world.questions else "read: no question"


def row_of(world, line):
    """The row that a command is of, in the world as it stands before it."""
    verb, *words = line.split(" ")
    name = words[0].encode("latin-1") if words else b""
    if verb in ("write", "cut", "remove", "cleanup", "judge"):
        return f"{verb}: " + named_row(world, verb, name, *words[1:])
    if verb in ("down", "up"):
        frames = world.down if verb == "down" else world.up
        if not 1 <= int(words[0]) <= len(frames):
            return f"{verb}: NoSuchFrame"
        message = frames[int(words[0]) - 1]
        return f"{message[1]}: " + down_row(world.services[message[0]], *message[1:]) if verb == "down" else up_row(world, *message)
    port = 2 if words[-1:] == ["2"] else 1
    if words and (verb, words[0]) == ("disconnect", "filter") and world.connected - {port}:
        return "disconnect filter, a port is left: " + lost_row(world, port)
    if verb in ("disconnect", "restart"):
        return f"{verb} {words[0]}: " + (filter_row(world, verb) if words[0] == "filter" else "jobs" if world.services[port].jobs else "no job")
    rows = {"open": lambda: open_row(world, name, *words[1:]), "create": lambda: create_row(world, name), "timeout": lambda: timeout_row(world, words[0]),
            "connect": lambda: connect_row(world.services[port]), "publish": lambda: publish_row(world, *words), "work": lambda: work_row(world, words[0])}
    return f"{verb}: " + rows[verb]()


def last_row(script):
    """The row of a script's last command, and the lines that the plain model prints for it."""
    world, limits, row = None, dict(plain_world.MAXIMA), None
    for verb, *words in (line.split(" ") for line in script.splitlines() if not line.startswith("#")):
        if verb == "limit":
            limits[words[0]] = int(words[1])
        elif verb == "volume":
            world = plain_world.World(int(words[0]), words[1] == "open", limits)
        else:
            row = row_of(world, " ".join([verb, *words]))
            plain_world.run(world, verb, words)
    return row, world.lines


def main():
    """Each row has one case in tests/conduct, whose first line names it and whose last command is of it."""
    cases = Cases()
    folder = os.path.join(os.path.dirname(os.path.abspath(__file__)), "conduct")
    named = []
    for file in sorted(os.listdir(folder)):
        with open(os.path.join(folder, file)) as text:
            script, _, out = text.read().partition("--- out\n")
        row, lines = last_row(script)
        named.append(script.partition("\n")[0].removeprefix("# "))
        cases.same(file, (row, lines), (named[-1], out.splitlines()))
    cases.same("the rows that have a case", sorted(named), sorted(ROWS))
    print(f"{cases.passed} passed, {cases.failed} failed")
    sys.exit(1 if cases.failed else 0)


if __name__ == "__main__":
    main()
