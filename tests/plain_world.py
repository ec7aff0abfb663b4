"""A world as plain lists, from docs/CONDUCT.md and docs/FORMATS.md alone: what `avscan run` must print for a script of accepted lines.

It is written apart from the program, for tests/random_scripts.py and tests/progress.py: slow, without limits of its own, and never the source of a case."""

MAXIMA = {"streams": 65536, "length": 1 << 20, "generation": (1 << 48) - 1, "questions": 1024, "pended": 4096, "jobs": 256, "cache": 4096, "chunk": 4096, "audit": 1 << 20}
NO_STREAM, INFECTED, NOT_CONNECTED, BUSY, TIMED_OUT, PORT_LOST, SCAN_FAILED, UNSETTLED, REMOVED, RESTARTED = range(1, 11)
LAST_PLACE = (1 << 20) - 1


class Refused(Exception):
    pass


class Cache:
    """The verdicts of (stream, generation, version), the latest used first."""

    def __init__(self, size):
        self.size, self.entries = size, []

    def look(self, key):
        for entry in self.entries:
            if entry[0] == key:
                self.entries.remove(entry)
                self.entries.insert(0, entry)
                return entry[1]
        return None

    def put(self, key, verdict):
        self.entries = [(key, verdict)] + [e for e in self.entries if e[0] != key]
        del self.entries[self.size:]


def pattern_of(word):
    """The bytes of HEX or HEX@LOW-HIGH, and the first and the last place at which they may begin."""
    digits, _, places = word.partition("@")
    low, high = map(int, places.split("-")) if places else (0, LAST_PLACE)
    return bytes.fromhex(digits), low, high


def verdict_of(patterns, content):
    """None where it is clean, else the index and the end of the signature that ends first, of those that begin where they may."""
    found = [(start + len(p), i) for i, (p, low, high) in enumerate(patterns)
             for start in range(low, min(high, len(content) - len(p)) + 1) if content.startswith(p, start)]
    return min(found)[::-1] if found else None


def port_words(port):
    """The end of the line of a message or a work: that of port 1 has none."""
    return "" if port == 1 else f" port {port}"


def verdict_words(verdict):
    return "clean" if verdict is None else "infected %d end %d" % verdict


class Volume:
    def __init__(self, limits):
        self.limits, self.streams, self.last = limits, {}, 0

    def find(self, name):
        return next((s for s, stream in self.streams.items() if stream[0] == name), None)

    def create(self, name):
        if not 1 <= len(name) <= 255 or any(not 33 <= b <= 126 for b in name):
            raise Refused("BadName")
        if self.find(name) is not None:
            raise Refused("Exists")
        if len(self.streams) >= self.limits["streams"]:
            raise Refused("Full")
        self.last += 1
        self.streams[self.last] = [name, 1, b""]
        return self.last

    def change(self, s, offset, content):
        _, generation, old = self.streams[s]
        if offset > len(old):
            raise Refused("Hole")
        if content is not None and offset + len(content) > self.limits["length"]:
            raise Refused("TooLarge")
        if generation >= self.limits["generation"]:
            raise Refused("GenerationSpent")
        new = old[:offset] if content is None else old[:offset] + content + old[offset + len(content):]
        self.streams[s][1:] = [generation + 1, new]


class Service:
    """The scanning service of a port. A job is [id, stream, generation, length, bytes judged, lease or None, bytes lent]."""

    def __init__(self, world, port):
        self.world, self.port = world, port
        self.lease, self.cache = 0, Cache(world.limits["cache"])
        self.jobs, self.connected, self.version = [], False, None

    def send(self, *message):
        self.world.up.append((self.port, *message))

    def job(self, id_):
        return next((j for j in self.jobs if j[0] == id_), None)

    def read(self, job):
        self.send("read", job[0], len(job[4]), min(self.world.limits["chunk"], job[3] - len(job[4])))

    def reply(self, id_, s, generation, verdict):
        self.cache.put((s, generation, self.version), verdict)
        self.send("reply", id_, 0, self.version, verdict)

    def connect(self):
        if self.version is None:
            raise Refused("NoSignatures")
        if self.connected:
            raise Refused("AlreadyConnected")
        self.connected = True
        self.send("hello", self.world.number, self.version)

    def take(self, kind, id_, *fields):
        """A message from the filter, and the note that it gives."""
        job = self.job(id_)
        if not self.connected:
            return "Ignored"
        if kind == "scan":
            return self.start_job(id_, *fields)
        if job is None:
            return "Ignored"
        if kind != "chunk":
            self.jobs.remove(job)
            return None
        offset, chunk = fields
        if job[5] is not None or len(job[4]) != offset:
            return "Ignored"
        if offset + len(chunk) > job[3]:
            self.jobs.remove(job)
            self.send("reply", id_, 2)
        else:
            self.lease += 1
            job[5:] = [self.lease, chunk]
            self.world.works.append((self.lease, id_, self.version, offset, chunk, self.port))
        return None

    def start_job(self, id_, s, generation, length):
        known = [e for e in self.cache.entries if e[0] == (s, generation, self.version)]
        if self.job(id_):
            return "Repeat"
        if known:
            self.send("reply", id_, 0, self.version, self.cache.look(known[0][0]))
        elif len(self.jobs) >= self.world.limits["jobs"]:
            self.send("reply", id_, 1)
        elif length == 0:
            self.reply(id_, s, generation, None)
        else:
            self.jobs.append([id_, s, generation, length, b"", None, b""])
            self.read(self.jobs[-1])
        return None

    def finish(self, lease, version, chunk):
        """A work comes back, and the note that it gives."""
        job = next((j for j in self.jobs if j[5] == lease), None)
        if job is None:
            return "Orphan"
        job[4:] = [job[4] + chunk, None, b""]
        verdict = verdict_of(self.world.patterns(version), job[4])
        if verdict is not None or len(job[4]) == job[3]:
            self.jobs.remove(job)
            self.reply(job[0], job[1], job[2], verdict)
        else:
            self.read(job)
        return None

    def publish(self, version):
        self.version = version
        if self.connected:
            self.send("updated", version)
            for job in self.jobs:
                job[4:] = [b"", None, b""]
                self.read(job)

    def disconnect(self):
        self.connected, self.jobs = False, []

    def restart(self):
        self.disconnect()
        self.cache = Cache(self.world.limits["cache"])
        self.version = self.world.sets[-1][0] if self.world.sets else None


class World:
    """Messages are (port, kind, fields ..), a question is (stream, generation, port), a work (lease or None, id, version, offset, bytes, port)."""

    def __init__(self, number, is_open, limits):
        self.number, self.is_open, self.limits = number, is_open, limits
        self.volume, self.sets, self.opens = Volume(limits), [], 0
        self.boot, self.down, self.up, self.works = 1, [], [], []
        self.services = {port: Service(self, port) for port in (1, 2)}
        self.mount()
        self.lines = ["boot 1"]

    def mount(self):
        self.seq, self.floor, self.connected = 0, 0, set()
        self.contexts, self.questions, self.pended, self.filter_cache = {}, {}, [], Cache(self.limits["cache"])

    # ---- what a step tells

    def step(self, event, *words):
        self.own, self.given, self.note, self.submitted = [], [], None, None
        before = len(self.down), len(self.up), len(self.works)
        try:
            event(*words)
        except Refused as refused:
            self.lines.append("refused %s" % refused)
            return
        lines = self.own + ["open %d %s" % answer for answer in self.given]
        if self.submitted and not any(n == self.submitted for n, _ in self.given):
            lines.append("open %d pended" % self.submitted)
        for way, sent, first in (("down", self.down, before[0]), ("up", self.up, before[1])):
            lines += ["%s %d %s" % (way, k + 1, self.message_words(sent[k])) for k in range(first, len(sent))]
        for k in range(before[2], len(self.works)):
            _, id_, _, offset, chunk, port = self.works[k]
            lines.append("work %d lent %d.%d offset %d length %d" % (k + 1, *id_, offset, len(chunk)) + port_words(port))
        self.lines += lines + (["note " + self.note] if self.note else [])

    @staticmethod
    def message_words(message):
        port, kind, *fields = message
        return World.body_words(kind, fields) + port_words(port)

    @staticmethod
    def body_words(kind, fields):
        if kind == "hello":
            return "hello volume %d version %d" % tuple(fields)
        if kind == "updated":
            return "updated %d" % fields[0]
        words = "%s %d.%d" % (kind, *fields[0])
        if kind == "scan":
            return words + " stream %d generation %d length %d" % tuple(fields[1:])
        if kind == "chunk":
            return words + " offset %d bytes %s" % (fields[1], fields[2].hex())
        if kind == "nochunk":
            return words + " offset %d cause %d" % tuple(fields[1:])
        if kind == "read":
            return words + " offset %d count %d" % tuple(fields[1:])
        if kind == "reply":
            return words + (" failed %d" % fields[1] if fields[1] else " version %d %s" % (fields[2], verdict_words(fields[3])))
        return words

    # ---- the filter

    def generation(self, s):
        return self.volume.streams[s][1]

    def deny(self, n, cause):
        self.given.append((n, "denied cause %d" % cause))

    def by_mode(self, n, s, cause):
        if self.is_open:
            self.given.append((n, "unscanned stream %d generation %d cause %d" % (s, self.generation(s), cause)))
        else:
            self.deny(n, cause)

    def judged(self, n, s, version, least, verdict):
        if verdict is None:
            self.given.append((n, "granted stream %d generation %d version %d least %d" % (s, self.generation(s), version, least)))
        else:
            self.deny(n, INFECTED)

    def question_of(self, s):
        return next((q for q, question in self.questions.items() if question[0] == s), None)

    def ask(self, s):
        """A question is asked on the least connected port."""
        self.seq += 1
        port = min(self.connected)
        self.questions[self.seq] = (s, self.generation(s), port)
        self.down.append((port, "scan", (self.boot, self.seq), s, self.generation(s), len(self.volume.streams[s][2])))
        self.contexts[s] = "scanning"
        return self.seq

    def end(self, q):
        """The question ends, and gives back its stream and its opens in order."""
        s = self.questions.pop(q)[0]
        opens = [p for p in self.pended if p[0] == q]
        self.pended = [p for p in self.pended if p[0] != q]
        return s, opens

    def again(self, q, is_rewritten):
        s, _, port = self.questions.pop(q)
        if is_rewritten:
            self.down.append((port, "abort", (self.boot, q)))
        asked = [p for p in self.pended if p[0] == q]
        for _, n, _, rescans, _ in [p for p in asked if p[3] >= 8]:
            self.by_mode(n, s, UNSETTLED)
        if any(p[3] < 8 for p in asked):
            new = self.ask(s)
            self.pended = [[new, p[1], p[2], p[3] + 1, p[4]] if p[0] == q else p for p in self.pended if p[0] != q or p[3] < 8]
        else:
            self.pended = [p for p in self.pended if p[0] != q]
            self.contexts[s] = "modified"

    def open(self, name, least=0):
        self.opens += 1
        n = self.submitted = self.opens
        s = self.volume.find(name)
        self.floor = max(self.floor, least)
        if s is None:
            return self.deny(n, NO_STREAM)
        context = self.contexts.get(s)
        if isinstance(context, tuple) and context[0] == self.floor:
            return self.judged(n, s, context[0], least, context[1])
        q = self.question_of(s)
        if q is None:
            if len(self.pended) >= self.limits["pended"]:
                return self.by_mode(n, s, BUSY)
            if not self.connected:
                return self.by_mode(n, s, NOT_CONNECTED)
            if len(self.questions) >= self.limits["questions"]:
                return self.by_mode(n, s, BUSY)
            q = self.ask(s)
        elif len(self.pended) >= self.limits["pended"]:
            return self.by_mode(n, s, BUSY)
        self.pended.append([q, n, least, 0, s])

    def changed(self, name, offset, content):
        s = self.named(name)
        self.volume.change(s, offset, content)
        self.own.append("stream %d generation %d length %d" % (s, self.generation(s), len(self.volume.streams[s][2])))
        q = self.question_of(s)
        if q is None:
            self.contexts[s] = "modified"
        else:
            self.again(q, True)

    def named(self, name):
        s = self.volume.find(name)
        if s is None:
            raise Refused("NoSuchName")
        return s

    def create(self, name):
        self.own.append("stream %d generation 1" % self.volume.create(name))

    def remove(self, name):
        s = self.named(name)
        q = self.question_of(s)
        if q is not None:
            port = self.questions[q][2]
            for _, n, *_ in self.end(q)[1]:
                self.deny(n, REMOVED)
            self.down.append((port, "abort", (self.boot, q)))
        self.contexts.pop(s, None)
        del self.volume.streams[s]
        self.own.append("removed %d" % s)

    def cleanup(self, name):
        s = self.named(name)
        if self.contexts.get(s) == "modified" and self.connected and len(self.questions) < self.limits["questions"]:
            self.ask(s)

    def refuse_all(self, q, cause):
        s, opens = self.end(q)
        for _, n, *_ in opens:
            self.by_mode(n, s, cause)
        self.contexts[s] = "modified"

    def timeout(self, seq):
        if seq not in self.questions:
            self.note = "NoWaiter"
            return
        port = self.questions[seq][2]
        self.refuse_all(seq, TIMED_OUT)
        self.down.append((port, "abort", (self.boot, seq)))

    def all_by_mode(self, cause):
        for _, n, _, _, s in self.pended:
            self.by_mode(n, s, cause)
        self.pended = []

    def disconnect_filter(self, port):
        self.connected.discard(port)
        if self.connected:
            for q in [q for q, question in sorted(self.questions.items()) if question[2] == port]:
                self.again(q, False)
            self.given.sort()
            return
        for s, *_ in self.questions.values():
            self.contexts[s] = "modified"
        self.questions = {}
        self.all_by_mode(PORT_LOST)

    def restart_filter(self):
        self.all_by_mode(RESTARTED)
        self.boot += 1
        self.mount()
        self.own.append("boot %d" % self.boot)

    def up_frame(self, k):
        if not 1 <= k <= len(self.up):
            raise Refused("NoSuchFrame")
        port, kind, *fields = self.up[k - 1]
        if kind == "hello":
            volume, version = fields
            if volume != self.number:
                self.note = "WrongVolume"
            elif port in self.connected:
                self.note = "Connected"
            elif version < self.floor:
                self.note = "OldVersion"
            else:
                self.connected.add(port)
                self.floor, self.note = version, "Welcome"
        elif kind == "updated":
            self.floor = max(self.floor, fields[0])
        else:
            boot, q = fields[0]
            asked = boot == self.boot and q in self.questions and self.questions[q][2] == port
            if kind == "read":
                self.send_chunk(port, fields[0], fields[1], fields[2], asked)
            elif not asked:
                self.note = "NoWaiter"
            elif fields[1]:
                self.refuse_all(q, SCAN_FAILED)
            elif fields[2] < self.floor:
                self.again(q, False)
            else:
                s, opens = self.end(q)
                self.floor = max(self.floor, fields[2])
                self.contexts[s] = (fields[2], fields[3])
                for _, n, least, *_ in opens:
                    self.judged(n, s, fields[2], least, fields[3])

    def send_chunk(self, port, id_, offset, count, asked):
        content = self.volume.streams[self.questions[id_[1]][0]][2] if asked else b""
        if not asked:
            self.down.append((port, "nochunk", id_, offset, 1))
        elif offset >= len(content):
            self.down.append((port, "nochunk", id_, offset, 2))
        else:
            self.down.append((port, "chunk", id_, offset, content[offset:offset + min(count, self.limits["chunk"])]))

    # ---- the services

    def connect(self, port):
        self.services[port].connect()

    def down_frame(self, k):
        if not 1 <= k <= len(self.down):
            raise Refused("NoSuchFrame")
        port, *message = self.down[k - 1]
        self.note = self.services[port].take(*message)

    def work(self, k):
        if not 1 <= k <= len(self.works) or self.works[k - 1][0] is None:
            raise Refused("NoSuchWork")
        lease, id_, version, offset, chunk, port = self.works[k - 1]
        self.works[k - 1] = (None, id_, version, offset, chunk, port)
        self.note = self.services[port].finish(lease, version, chunk)

    def patterns(self, version):
        return next(patterns for v, patterns in self.sets if v == version)

    def publish(self, version, patterns):
        if not 1 <= version or len(patterns) > 1024 or any(len(p) > 64 or not low <= high <= LAST_PLACE for p, low, high in patterns) \
                or sum(len(p) for p, _, _ in patterns) > 16384:
            raise Refused("BadSet")
        if self.sets and version <= self.sets[-1][0]:
            raise Refused("OldVersion")
        if len(self.sets) >= 4096:
            raise Refused("CatalogueFull")
        self.sets.append((version, patterns))
        self.own.append("version %d signatures %d" % (version, len(patterns)))
        for port in (1, 2):
            self.services[port].publish(version)

    def disconnect_service(self, port):
        self.services[port].disconnect()

    def restart_service(self, port):
        self.services[port].restart()

    def judge(self, name):
        s = self.named(name)
        if not self.sets:
            raise Refused("NoSignatures")
        version, patterns = self.sets[-1]
        self.own.append("judge %d generation %d version %d %s" % (s, self.generation(s), version, verdict_words(verdict_of(patterns, self.volume.streams[s][2]))))


def lines_of(script):
    """The lines that a script of good lines prints."""
    world, limits = None, dict(MAXIMA)
    for line in script.split("\n"):
        verb, *words = line.split(" ")
        if not line or line.startswith("#"):
            continue
        if verb == "limit":
            limits[words[0]] = int(words[1])
        elif verb == "volume":
            world = World(int(words[0]), words[1] == "open", limits)
        else:
            run(world, verb, words)
    return world.lines


def lines_of_command(world, line):
    """Runs a command, and gives the lines that it prints."""
    before = len(world.lines)
    verb, *words = line.split(" ")
    run(world, verb, words)
    return world.lines[before:]


def run(world, verb, words):
    name = words[0].encode("latin-1") if words else b""
    port = 2 if words[-1:] == ["2"] else 1
    steps = {
        "publish": lambda: (world.publish, int(words[0]), [pattern_of(w) for w in words[1:]]),
        "create": lambda: (world.create, name), "remove": lambda: (world.remove, name), "cleanup": lambda: (world.cleanup, name),
        "judge": lambda: (world.judge, name), "open": lambda: (world.open, name, *map(int, words[1:])),
        "write": lambda: (world.changed, name, int(words[1]), b"" if words[2] == "-" else bytes.fromhex(words[2])),
        "cut": lambda: (world.changed, name, int(words[1]), None), "connect": lambda: (world.connect, port),
        "down": lambda: (world.down_frame, int(name)), "up": lambda: (world.up_frame, int(name)), "work": lambda: (world.work, int(name)),
        "timeout": lambda: (world.timeout, int(name)),
        "disconnect": lambda: (world.disconnect_filter if words[0] == "filter" else world.disconnect_service, port),
        "restart": lambda: (world.restart_filter,) if words[0] == "filter" else (world.restart_service, port),
    }
    world.step(*steps[verb]())
