#!/usr/bin/env python3
"""ask.py OPENS FILE..: what the guard at OPENS says of each file, in the lines of `avguard ask -k`.

Up to AHEAD small files are asked about before the first is answered, so that they are judged side by side. Answers come as they are known:
the tag, which the client chooses, shows which file one is of. A file above SMALL bytes goes in parts. docs/FORMATS.md has the frames, in
"Asking a guard" and "Contents in parts".

As a module it asks for a program:

    from ask import Guard
    with Guard("/run/avscan-guard/opens.socket", seconds=30) as guard:
        is_granted = guard.judged(content).startswith("granted")        # bytes of any length
        is_granted = guard.judged_file(file).startswith("granted")      # a file that was opened by open(name, "rb")
    with Guard("/run/avscan-guard/opens.socket") as guard:
        for version in guard.versions(): ...                            # of the signatures, and each newer one as it comes
"""
import io, os, select, socket, struct, sys

MOST = 1 << 20   # the most bytes of an ask, and of a part
SMALL = 1 << 16  # a longer content goes in parts
AHEAD = 64       # the guard's answers to so many asks always fit into the socket's buffer
AGAINS = 3       # how often a content is sent again because newer signatures came

# Causes of a content that was denied or not scanned, in words. The last four are of contents in parts alone.
INFECTED, NO_SERVICE, TIMED_OUT, AGAIN, LARGER, GIVEN_UP, NO_PARTS = 2, 3, 5, 11, 12, 13, 14
WHY = {1: "no stream", 2: "infected", 3: "not connected", 4: "busy", 5: "timed out", 6: "service lost", 7: "scan failed", 8: "unsettled",
       9: "removed", 10: "filter restarted", 11: "ask again", 12: "too large", 13: "given up", 14: "takes no parts"}


class Lost(Exception):
    """The guard closed the connection, or sent what is no answer."""


def cause_of(words):
    """The cause in the words of an answer, or None if it is a grant."""
    return None if words.startswith("granted") else int(words.rsplit(" ", 1)[1])


class Guard:
    """A connection to a guard. One that sends or takes nothing for so many seconds is Lost."""

    def __init__(self, path, seconds=60):
        self.told, self.takes_parts = {}, True
        self.socket = socket.socket(socket.AF_UNIX)
        self.socket.settimeout(seconds)
        try:
            self.socket.connect(path)
        except OSError:
            self.socket.close()
            raise

    def __enter__(self):
        return self

    def __exit__(self, *_):
        self.socket.close()

    def judged(self, content, tag=0):
        """Asks about a content of any length and waits for what is said of it, as the words of a line: only `granted ..` says that it is
        clean. No other ask or content with this tag may be under way."""
        return self.judged_file(io.BytesIO(content), tag)

    def judged_file(self, file, tag=0):
        """The same of a binary file, which is read from where it stands, SMALL bytes at a time. It is read again from there if newer
        signatures came meanwhile. OSError if it can't be read; the connection is as it was then."""
        begun = file.tell() if file.seekable() else None
        for _ in range(AGAINS + 1):
            words = self.judged_once(file, tag)
            takes_none = cause_of(words) == NO_PARTS and self.takes_parts
            if begun is None or not (takes_none or cause_of(words) == AGAIN):
                break
            self.takes_parts = self.takes_parts and not takes_none
            file.seek(begun)
        return words

    def judged_once(self, file, tag):
        small = SMALL if self.takes_parts else MOST
        some = filled(file, small + 1)
        if len(some) <= small:
            self.ask(tag, some)
            return self.answer_of(tag)
        content = self.begin(tag)
        try:
            while some and content.part(some) is None:
                some = filled(file, SMALL)
        except OSError:
            content.give_up()
            raise
        return content.end()

    def ask(self, tag, content, label=b""):
        """Sends an ask about at most MOST bytes, ValueError above that. The label, at most 255 bytes, is for logs alone."""
        if len(content) > MOST:
            raise ValueError("TooLarge")
        self.send(1, tag, bytes([len(label)]), label, content)

    def begin(self, tag, label=b""):
        """Begins a Content that goes in parts. One is open at a time, and asks with other tags may come between its parts."""
        self.send(5, tag, bytes([len(label)]), label)
        return Content(self, tag)

    def answer(self):
        """Waits for the next answer: its tag, and its words."""
        if self.told:
            return self.told.popitem()
        return self.received()

    def answer_of(self, tag):
        """Waits for the answer of this tag. Others that come meanwhile are kept for `answer`."""
        while tag not in self.told:
            other, words = self.received()
            self.told[other] = words
        return self.told.pop(tag)

    def versions(self, seconds=None):
        """Yields the version of the signatures by which the guard answers, once a service has connected, and then each newer one as it
        comes; None if none came for so many seconds. Lost at a guard that has none of this. The connection is for this alone."""
        version = 0
        while True:
            self.send(8, 0, struct.pack(">Q", version))
            while not select.select([self.socket], [], [], seconds)[0]:
                yield None
            size, kind, _, version = struct.unpack(">IBQQ", self.exactly(21))
            if (size, kind) != (17, 9):
                raise Lost
            yield version

    def send(self, kind, tag, *fields):
        body = struct.pack(">BQ", kind, tag) + b"".join(fields)
        try:
            self.socket.sendall(struct.pack(">I", len(body)) + body)
        except OSError:
            raise Lost from None

    def received(self):
        size, = struct.unpack(">I", self.exactly(4))
        body = self.exactly(size if size <= 25 else 0)
        if (body[:1], size) == (b"\2", 25):
            return struct.unpack(">Q", body[1:9])[0], "granted generation %d version %d" % struct.unpack(">QQ", body[9:])
        if (body[:1], size) == (b"\3", 10):
            return struct.unpack(">Q", body[1:9])[0], "denied cause %d" % body[9]
        if (body[:1], size) == (b"\4", 18):
            return struct.unpack(">Q", body[1:9])[0], "unscanned generation %d cause %d" % struct.unpack(">QB", body[9:])
        raise Lost

    def exactly(self, count):
        data = b""
        while len(data) < count:
            try:
                piece = self.socket.recv(count - len(data))
            except OSError:
                raise Lost from None
            if not piece:
                raise Lost
            data += piece
        return data


class Content:
    """A content that goes in parts: `part` as often as there are bytes, then `end` or `give_up`. An answer may come before the end, for
    example that a signature was found. The rest need not be sent then."""

    def __init__(self, guard, tag):
        self.guard, self.tag, self.count = guard, tag, 0

    def early(self):
        """The words of an answer that came before the end, or None."""
        while self.tag not in self.guard.told and select.select([self.guard.socket], [], [], 0)[0]:
            tag, words = self.guard.received()
            self.guard.told[tag] = words
        words = self.guard.told.get(self.tag)
        if words and words.startswith("granted"):
            raise Lost  # the guard doesn't know the whole content
        return words

    def part(self, some):
        """Sends 1 to MOST bytes and gives None; or it gives the early answer and sends nothing."""
        words = self.early()
        if words is None:
            self.guard.send(6, self.tag, some)
            self.count += len(some)
        return words

    def end(self):
        """Ends a whole content and waits for its answer. Of one with an early answer it gives that answer."""
        return self.close(0 if self.early() is None else 1)

    def give_up(self):
        """Ends a content that can't be sent whole. Its answer is never a grant."""
        return self.close(1)

    def close(self, how):
        self.guard.send(7, self.tag, bytes([how]), struct.pack(">Q", self.count))
        words = self.guard.answer_of(self.tag)
        if how and words.startswith("granted"):
            raise Lost
        return words


def filled(file, most):
    """The next bytes of a file, fewer than so many only at its end."""
    pieces, left = [], most
    while left and (some := file.read(left)):
        pieces.append(some)
        left -= len(some)
    return b"".join(pieces)


def failed(status, name, fault):
    """Says on standard error what went wrong with a file or a socket."""
    print(f"ask.py: {name}: {fault}", file=sys.stderr)
    return status


def ask_all(guard, files, told):
    """Asks about each file that can be read, and keeps what is answered: the greatest status of those that were not judged. Small files are
    asked about up to AHEAD at once, and a long one between them goes alone."""
    status, owed = 0, 0

    def keep(tag, words):
        nonlocal status
        told[tag] = words
        if not words.startswith("granted") and words != "denied cause 2":
            status = max(status, 4)

    for tag, name in enumerate(files):
        try:
            with open(name, "rb", buffering=0) as file:
                size = os.fstat(file.fileno()).st_size
                content = filled(file, SMALL + 1) if size <= SMALL else None
                if content is None or len(content) > SMALL:
                    if content:
                        file.seek(0)
                    keep(tag, guard.judged_file(file, tag))
                    continue
        except OSError:
            status = max(status, failed(4, name, "cannot read"))
            continue
        if owed == AHEAD:
            keep(*guard.answer())
            owed -= 1
        guard.ask(tag, content)
        owed += 1
    for _ in range(owed):
        keep(*guard.answer())
    return status


def main():
    if len(sys.argv) < 3:
        print("usage: ask.py OPENS FILE..", file=sys.stderr)
        return 2
    opens, files, told = sys.argv[1], sys.argv[2:], {}
    if not 1 <= len(opens.encode(errors="surrogateescape")) <= 107:
        return failed(2, opens, "the path of a socket has 1 to 107 bytes")
    try:
        guard = Guard(opens)
    except PermissionError:
        return failed(4, opens, "may not be entered")
    except OSError:
        return failed(4, opens, "no guard listens")
    try:
        status = ask_all(guard, files, told)
    except Lost:
        status = failed(4, opens, "the guard was lost")
    try:
        for tag, name in enumerate(files):
            if tag in told:
                print(f"{name} {told[tag]}")
        sys.stdout.flush()
    except OSError:
        print("ask.py: device", file=sys.stderr)
        return 4
    return status


if __name__ == "__main__":
    sys.exit(main())
