#!/usr/bin/env python3
"""Scripts of a world, each command beside the lines that it prints: `COMMAND | LINE | LINE ..`, a case a name.

They are written by hand from docs/CONDUCT.md and docs/FORMATS.md, and what the plain model of plain_world.py prints for each is
compared as well. The last line says how many passed and how many failed."""
import os, subprocess, sys
import plain_world

SECONDS = 60

# Common beginnings: a stream of three bytes with a connected service, and the same with its scan up to the clean reply.
CONNECTED = """
volume 1 closed | boot 1
publish 1 5858 | version 1 signatures 1
create a | stream 1 generation 1
write a 0 414243 | stream 1 generation 2 length 3
connect | up 1 hello volume 1 version 1
up 1 | note Welcome
"""
SCANNED = CONNECTED + """
open a | open 1 pended | down 1 scan 1.1 stream 1 generation 2 length 3
down 1 | up 2 read 1.1 offset 0 count 3
up 2 | down 2 chunk 1.1 offset 0 bytes 414243
down 2 | work 1 lent 1.1 offset 0 length 3
work 1 | up 3 reply 1.1 version 1 clean
"""


def in_open_mode(lines):
    return lines.replace("volume 1 closed", "volume 1 open")


TWO_STREAMS = """
publish 1 5858 | version 1 signatures 1
create a | stream 1 generation 1
write a 0 41 | stream 1 generation 2 length 1
create b | stream 2 generation 1
write b 0 42 | stream 2 generation 2 length 1
connect | up 1 hello volume 1 version 1
up 1 | note Welcome
"""

CASES = {
    # limits of one
    "a question past the limit is denied and the running one is joined": """
limit questions 1
volume 1 closed | boot 1
""" + TWO_STREAMS + """
open a | open 1 pended | down 1 scan 1.1 stream 1 generation 2 length 1
open b | open 2 denied cause 4
open a | open 3 pended
cleanup b
timeout 1 | open 1 denied cause 5 | open 3 denied cause 5 | down 2 abort 1.1
open b | open 4 pended | down 3 scan 1.2 stream 2 generation 2 length 1
cleanup a
""",
    "a question past the limit is let through in fail-open mode": """
limit questions 1
volume 1 open | boot 1
""" + TWO_STREAMS + """
open a | open 1 pended | down 1 scan 1.1 stream 1 generation 2 length 1
open b | open 2 unscanned stream 2 generation 2 cause 4
""",
    "an open past the pended limit is told so before anything else": """
limit pended 1
limit questions 1
volume 1 open | boot 1
""" + TWO_STREAMS + """
open a | open 1 pended | down 1 scan 1.1 stream 1 generation 2 length 1
open a | open 2 unscanned stream 1 generation 2 cause 4
open b | open 3 unscanned stream 2 generation 2 cause 4
open c | open 4 denied cause 1
""",
    "a second job is refused and its open is let through in fail-open mode": """
limit jobs 1
volume 1 open | boot 1
""" + TWO_STREAMS + """
open a | open 1 pended | down 1 scan 1.1 stream 1 generation 2 length 1
open b | open 2 pended | down 2 scan 1.2 stream 2 generation 2 length 1
down 2 | up 2 read 1.2 offset 0 count 1
down 1 | up 3 reply 1.1 failed 1
up 3 | open 1 unscanned stream 1 generation 2 cause 7
""",
    "a cache of one forgets the verdict before the last": """
limit cache 1
volume 1 closed | boot 1
""" + TWO_STREAMS + """
open a | open 1 pended | down 1 scan 1.1 stream 1 generation 2 length 1
open b | open 2 pended | down 2 scan 1.2 stream 2 generation 2 length 1
down 1 | up 2 read 1.1 offset 0 count 1
down 2 | up 3 read 1.2 offset 0 count 1
up 2 | down 3 chunk 1.1 offset 0 bytes 41
up 3 | down 4 chunk 1.2 offset 0 bytes 42
down 3 | work 1 lent 1.1 offset 0 length 1
down 4 | work 2 lent 1.2 offset 0 length 1
work 1 | up 4 reply 1.1 version 1 clean
work 2 | up 5 reply 1.2 version 1 clean
up 4 | open 1 granted stream 1 generation 2 version 1 least 0
up 5 | open 2 granted stream 2 generation 2 version 1 least 0
restart filter | boot 2
disconnect service
connect | up 6 hello volume 1 version 1
up 6 | note Welcome
open b | open 3 pended | down 5 scan 2.1 stream 2 generation 2 length 1
open a | open 4 pended | down 6 scan 2.2 stream 1 generation 2 length 1
down 5 | up 7 reply 2.1 version 1 clean
down 6 | up 8 read 2.2 offset 0 count 1
""",
    "a cache of two knows both": """
limit cache 2
volume 1 closed | boot 1
""" + TWO_STREAMS + """
open a | open 1 pended | down 1 scan 1.1 stream 1 generation 2 length 1
open b | open 2 pended | down 2 scan 1.2 stream 2 generation 2 length 1
down 1 | up 2 read 1.1 offset 0 count 1
down 2 | up 3 read 1.2 offset 0 count 1
up 2 | down 3 chunk 1.1 offset 0 bytes 41
up 3 | down 4 chunk 1.2 offset 0 bytes 42
down 3 | work 1 lent 1.1 offset 0 length 1
down 4 | work 2 lent 1.2 offset 0 length 1
work 1 | up 4 reply 1.1 version 1 clean
work 2 | up 5 reply 1.2 version 1 clean
disconnect filter | open 1 denied cause 6 | open 2 denied cause 6
disconnect service
connect | up 6 hello volume 1 version 1
up 6 | note Welcome
open b | open 3 pended | down 5 scan 1.3 stream 2 generation 2 length 1
open a | open 4 pended | down 6 scan 1.4 stream 1 generation 2 length 1
down 5 | up 7 reply 1.3 version 1 clean
down 6 | up 8 reply 1.4 version 1 clean
""",
    "chunks of one byte find a signature over three of them": """
limit chunk 1
volume 1 open | boot 1
publish 1 4243 | version 1 signatures 1
create a | stream 1 generation 1
write a 0 41424344 | stream 1 generation 2 length 4
connect | up 1 hello volume 1 version 1
up 1 | note Welcome
open a | open 1 pended | down 1 scan 1.1 stream 1 generation 2 length 4
down 1 | up 2 read 1.1 offset 0 count 1
up 2 | down 2 chunk 1.1 offset 0 bytes 41
down 2 | work 1 lent 1.1 offset 0 length 1
work 1 | up 3 read 1.1 offset 1 count 1
up 3 | down 3 chunk 1.1 offset 1 bytes 42
down 2 | note Ignored
down 3 | work 2 lent 1.1 offset 1 length 1
down 3 | note Ignored
work 2 | up 4 read 1.1 offset 2 count 1
up 4 | down 4 chunk 1.1 offset 2 bytes 43
down 4 | work 3 lent 1.1 offset 2 length 1
work 3 | up 5 reply 1.1 version 1 infected 0 end 3
up 5 | open 1 denied cause 2
""",
    # every refused word that a script can reach
    "nothing is connected without a set, and nothing twice": """
volume 1 closed | boot 1
connect | refused NoSignatures
publish 1 | version 1 signatures 0
connect | up 1 hello volume 1 version 1
connect | refused AlreadyConnected
disconnect service
connect | up 2 hello volume 1 version 1
""",
    "a refused connection names the missing set first": """
volume 1 closed | boot 1
publish 0 | refused BadSet
connect | refused NoSignatures
connect | refused NoSignatures
""",
    "frames that were not sent are refused": """
volume 1 closed | boot 1
down 0 | refused NoSuchFrame
down 1 | refused NoSuchFrame
up 0 | refused NoSuchFrame
up 1 | refused NoSuchFrame
publish 1 | version 1 signatures 0
connect | up 1 hello volume 1 version 1
up 0 | refused NoSuchFrame
up 2 | refused NoSuchFrame
up 18446744073709551615 | refused NoSuchFrame
down 1 | refused NoSuchFrame
down 18446744073709551615 | refused NoSuchFrame
up 1 | note Welcome
""",
    "work that was not lent, and work that came back, is refused": """
volume 1 closed | boot 1
work 0 | refused NoSuchWork
work 1 | refused NoSuchWork
work 18446744073709551615 | refused NoSuchWork
""",
    "the same work is done once": SCANNED + """
work 1 | refused NoSuchWork
work 0 | refused NoSuchWork
work 2 | refused NoSuchWork
up 3 | open 1 granted stream 1 generation 2 version 1 least 0
work 1 | refused NoSuchWork
""",
    "an unknown name is refused at each command, but at create and open": CONNECTED + """
write b 0 41 | refused NoSuchName
cut b 0 | refused NoSuchName
remove b | refused NoSuchName
cleanup b | refused NoSuchName
judge b | refused NoSuchName
open b | open 1 denied cause 1
open b 7 | open 2 denied cause 1
open a | open 3 pended | down 1 scan 1.1 stream 1 generation 2 length 3
""",
    "an unknown name is denied in fail-open mode too": in_open_mode(CONNECTED) + """
open b | open 1 denied cause 1
open \x7f | open 2 denied cause 1
""",
    "a removed name is unknown and its number is not given again": CONNECTED + """
remove a | removed 1
remove a | refused NoSuchName
write a 0 41 | refused NoSuchName
cleanup a | refused NoSuchName
judge a | refused NoSuchName
open a | open 1 denied cause 1
create a | stream 2 generation 1
judge a | judge 2 generation 1 version 1 clean
remove a | removed 2
""",
    "a removal makes room for a stream": """
limit streams 1
volume 1 closed | boot 1
create a | stream 1 generation 1
create b | refused Full
remove a | removed 1
create b | stream 2 generation 1
""",
    "refused changes of a stream that is scanned change nothing": SCANNED + """
write a 4 41 | refused Hole
cut a 4 | refused Hole
create a | refused Exists
up 3 | open 1 granted stream 1 generation 2 version 1 least 0
""",
    "a generation that is spent leaves the scan alone": """
limit generation 2
volume 1 closed | boot 1
publish 1 | version 1 signatures 0
create a | stream 1 generation 1
write a 0 41 | stream 1 generation 2 length 1
connect | up 1 hello volume 1 version 1
up 1 | note Welcome
open a | open 1 pended | down 1 scan 1.1 stream 1 generation 2 length 1
write a 0 42 | refused GenerationSpent
cut a 0 | refused GenerationSpent
remove a | removed 1 | open 1 denied cause 9 | down 2 abort 1.1
""",
    # answers in both modes
    "an infected content is denied": """
volume 1 closed | boot 1
publish 1 42 4243 | version 1 signatures 2
create a | stream 1 generation 1
write a 0 414243 | stream 1 generation 2 length 3
connect | up 1 hello volume 1 version 1
up 1 | note Welcome
open a | open 1 pended | down 1 scan 1.1 stream 1 generation 2 length 3
open a | open 2 pended
down 1 | up 2 read 1.1 offset 0 count 3
up 2 | down 2 chunk 1.1 offset 0 bytes 414243
down 2 | work 1 lent 1.1 offset 0 length 3
work 1 | up 3 reply 1.1 version 1 infected 0 end 2
up 3 | open 1 denied cause 2 | open 2 denied cause 2
open a | open 3 denied cause 2
judge a | judge 1 generation 2 version 1 infected 0 end 2
""",
    "an infected content is denied in fail-open mode too": """
volume 1 open | boot 1
publish 1 43 | version 1 signatures 1
create a | stream 1 generation 1
write a 0 43 | stream 1 generation 2 length 1
connect | up 1 hello volume 1 version 1
up 1 | note Welcome
open a | open 1 pended | down 1 scan 1.1 stream 1 generation 2 length 1
down 1 | up 2 read 1.1 offset 0 count 1
up 2 | down 2 chunk 1.1 offset 0 bytes 43
down 2 | work 1 lent 1.1 offset 0 length 1
work 1 | up 3 reply 1.1 version 1 infected 0 end 1
up 3 | open 1 denied cause 2
""",
    "an empty content is clean without a read": """
volume 1 closed | boot 1
publish 1 58 | version 1 signatures 1
create a | stream 1 generation 1
connect | up 1 hello volume 1 version 1
up 1 | note Welcome
open a | open 1 pended | down 1 scan 1.1 stream 1 generation 1 length 0
down 1 | up 2 reply 1.1 version 1 clean
up 2 | open 1 granted stream 1 generation 1 version 1 least 0
""",
    "a lost service lets through in fail-open mode, in the order of the opens": in_open_mode(CONNECTED) + """
open a | open 1 pended | down 1 scan 1.1 stream 1 generation 2 length 3
open a 3 | open 2 pended
disconnect filter | open 1 unscanned stream 1 generation 2 cause 6 | open 2 unscanned stream 1 generation 2 cause 6
disconnect filter
open a | open 3 unscanned stream 1 generation 2 cause 3
""",
    "a restarted filter lets through what waited in fail-open mode": in_open_mode(SCANNED) + """
restart filter | boot 2 | open 1 unscanned stream 1 generation 2 cause 10
up 3 | note NoWaiter
restart filter | boot 3
""",
    "a removal denies in fail-open mode too": in_open_mode(CONNECTED) + """
open a | open 1 pended | down 1 scan 1.1 stream 1 generation 2 length 3
remove a | removed 1 | open 1 denied cause 9 | down 2 abort 1.1
""",
    "a cut asks again like a write": SCANNED + """
cut a 1 | stream 1 generation 3 length 1 | down 3 abort 1.1 | down 4 scan 1.2 stream 1 generation 3 length 1
up 3 | note NoWaiter
down 3 | note Ignored
down 4 | up 4 read 1.2 offset 0 count 1
up 4 | down 5 chunk 1.2 offset 0 bytes 41
down 5 | work 2 lent 1.2 offset 0 length 1
work 2 | up 5 reply 1.2 version 1 clean
up 5 | open 1 granted stream 1 generation 3 version 1 least 0
""",
    "a ninth write lets through in fail-open mode": in_open_mode(CONNECTED) + """
open a | open 1 pended | down 1 scan 1.1 stream 1 generation 2 length 3
""" + "".join(f"cut a 3 | stream 1 generation {n + 2} length 3 | down {2 * n} abort 1.{n} | down {2 * n + 1} scan 1.{n + 1} stream 1 generation {n + 2} length 3\n" for n in range(1, 9)) + """
cut a 3 | stream 1 generation 11 length 3 | open 1 unscanned stream 1 generation 11 cause 8 | down 18 abort 1.9
""",
    "an open that came later outlasts one that is given up": CONNECTED + """
open a | open 1 pended | down 1 scan 1.1 stream 1 generation 2 length 3
cut a 3 | stream 1 generation 3 length 3 | down 2 abort 1.1 | down 3 scan 1.2 stream 1 generation 3 length 3
open a | open 2 pended
""" + "".join(f"cut a 3 | stream 1 generation {n + 2} length 3 | down {2 * n} abort 1.{n} | down {2 * n + 1} scan 1.{n + 1} stream 1 generation {n + 2} length 3\n" for n in range(2, 9)) + """
cut a 3 | stream 1 generation 11 length 3 | open 1 denied cause 8 | down 18 abort 1.9 | down 19 scan 1.10 stream 1 generation 11 length 3
cut a 3 | stream 1 generation 12 length 3 | open 2 denied cause 8 | down 20 abort 1.10
""",
    # notes
    "a second greeting finds one connected, and one below the floor is old": CONNECTED + """
up 1 | note Connected
open b 2 | open 1 denied cause 1
disconnect filter
up 1 | note OldVersion
""",
    "a service that is not connected takes no message": CONNECTED + """
open a | open 1 pended | down 1 scan 1.1 stream 1 generation 2 length 3
disconnect service
down 1 | note Ignored
disconnect service
""",
    "a timeout of no question, and of one of an earlier boot, finds no waiter": SCANNED + """
timeout 0 | note NoWaiter
timeout 2 | note NoWaiter
timeout 18446744073709551615 | note NoWaiter
restart filter | boot 2 | open 1 denied cause 10
timeout 1 | note NoWaiter
""",
    "a chunk for a job that is gone is ignored": SCANNED + """
down 2 | note Ignored
restart service
down 2 | note Ignored
""",
    "a message in the other direction's list has its own place": CONNECTED + """
open a | open 1 pended | down 1 scan 1.1 stream 1 generation 2 length 3
down 1 | up 2 read 1.1 offset 0 count 3
down 2 | refused NoSuchFrame
up 2 | down 2 chunk 1.1 offset 0 bytes 414243
up 2 | down 3 chunk 1.1 offset 0 bytes 414243
down 3 | work 1 lent 1.1 offset 0 length 3
down 2 | note Ignored
""",
    # publications
    "a publication is told to a connected service alone": """
volume 7 closed | boot 1
publish 1 41 | version 1 signatures 1
publish 2 | version 2 signatures 0
connect | up 1 hello volume 7 version 2
publish 3 41 42 43 | version 3 signatures 3 | up 2 updated 3
disconnect service
publish 4 | version 4 signatures 0
restart service
connect | up 3 hello volume 7 version 4
""",
    "a publication starts every job anew in the order of their start": """
volume 1 closed | boot 1
""" + TWO_STREAMS + """
open b | open 1 pended | down 1 scan 1.1 stream 2 generation 2 length 1
open a | open 2 pended | down 2 scan 1.2 stream 1 generation 2 length 1
down 2 | up 2 read 1.2 offset 0 count 1
down 1 | up 3 read 1.1 offset 0 count 1
publish 2 41 | version 2 signatures 1 | up 4 updated 2 | up 5 read 1.2 offset 0 count 1 | up 6 read 1.1 offset 0 count 1
up 5 | down 3 chunk 1.2 offset 0 bytes 41
down 3 | work 1 lent 1.2 offset 0 length 1
work 1 | up 7 reply 1.2 version 2 infected 0 end 1
up 7 | open 2 denied cause 2
""",
    "an update raises the floor, so an earlier grant is not repeated": SCANNED + """
up 3 | open 1 granted stream 1 generation 2 version 1 least 0
publish 2 | version 2 signatures 0 | up 4 updated 2
open a | open 2 granted stream 1 generation 2 version 1 least 0
up 4
open a | open 3 pended | down 3 scan 1.2 stream 1 generation 2 length 3
""",
    "a least above the floor raises it": SCANNED + """
up 3 | open 1 granted stream 1 generation 2 version 1 least 0
open a 1 | open 2 granted stream 1 generation 2 version 1 least 1
open a 2 | open 3 pended | down 3 scan 1.2 stream 1 generation 2 length 3
open a 1 | open 4 pended
open a 18446744073709551615 | open 5 pended
""",
    "a cleanup asks only after a change": SCANNED + """
cleanup a
up 3 | open 1 granted stream 1 generation 2 version 1 least 0
cleanup a
write a 3 - | stream 1 generation 3 length 3
cleanup a | down 3 scan 1.2 stream 1 generation 3 length 3
down 3 | up 4 read 1.2 offset 0 count 3
up 4 | down 4 chunk 1.2 offset 0 bytes 414243
down 4 | work 2 lent 1.2 offset 0 length 3
work 2 | up 5 reply 1.2 version 1 clean
up 5
open a | open 2 granted stream 1 generation 3 version 1 least 0
""",
}

CASES["the greatest volume number and names of one and of 255 bytes"] = f"""
volume 18446744073709551615 closed | boot 1
publish 18446744073709551615 | version 18446744073709551615 signatures 0
create ! | stream 1 generation 1
create {"n" * 255} | stream 2 generation 1
connect | up 1 hello volume 18446744073709551615 version 18446744073709551615
up 1 | note Welcome
open {"n" * 255} | open 1 pended | down 1 scan 1.1 stream 2 generation 1 length 0
down 1 | up 2 reply 1.1 version 18446744073709551615 clean
up 2 | open 1 granted stream 2 generation 1 version 18446744073709551615 least 0
"""


def read(text):
    """A case's script, and the lines that it prints."""
    steps = [line.split(" | ") for line in text.splitlines() if line]
    return "".join(step[0] + "\n" for step in steps), [line for step in steps for line in step[1:]]


def main():
    if len(sys.argv) != 2:
        sys.exit("usage: tests/steps.py PROGRAM")
    passed = failed = 0
    for name, text in CASES.items():
        script, lines = read(text)
        done = subprocess.run([os.path.abspath(sys.argv[1]), "run", "-"], input=script.encode("latin-1"), stdout=subprocess.PIPE, stderr=subprocess.PIPE, timeout=SECONDS)
        wanted = "".join(line + "\n" for line in lines).encode()
        found = [what for what, holds in (
            ("the program prints other lines", done.stdout == wanted), (f"status {done.returncode}, {done.stderr!r}", done.returncode == 0 and not done.stderr),
            ("the plain model prints other lines", plain_world.lines_of(script) == lines)) if not holds]
        passed, failed = passed + (not found), failed + bool(found)
        for what in found:
            print(f"{name}: {what}")
    print(f"{passed} passed, {failed} failed")
    sys.exit(1 if failed else 0)


if __name__ == "__main__":
    main()
