# The accident: an open waits for a scan, the content changes, and then the scan's late answer "clean" comes in.
volume 1 closed

# Signatures, version 1: the bytes of "EVIL".
publish 1 4556494c
create letter
write letter 0 48656c6c6f

# The scanning service connects, and the filter takes its greeting.
connect
up 1

# The letter says "Hello" and is opened: the open waits, and the service is asked to scan generation 2.
open letter
down 1
up 2
down 2

# While the bytes of generation 2 lie at the service, the letter becomes "EVILo". The filter ends its question and asks another.
write letter 0 4556494c

# The scan of the old bytes ends: clean. The reply comes in late, names a question that has ended, and grants nothing.
work 1
up 3

# The service learns that its scan was given up, scans generation 3 and finds the signature: the open is denied.
down 3
down 4
up 4
down 5
work 2
up 5
