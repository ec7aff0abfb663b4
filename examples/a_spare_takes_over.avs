# The service is lost while an open waits. A spare at port 2 is asked in its place, and the open goes on waiting.
volume 1 closed
publish 1 4556494c
create letter
write letter 0 48656c6c6f
connect
up 1
connect 2
up 2

# The letter is opened; the first service begins to scan it.
open letter
down 1
up 3
down 2

# It is lost: the question is asked again, at port 2.
disconnect filter
down 3
up 4
down 4

# The late answer of the lost service names a question that has ended. It grants nothing.
work 1
up 5

# The spare's answer does.
work 2
up 6
