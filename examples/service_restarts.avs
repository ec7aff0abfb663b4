# The scanning service restarts while two opens wait: what it had begun grants nothing, and what is opened later is scanned anew.
volume 1 closed
publish 1 4556494c
create letter
write letter 0 48656c6c6f
create note
write note 0 4279
connect
up 1

# Two opens wait, and some bytes of the letter are lent out to be scanned.
open letter
open note
down 1
up 2
down 3

# The service restarts: it has no scans any more, and what comes back is nobody's.
restart service
work 1

# The filter learns that it is lost, and denies what waits ("closed").
disconnect filter

# The service greets again. A message of a scan that was given up comes once more: there is no such question.
connect
up 3
down 1
up 4
down 4

# What is opened now is scanned from its beginning, and granted.
open letter
down 5
up 5
down 6
work 2
up 6
