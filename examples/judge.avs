# A first script: run it by `avscan run examples/judge.avs`.

# A volume with the number 1. What can't be scanned is denied ("closed") and not let through ("open").
volume 1 closed

# Version 1 of the signatures: two byte strings in hexadecimal, "EVIL" and "BAD".
publish 1 4556494c 424144

# A stream is created at generation 1; each write and cut raises its generation.
create letter
write letter 0 48656c6c6f
judge letter

# "Hello" becomes "Hello BAD": the second signature (index 1) ends at byte 9.
write letter 5 20424144
judge letter

# Without its last byte it is clean again.
cut letter 8
judge letter

# Version 2 looks for "ello": the same content has another verdict under it.
publish 2 656c6c6f
judge letter

# What can't be done is refused by name and changes nothing.
write letter 100 41
judge nobody
