limit streams 2
limit generation 23
limit questions 3
limit jobs 1
limit cache 3
volume 1 closed
create a
write a 5 4242
cut b 0
cut a 2
publish 1 4242
disconnect filter
connect
open b
open b 3
work 1
cut b 0
timeout 0
cut c 1
open a
work 1
write b 0 41
up 1
open b
cleanup b
cleanup a
up 2
up 2
cleanup a
cleanup a
cleanup c
up 1
up 1
cleanup c
cleanup b
cleanup a
open b
remove b
restart service
up 1
up 1
open b
publish 3 41 4241
up 1
restart service
open a
publish 5 42 4242
cleanup b
up 1
publish 7 4142
write a 0 42424141
publish 9 41
up 1
publish 10
connect
timeout 0
create a
create c
disconnect service
down 1
write a 0 424241
judge b
cut b 2
connect
up 3
timeout 0
open b
timeout 0
open a
down 1
up 4
open b
open a
open b
open a 12
open a
open a
open b
timeout 0
open a 11
open a
open b
open b 10
open a 12
open b
open b
timeout 0
write c 2 41
publish 10 42
write a 5 41
open c
write a 0 -
open a
disconnect service
open a
create c
up 3
write a 0 4242
open a
write a 0 4141
up 5
open b
connect
up 5
up 5
cleanup b
write a 1 414242
down 10
restart service
cleanup a
connect
down 10
up 5
up 5
up 5
down 10
write b 0 -
restart filter
open b
open a
write c 4 4242
open b
open c
open b
judge b
write c 0 4142
open a
remove a
create b
down 10
cut b 0
open a
open a
remove b
write a 0 414141
write a 0 424241
up 7
work 1
write a 4 -
timeout 0
write a 5 41
up 6
restart filter
write a 0 414241
write a 0 4142
cut b 1
timeout 0
up 6
write a 4 42
write b 1 41
judge c
down 10
disconnect filter
disconnect service
up 6
create b
down 11
disconnect service
up 5
up 6
up 6
write b 0 4241
up 5
up 5
up 7
up 5
create b
restart filter
disconnect filter
down 10
down 10
down 4
down 12
down 10
connect
work 1
connect
cleanup a
cleanup c
create c
disconnect service
restart filter
write a 1 -
up 7
up 6
write a 1 42424242
up 7
write a 0 -
write a 0 42414141
write c 0 4142
write a 0 41
write b 2 424242
write b 0 414141
up 6
open a
up 7
open c
down 12
cleanup a
down 11
down 12
cut a 3
up 6
cut a 2
up 7
cut a 0
