# On one disk a failing call ends a look, and the host has learned nothing. It looks again, and then the slot is learned.
cluster 1 2
start 0
submit 0 1 enqueue 1 1 1 EX db
step 0 17
mark 0 0
step 0 9
start 1
look 1
step 1 1
fail 1 a5
show 1
look 1
step 1 4
show 1
