# The first calls on two of three disks fail: no majority is left, and the host makes no further call.
cluster 3 2
start 0
submit 0 1 enqueue 1 1 1 EX db
fail 0 00
fail 0 00
