# A disk fails a call, and two of three acknowledge. Another is lost, and the command is recovered all the same.
cluster 3 2
start 0
submit 0 1 enqueue 1 1 1 EX db
fail 0 00
step 0 34
stop 0
gone 2
start 1
recover 1 1
step 1 56
show 1
