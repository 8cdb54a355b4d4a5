# Hosts that are busy take no task, idle ones make no call, and a host that stops knows nothing. A slot is marked in the epoch where the host is.
cluster 1 6 epochs
start 0
step 0 5
mark 0 0
tear 0 00
fail 0 00
submit 0 1 enqueue 1 1 1 EX db
submit 0 1 enqueue 1 2 2 EX log
look 0
beat 0
mark 0 0
step 0 600
mark 0 0
step 0 600
mark 0 1
stop 0
show 0
blocking 0
look 0
step 0 600
show 0
beat 0
step 0 600
beat 0
step 0 600
gone 0
look 0
step 0 600
submit 0 1 release 1 2 1
step 0 600
