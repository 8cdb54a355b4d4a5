# The gate of a vote was opened and not yet synced. A recovery syncs before it reads, so after the crash the vote is still there.
cluster 1 2
start 0
submit 0 1 enqueue 1 1 1 EX db
step 0 15
stop 0
start 0
recover 0 1
step 0 4
stop 0
crash 0 00
start 0
recover 0 1
step 0 27
show 0
