# A recovery that was told of no vote takes nothing away from a vote that others find later.
cluster 3 2
start 0
submit 0 1 enqueue 1 1 1 EX db
step 0 36
stop 0
start 1
recover 1 1
fail 1 00
step 1 20
start 0
recover 0 1
step 0 81
recover 1 1
step 1 81
