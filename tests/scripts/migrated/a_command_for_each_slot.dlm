# A log may have a command for each slot. Then it is full, and a recovery ends with the last of them.
cluster 1 2
log 0 enqueue 1 1 1 EX db
log 1 enqueue 2 1 2 EX db noqueue
start 0
submit 0 1 status 1 2 1
step 0 6
recover 0 1
show 0
