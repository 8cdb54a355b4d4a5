# A request that is made again gets the reply that was kept, also in a later epoch and by another host. An older one is refused.
cluster 1 6 epochs
submit 0 8 enqueue 1 5 1 EX db
step 0 600
submit 0 8 enqueue 1 5 1 EX db
step 0 600
submit 0 8 enqueue 1 4 2 EX log
step 0 600
submit 0 8 enqueue 2 1 2 PR db
step 0 600
submit 0 8 enqueue 2 1 3 NL other
step 0 600
submit 0 8 release 3 1 1
step 0 600
submit 4 8 enqueue 1 5 1 EX db
step 4 2000
show 4
submit 4 8 enqueue 2 1 2 PR db
step 4 2000
submit 4 8 release 1 6 1
step 4 2000
submit 0 8 release 1 6 1
step 0 2000
submit 0 8 enqueue 1 5 1 EX db
step 0 2000
show 0
recover 4 8
step 4 2000
show 4
