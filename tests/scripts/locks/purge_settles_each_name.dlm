# A purge settles each name from which it takes a lock. What was stored there is not valid where that lock wrote alone.
cluster 1 8
start 0
start 1
submit 1 1 enqueue 1 1 1 EX a
step 1 17
submit 1 1 enqueue 1 2 2 EX b
step 1 17
submit 0 1 enqueue 2 1 3 EX a
step 0 51
submit 0 1 enqueue 2 2 4 EX b
step 0 17
submit 0 1 purge 3 1 1
step 0 17
submit 0 1 status 2 3 3
step 0 17
submit 0 1 status 2 4 4
step 0 17
