# With the last lock of a name its value goes, also where that lock was purged.
cluster 1 4
start 2
submit 2 1 enqueue 0 3 3 EX a
step 2 17
submit 2 1 purge 1 18 2
step 2 17
submit 2 1 enqueue 1 21 1 EX a
step 2 17
