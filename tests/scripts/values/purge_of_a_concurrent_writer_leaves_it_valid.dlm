# A purge of a CW lock leaves the value valid.
cluster 1 4
start 13
start 1
submit 1 1 enqueue 1 5 1 CW a
step 1 17
submit 13 1 enqueue 0 6 3 EX a
step 13 32
submit 1 1 purge 2 11 1
step 1 34
show 1
