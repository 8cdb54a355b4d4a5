# A purge of a CR lock leaves the value valid.
cluster 1 4
start 0
start 1
submit 0 1 enqueue 249 2 3 CR a
step 0 15
submit 1 1 enqueue 1 27 4 CW a
step 1 34
submit 1 1 purge 0 32 0
step 1 17
show 1
