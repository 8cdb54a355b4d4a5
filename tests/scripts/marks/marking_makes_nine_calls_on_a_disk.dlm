# A marking makes nine calls on a disk where it writes: it is not over after eight.
cluster 1 1
start 3
submit 3 1 enqueue 1 5 4 NL a
step 3 17
mark 3 0
step 3 8
