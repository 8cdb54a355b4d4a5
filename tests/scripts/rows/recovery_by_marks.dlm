# A marked slot is learned in three calls a disk.
cluster 3 4
start 0
submit 0 1 enqueue 1 1 1 EX db
step 0 51
mark 0 0
step 0 27
start 1
recover 1 1
step 1 39
