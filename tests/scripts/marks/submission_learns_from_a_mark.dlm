# A submission learns a slot from the mark of a higher host with three calls, and is not outrun by it: then the log is full.
cluster 1 1
start 3
submit 3 1 enqueue 1 5 4 NL a
step 3 17
mark 3 0
step 3 8
start 0
submit 0 1 enqueue 0 14 3 EX a
step 0 3
