# A recovery after a migration reads the mark of each slot that was moved, three calls a disk, and then the end of the log.
cluster 3 4
log 0 enqueue 1 1 1 EX db
start 1
recover 1 1
step 1 39
show 1
