# An epoch of four slots has no room for a table of two locks and two clients: the log is full.
cluster 1 4 epochs
submit 0 8 enqueue 1 1 1 EX db
step 0 600
submit 0 8 enqueue 2 1 2 EX log
step 0 600
submit 0 8 status 1 2 2
step 0 600
submit 0 8 status 2 2 1
step 0 600
submit 0 8 release 1 3 1
step 0 2000
show 0
recover 1 8
step 1 2000
show 1
