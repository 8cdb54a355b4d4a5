# Two clients want modes of one name that conflict: the second waits in the name's queue.
cluster 1 8
start 0

submit 0 1 enqueue 1 1 1 PR db
step 0 17
submit 0 1 enqueue 2 1 2 EX db
step 0 17
