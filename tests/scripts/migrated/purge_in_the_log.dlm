# A purge in the log ends the locks of its host, and makes the value of a name invalid on which one of them held EX.
cluster 3 8
log 0 enqueue 1 1 1 EX db
log 1 enqueue 2 1 2 PR db
log 1 purge 2 2 0
start 2
recover 2 1
step 2 57
show 2
submit 2 1 status 2 3 2
step 2 51
