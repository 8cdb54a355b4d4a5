# A crash takes a mark whose last call was not synced, and leaves the vote: a look does not learn the slot, and a recovery does.
cluster 1 2
start 0
submit 0 1 enqueue 1 1 1 EX db
step 0 17
mark 0 0
step 0 8
crash 0 00
step 0 1
start 1
look 1
step 1 2
recover 1 1
step 1 27
