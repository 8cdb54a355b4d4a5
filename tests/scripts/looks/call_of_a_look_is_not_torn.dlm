# No call of a look is a write, so none can be torn: the host goes on.
cluster 1 2
start 0
submit 0 1 enqueue 1 1 1 EX db
step 0 17
mark 0 0
step 0 9
start 1
look 1
tear 1 a5
step 1 1
tear 1 a5
step 1 1
tear 1 a5
step 1 1
tear 1 a5
step 1 1
