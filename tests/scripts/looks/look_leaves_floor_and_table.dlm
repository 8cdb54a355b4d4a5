# A look without news leaves the table, and takes no ballot: the host submits as if it had not looked.
cluster 1 3
start 0
submit 0 1 enqueue 1 1 1 EX db
step 0 17
look 0
step 0 2
show 0
submit 0 1 enqueue 2 1 2 EX db
step 0 17
show 0
