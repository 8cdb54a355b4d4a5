# A torn first write of a closed gate leaves it closed.
cluster 1 2
start 0
submit 0 1 enqueue 1 1 1 EX db
step 0 5
tear 0 ff
start 0
recover 0 1
step 0 3
tear 0 a5
start 0
recover 0 1
step 0 10
show 0
