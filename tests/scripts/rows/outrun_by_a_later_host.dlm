# A host whose row shows a greater ballot is outrun.
cluster 1 2
start 0
start 1
submit 0 1 enqueue 1 1 1 EX db
step 0 4
submit 1 1 enqueue 2 1 2 EX db
step 1 17
step 0 6
