# A write that was torn behind a closed gate leaves no value.
cluster 1 2
start 0
submit 0 1 enqueue 1 1 1 EX db
step 0 5
tear 0 ff
start 0
recover 0 1
step 0 10
show 0
