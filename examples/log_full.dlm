# The log has one slot, and the first command takes it.
cluster 1 1
start 0
submit 0 1 enqueue 1 1 1 EX db
step 0 17
submit 0 1 enqueue 1 2 2 EX db
