# A host stops while it writes its mark. The vote is in the block's other copy, and the next host learns the slot from it.
cluster 1 2
start 0
submit 0 1 enqueue 1 1 1 EX db
step 0 17
mark 0 0
step 0 5
tear 0 00
start 1
recover 1 1
step 1 27
show 1
