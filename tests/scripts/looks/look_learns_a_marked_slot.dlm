# A look learns a slot from its mark, with two calls, and ends at the next slot, with two more. The lock table shows what was learned.
cluster 1 2
start 0
submit 0 1 enqueue 1 1 1 EX db
step 0 17
mark 0 0
step 0 9
start 1
look 1
step 1 4
show 1
