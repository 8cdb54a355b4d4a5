# Two of three disks are a majority: a look makes one call on the lost disk for each slot, and two on each other one that it asks.
cluster 3 2
start 0
submit 0 1 enqueue 1 1 1 EX db
step 0 51
mark 0 0
step 0 27
gone 0
start 1
look 1
step 1 8
show 1
