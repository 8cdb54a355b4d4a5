# What a host has looked at is learned: its submission makes no call on that slot.
cluster 3 2
start 0
submit 0 1 enqueue 1 1 1 EX db
step 0 51
mark 0 0
step 0 27
start 1
look 1
step 1 6
submit 1 1 enqueue 2 1 2 EX db
step 1 51
show 1
