# Where a call fails the next disk is asked, and shows the mark. For the next slot the disk is asked again.
cluster 3 2
start 0
submit 0 1 enqueue 1 1 1 EX db
step 0 51
mark 0 0
step 0 27
start 1
look 1
step 1 1
fail 1 a5
step 1 6
show 1
