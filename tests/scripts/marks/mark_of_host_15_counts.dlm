# The mark of host 15, whose block is the last of a row, counts; it counts for host 15 itself.
cluster 1 1
start 15
submit 15 1 enqueue 2 2 2 EX b
step 15 17
mark 15 0
step 15 8
stop 15
start 15
submit 15 1 convert 2 10 5 EX
step 15 3
