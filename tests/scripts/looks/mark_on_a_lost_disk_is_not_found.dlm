# A mark on one disk of three is enough for a look, as long as that disk can be read.
cluster 3 2
start 0
submit 0 1 enqueue 1 1 1 EX db
step 0 51
mark 0 0
step 0 9
stop 0
start 1
look 1
step 1 6
gone 0
start 2
look 2
step 2 5
