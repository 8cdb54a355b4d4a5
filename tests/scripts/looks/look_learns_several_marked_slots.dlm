# A look learns three marked slots of three disks with two calls each, and stops at the fourth, after two calls on each of two disks.
cluster 3 4
start 0
submit 0 1 enqueue 1 1 1 EX db
step 0 51
mark 0 0
step 0 27
submit 0 1 enqueue 2 1 2 EX db
step 0 51
mark 0 1
step 0 27
submit 0 1 release 1 2 1
step 0 51
mark 0 2
step 0 27
start 1
look 1
step 1 10
show 1
