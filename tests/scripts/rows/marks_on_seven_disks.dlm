# A marking says on how many disks it was made: nine calls on each of seven.
cluster 7 2
start 0
submit 0 1 enqueue 1 1 1 EX db
step 0 119
mark 0 0
step 0 63
