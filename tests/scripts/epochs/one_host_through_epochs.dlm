# One host goes through three epochs of eight slots. Each begins with what carries the table over, and places are counted through.
cluster 3 8 epochs
show 0
submit 0 8 enqueue 1 1 1 PR db
step 0 600
submit 0 8 enqueue 2 1 2 EX db
step 0 600
submit 0 8 enqueue 3 1 3 EX log
step 0 600
submit 0 8 convert 1 2 1 CR
step 0 600
submit 0 8 status 3 2 2
step 0 600
submit 0 8 release 3 3 3
step 0 600
submit 0 8 cancel 2 2 2
step 0 600
submit 0 8 enqueue 2 3 2 PW db
step 0 600
show 0
submit 0 8 enqueue 3 4 3 PR log
step 0 900
show 0
submit 0 8 release 1 3 1
step 0 600
submit 0 8 status 1 4 2
step 0 600
submit 0 8 convert 2 4 2 EX noqueue
step 0 900
submit 0 8 release 2 5 2
step 0 900
submit 0 8 release 3 5 3
step 0 900
show 0
blocking 0
recover 0 8
step 0 900
look 0
step 0 900
show 0
