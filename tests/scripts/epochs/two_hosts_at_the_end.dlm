# Two hosts want the last slot of an epoch, and then both carry the table over, in turn by a few calls.
cluster 3 8 epochs
submit 0 8 enqueue 1 1 1 PR db
step 0 600
submit 0 8 enqueue 2 1 2 PR db
step 0 600
submit 0 8 enqueue 3 1 3 EX db
step 0 600
submit 0 8 status 1 2 3
step 0 600
submit 0 8 status 1 3 2
step 0 600
submit 0 8 status 1 4 2
step 0 600
submit 0 8 status 3 2 3
step 0 600
recover 1 8
step 1 2000
submit 0 200 convert 1 5 1 CR
submit 1 200 convert 2 2 2 EX
step 0 9
step 1 17
step 0 30
step 1 30
step 0 51
step 1 51
step 0 40
step 1 200
step 0 200
step 1 90
step 0 77
step 1 1000
step 0 1000
step 1 1000
recover 0 8
step 0 2000
show 0
blocking 0
recover 1 8
step 1 2000
show 1
