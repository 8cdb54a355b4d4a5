# Host 0 fills an epoch and stops. Host 1 knows nothing, carries the table over into the next epoch, and purges host 0. Host 0 comes again, and learns it.
cluster 3 10 epochs
submit 0 8 enqueue 1 1 1 EX db
step 0 600
submit 0 8 enqueue 2 1 2 PR db
step 0 600
submit 0 8 enqueue 3 1 3 PR log
step 0 600
submit 0 8 status 1 2 2
step 0 600
submit 0 8 status 1 3 1
step 0 600
submit 0 8 status 2 2 1
step 0 600
submit 0 8 status 1 4 2
step 0 600
submit 0 8 status 1 5 2
step 0 600
submit 0 8 status 1 6 2
step 0 600
submit 0 8 status 1 7 2
step 0 600
stop 0
show 0
submit 1 8 purge 9 1 0
step 1 2000
show 1
recover 0 8
step 0 2000
show 0
submit 1 8 enqueue 4 1 4 EX db
step 1 2000
look 0
step 0 2000
show 0
blocking 0
