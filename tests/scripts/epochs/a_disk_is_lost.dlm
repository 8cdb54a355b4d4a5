# A disk is lost as an epoch ends, and hosts go on over the other two. A second disk is lost, and no host gets a majority.
cluster 3 6 epochs
submit 0 8 enqueue 1 1 1 CR db
step 0 600
submit 0 8 enqueue 2 1 2 PW db
step 0 600
submit 0 8 status 1 2 2
step 0 600
submit 0 8 status 1 3 2
step 0 600
submit 0 8 status 1 4 2
step 0 600
submit 0 8 status 1 5 2
step 0 600
submit 0 8 enqueue 3 1 3 EX db
step 0 120
gone 1
step 0 2000
show 0
recover 5 8
step 5 2000
show 5
submit 5 8 release 2 2 2
step 5 2000
gone 0
submit 0 8 release 1 6 1
step 0 2000
look 5
step 5 2000
show 5
