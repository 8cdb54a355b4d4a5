# Host 0 has filled an epoch of six slots. It stops while it comes to the next one, four times at other calls; host 1 goes on each time.
cluster 3 6 epochs
submit 0 8 enqueue 1 1 1 EX db
step 0 600
submit 0 8 enqueue 2 1 2 PR db
step 0 600
submit 0 8 status 1 2 2
step 0 600
submit 0 8 status 1 3 2
step 0 600
submit 0 8 status 1 4 2
step 0 600
submit 0 8 status 1 5 2
step 0 600
submit 0 8 release 1 6 1
step 0 60
stop 0
recover 1 8
step 1 100
stop 1
submit 0 8 release 1 6 1
step 0 170
stop 0
recover 1 8
step 1 250
stop 1
recover 2 8
step 2 2000
show 2
submit 1 8 release 1 6 1
step 1 2000
show 1
recover 0 8
step 0 2000
show 0
