# Disks crash one after the other while a host comes to an epoch; each takes other bytes for what it had not synced. The host, and then another, goes on.
cluster 3 6 epochs
submit 0 8 enqueue 1 1 1 EX db
step 0 600
submit 0 8 enqueue 2 1 2 EX db
step 0 600
submit 0 8 status 1 2 2
step 0 600
submit 0 8 status 1 3 2
step 0 600
submit 0 8 status 1 4 2
step 0 600
submit 0 8 status 1 5 2
step 0 600
submit 0 8 release 1 6 1
step 0 45
crash 0 00
step 0 60
crash 1 ff
step 0 60
crash 2 a5
step 0 2000
recover 3 8
step 3 2000
show 3
crash 1 00ff
crash 2 5a
submit 3 8 status 1 7 2
step 3 2000
submit 0 8 status 2 2 2
step 0 2000
show 0
crash 0 ff
crash 1 00
crash 2 00
look 3
step 3 2000
recover 3 8
step 3 2000
show 3
