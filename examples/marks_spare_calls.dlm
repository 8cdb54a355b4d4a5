# On three disks a slot is learned with 51 calls, and with nine once it is marked. Thirty more show that the log ends there.
cluster 3 4
start 0
submit 0 1 enqueue 1 1 1 EX db
step 0 51
start 1
recover 1 1
step 1 81
mark 0 0
step 0 27
start 2
recover 2 1
step 2 39
