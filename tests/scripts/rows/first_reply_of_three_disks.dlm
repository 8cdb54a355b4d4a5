# Over three disks a host is acknowledged with its fifty-first call.
cluster 3 4
start 0
submit 0 1 enqueue 1 1 10 EX db
step 0 51
