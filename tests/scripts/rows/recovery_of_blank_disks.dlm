# On blank disks a recovery ends with its first attempt: ten calls on each of three disks.
cluster 3 4
start 0
recover 0 1
step 0 30
