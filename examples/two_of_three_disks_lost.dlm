# A majority of the disks decides. Without one of three all goes on; without two the host is refused, and what it has learned
# stands.
cluster 3 4
start 0
submit 0 1 enqueue 1 1 1 EX db
step 0 51

# Disk 0 is lost: the host hears so with its first call, and goes on with the two others, 17 calls on each.
gone 0
submit 0 1 enqueue 2 1 2 EX db
step 0 35

# Disk 2 is lost too. The attach of disk 0 fails, disk 1 takes three calls, and the attach of disk 2 ends it.
gone 2
submit 0 1 enqueue 3 1 3 EX db
step 0 5
show 0
