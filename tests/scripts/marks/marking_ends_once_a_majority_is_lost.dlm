# A marking is refused as soon as too few disks are left: of two the first crashes, and the second is not asked.
cluster 2 2
start 3
submit 3 1 cancel 1 1 1
step 3 34
submit 3 1 purge 0 2 1
step 3 34
mark 3 1
step 3 1
crash 0 a5
step 3 1
