# A mark decides nothing where too few disks can be read: disk 0 shows one, and disk 1 is lost.
cluster 2 1
start 4
submit 4 1 cancel 1 8 1
step 4 34
mark 4 0
step 4 8
gone 1
start 6
submit 6 1 enqueue 0 12 3 EX b
step 6 4
