# A recovery that reads no mark does not end with the opening: it promises, and so learns whether the slot is empty.
cluster 1 1
start 6
recover 6 1
step 6 3
