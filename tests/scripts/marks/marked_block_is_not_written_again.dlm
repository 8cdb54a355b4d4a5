# A marked block is not written again, and counts: the second marking makes three calls.
cluster 1 1
start 7
submit 7 1 convert 1 8 4 EX
step 7 17
mark 7 0
step 7 9
mark 7 0
step 7 3
