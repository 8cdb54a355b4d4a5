# A lock that converts holds a mode, so its status tells the value.
cluster 1 8
start 15
submit 15 1 enqueue 1 2 1 NL ab
step 15 17
submit 15 1 enqueue 2 8 5 EX ab
step 15 17
submit 15 1 convert 1 9 1 EX
step 15 17
submit 15 1 convert 2 11 5 PR value 01010101010101010101010101010101
step 15 17
submit 15 1 status 0 28 1
step 15 17
