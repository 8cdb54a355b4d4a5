# NL is a mode that is held: the status tells the value.
cluster 1 8
start 4
submit 4 1 enqueue 2 5 2 NL b
step 4 17
submit 4 1 enqueue 1 6 4 EX b
step 4 17
submit 4 1 release 1 7 4 value 01010101010101010101010101010101
step 4 17
submit 4 1 enqueue 2 10 5 NL b
step 4 17
submit 4 1 status 2 26 5
step 4 17
