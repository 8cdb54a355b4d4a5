# A release of a lock that waits for EX stores nothing.
cluster 3 4
start 8
submit 8 1 enqueue 1 1 4 CW a
step 8 53
submit 8 1 enqueue 2 2 2 EX a
step 8 8
step 8 3
step 8 40
submit 8 1 release 2 11 2 value 01010101010101010101010101010101
fail 8 a5
step 8 34
show 8
