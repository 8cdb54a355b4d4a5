# What is stored after a purge is valid.
cluster 1 8
start 0
start 11
submit 0 1 enqueue 1 14 1 EX a
step 0 17
submit 11 1 enqueue 0 15 3 NL a
step 11 34
submit 11 1 purge 2 16 0
step 11 17
submit 11 1 enqueue 1 17 1 EX a
step 11 15
submit 0 1 enqueue 1 22 3 CW b
step 0 80
submit 0 1 release 1 23 1 value 01010101010101010101010101010101
step 0 17
show 0
