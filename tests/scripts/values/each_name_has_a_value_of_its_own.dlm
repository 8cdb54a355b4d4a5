# What is stored under b is not told to a lock on a.
cluster 1 4
start 14
submit 14 1 enqueue 2 5 5 PW b
step 14 17
submit 14 1 convert 2 31 5 CR noqueue value 01010101010101010101010101010101
step 14 17
submit 14 1 enqueue 0 38 3 NL a
step 14 17
