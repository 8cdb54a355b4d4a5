# A conversion from EX is downward to any mode, to EX too.
cluster 1 2
start 5
submit 5 1 enqueue 1 3 1 EX ab
step 5 17
submit 5 1 convert 1 12 1 EX value 01010101010101010101010101010101
step 5 17
