# A conversion from PW to EX is not downward: the value that it gives is dropped.
cluster 1 2
start 5
submit 5 1 enqueue 1 6 1 PW ab
step 5 17
submit 5 1 convert 1 22 1 EX value 01010101010101010101010101010101
step 5 17
