# The table shows a value beside its name, also a valid one.
cluster 1 2
start 14
start 2
submit 14 1 enqueue 2 5 5 PW b
step 14 17
submit 14 1 convert 2 31 5 CR noqueue value 01010101010101010101010101010101
step 14 15
submit 2 1 enqueue 2 32 2 EX a
step 2 34
show 2
