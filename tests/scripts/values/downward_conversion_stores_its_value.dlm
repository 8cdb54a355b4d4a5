# A conversion downward stores all sixteen bytes, and is told them.
cluster 1 2
start 14
submit 14 1 enqueue 2 5 5 PW b
step 14 17
submit 14 1 convert 2 31 5 CR noqueue value 01010101010101010101010101010101
step 14 17
