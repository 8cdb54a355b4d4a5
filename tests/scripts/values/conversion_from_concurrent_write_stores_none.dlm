# A conversion from CW is never downward: the value that it gives is dropped.
cluster 1 2
start 0
submit 0 1 enqueue 2 2 2 CW a
step 0 17
submit 0 1 convert 2 3 2 CR noqueue value 02020202020202020202020202020202
step 0 17
