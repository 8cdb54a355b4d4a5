# A conversion that has to wait stores nothing.
cluster 1 4
start 11
submit 11 1 enqueue 1 7 4 CW a
step 11 17
submit 11 1 enqueue 2 2 2 NL a
step 11 17
submit 11 1 convert 2 29 2 PR value 01010101010101010101010101010101
step 11 17
show 11
