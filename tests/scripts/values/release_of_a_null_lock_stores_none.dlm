# A release of an NL lock stores nothing.
cluster 1 4
start 5
submit 5 1 enqueue 1 2 4 PW a
step 5 17
submit 5 1 enqueue 2 6 2 NL a
step 5 17
submit 5 1 release 2 31 2 value 01010101010101010101010101010101
step 5 17
show 5
