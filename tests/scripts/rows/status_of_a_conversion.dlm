# The status of a lock that converts has both modes.
cluster 1 8
start 0
submit 0 1 enqueue 1 1 1 NL a
step 0 17
submit 0 1 enqueue 2 1 2 EX a
step 0 17
submit 0 1 convert 1 2 1 EX
step 0 17
submit 0 1 status 1 3 1
step 0 17
