# A lock that waits holds no mode, so its status tells no value.
cluster 1 4
start 1
submit 1 1 enqueue 1 13 4 EX a
step 1 17
submit 1 1 convert 1 16 4 EX value 02020202020202020202020202020202
step 1 17
submit 1 1 enqueue 2 18 5 PR a
step 1 17
submit 1 1 status 2 29 5
step 1 17
