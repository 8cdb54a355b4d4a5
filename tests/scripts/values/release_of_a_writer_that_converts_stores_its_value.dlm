# A release of a PW lock that waits for EX stores its value.
cluster 1 4
start 2
start 9
submit 2 1 enqueue 2 19 2 PW a
step 2 15
submit 9 1 enqueue 1 20 1 CR a
step 9 34
submit 9 1 convert 2 25 2 EX
step 9 17
submit 9 1 release 2 47 2 value 02020202020202020202020202020202
step 9 17
show 9
