# A release of a PW lock stores its value.
cluster 1 4
start 3
submit 3 1 enqueue 1 1 1 EX b
step 3 17
submit 3 1 enqueue 2 6 2 PW b
step 3 17
submit 3 1 convert 1 13 1 NL
step 3 17
submit 3 1 release 2 25 2 value 02020202020202020202020202020202
step 3 17
show 3
