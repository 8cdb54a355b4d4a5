# Neither a grant nor a release without a value makes a value valid again.
cluster 1 8
start 5
start 0
submit 0 1 enqueue 1 2 1 EX a
submit 5 1 enqueue 2 20 2 NL a
step 5 17
step 0 34
submit 5 1 purge 2 22 0
step 5 32
submit 0 1 enqueue 0 29 3 CW a
step 0 34
submit 0 1 convert 0 33 3 EX
step 0 17
submit 0 1 release 0 43 3
step 0 17
submit 0 1 enqueue 1 45 1 PW a
step 0 17
