# A release that gives no value leaves the one that is there, and it is valid.
cluster 1 4
start 11
submit 11 1 enqueue 0 6 3 EX b
step 11 17
submit 11 1 enqueue 2 3 2 PR b
step 11 17
submit 11 1 release 0 13 3
step 11 17
show 11
