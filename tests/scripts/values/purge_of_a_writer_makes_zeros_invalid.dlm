# A value of zeros is printed where it is not valid.
cluster 1 4
start 15
start 3
submit 3 1 enqueue 2 2 5 EX b
step 3 15
submit 15 1 enqueue 2 3 2 EX b
step 15 34
submit 15 1 purge 1 32 3
step 15 17
show 15
