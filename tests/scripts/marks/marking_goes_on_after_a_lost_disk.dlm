# A lost disk is dropped, and the marking goes on with the next while a majority is left.
cluster 3 4
start 0
submit 0 1 enqueue 2 1 5 EX a
step 0 55
submit 0 1 enqueue 1 2 1 EX a
step 0 52
gone 0
submit 0 1 enqueue 1 6 4 CW a
step 0 43
mark 0 2
step 0
