# A marking is not over once the first disk is marked.
cluster 2 1
start 3
submit 3 1 enqueue 1 5 4 NL a
step 3 34
mark 3 0
step 3 9
