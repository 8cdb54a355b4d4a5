# With the first lock of a name its value is zeros and valid: nothing is printed of it.
cluster 1 1
start 4
submit 4 1 enqueue 1 2 2 CW a
step 4 17
