# A recovery learns a slot from a mark, be it one that its own host wrote before it stopped.
cluster 1 1
start 1
submit 1 1 convert 0 1 3 EX
step 1 17
mark 1 0
step 1 8
stop 1
start 1
recover 1 1
step 1 3
