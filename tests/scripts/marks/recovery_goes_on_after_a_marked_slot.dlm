# A mark says nothing of later slots: a recovery that learned one by it goes on to the next.
cluster 1 2
start 1
submit 1 1 convert 0 1 3 EX
step 1 17
mark 1 0
step 1 8
stop 1
start 1
recover 1 1
step 1 3
