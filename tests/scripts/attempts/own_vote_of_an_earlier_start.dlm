# A host finds the vote of its earlier start, of the same command, and is acknowledged by it.
cluster 3 4
start 0
submit 0 1 enqueue 1 1 1 EX db
step 0 45
stop 0
start 0
submit 0 1 enqueue 1 1 1 EX db
step 0 102
