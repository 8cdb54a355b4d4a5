# A mark ends an attempt only once the opening is over: disk 0 shows one, and disk 1 is still read.
cluster 2 1
start 3
submit 3 1 enqueue 1 5 4 NL a
step 3 34
mark 3 0
step 3 8
start 0
submit 0 1 enqueue 0 14 3 EX a
step 0 3
