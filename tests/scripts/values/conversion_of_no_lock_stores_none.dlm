# A value that comes with a refused conversion goes nowhere: host 2 never took its lock.
cluster 1 3
start 7
start 2
submit 2 1 enqueue 1 1 1 EX b
step 2 7
step 10 8
submit 7 1 enqueue 0 2 3 EX a
step 7 13
step 7 17
step 7 4
submit 7 1 convert 1 7 1 PW value 01010101010101010101010101010101
step 7 13
step 7 4
