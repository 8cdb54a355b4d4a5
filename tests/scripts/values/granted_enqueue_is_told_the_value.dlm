# An enqueue that is granted is told the value of the name.
cluster 1 4
start 2
submit 2 1 enqueue 0 3 3 EX ab
step 2 17
submit 2 1 convert 0 12 3 CR value 01010101010101010101010101010101
step 2 17
submit 2 1 enqueue 2 14 5 CW ab
step 2 17
