# A vote has no mark, and decides nothing: host 7 reads that of host 2, and goes on to phase 1.
cluster 1 1
start 7
submit 7 1 enqueue 2 1 2 EX b
start 2
submit 2 1 cancel 2 3 5
step 2 15
step 7 4
