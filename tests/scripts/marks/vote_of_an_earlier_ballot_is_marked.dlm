# A vote is marked also where the block has promised a later ballot since: of nine calls on disk 2 six are still due.
cluster 3 1
start 6
submit 6 1 enqueue 2 1 5 PW ab
step 6 35
stop 6
start 6
submit 6 1 convert 1 4 1 PR
step 6 10
step 6 6
step 6 9
step 6 3
crash 2 a5
step 6 15
mark 6 0
step 6 21
