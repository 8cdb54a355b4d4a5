# A mark leaves the ballot that its block has promised: host 2, under a greater one, is not outrun by it.
cluster 1 2
start 2
submit 2 1 enqueue 0 2 3 NL a
step 2 17
start 7
submit 7 1 enqueue 0 2 4 NL b
step 7 34
submit 2 1 enqueue 2 4 5 CR ab
step 2 5
mark 7 1
step 7 8
step 2 5
