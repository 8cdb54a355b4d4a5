# A mark that is first read in phase 1 ends no attempt: host 2 had read the row of slot 1 before it was marked.
cluster 1 2
start 2
submit 2 1 enqueue 0 2 3 NL a
step 2 17
start 7
submit 7 1 enqueue 0 2 4 NL b
step 7 34
submit 2 1 enqueue 2 4 5 CR ab
step 2 4
mark 7 1
step 7 8
step 2 6
