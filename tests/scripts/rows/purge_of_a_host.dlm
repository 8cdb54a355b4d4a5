# A purge takes the locks that came through host 1; a client that repeats an old number is told so.
cluster 1 16
start 0
start 1
submit 0 1 enqueue 2 1 2 EX b
step 0 17
submit 1 1 enqueue 1 1 1 EX a
step 1 34
submit 1 1 enqueue 1 2 3 PR b
step 1 17
submit 0 1 enqueue 2 2 4 PR a
step 0 51
submit 0 1 purge 3 1 1
step 0 17
submit 0 1 status 2 1 4
step 0 17
show 0
