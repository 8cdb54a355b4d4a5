# A host may mark a slot whose command came through another host: the marking begins.
cluster 1 2
start 0
start 2
submit 2 1 purge 2 8 0
step 2 17
submit 2 1 enqueue 2 9 2 EX a
step 2 15
submit 0 1 release 1 11 4
step 0 16
step 0 10
step 0 8
mark 0 1
