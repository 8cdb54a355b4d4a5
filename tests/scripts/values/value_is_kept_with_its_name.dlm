# A value stays with its name while that has locks; with the next first lock it is zeros again.
cluster 1 8
start 0
submit 0 3 enqueue 1 1 1 NL a
step 0 17
submit 0 3 enqueue 2 1 2 EX a
step 0 17
submit 0 3 release 2 2 2 value 0123456789abcdef0123456789abcdef
step 0 17
submit 0 3 enqueue 2 3 2 PW a
step 0 17
show 0
submit 0 3 purge 1 2 0
step 0 17
submit 0 3 enqueue 2 4 2 PW a
step 0 17
submit 0 3 status 1 3 2
step 0 17
show 0
