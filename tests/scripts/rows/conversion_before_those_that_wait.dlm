# A conversion from NL to PW is queued before an EX that is held; after its release it goes first.
cluster 1 8
start 0
submit 0 1 enqueue 1 1 1 NL a
step 0 17
submit 0 1 enqueue 2 1 2 EX a
step 0 17
submit 0 1 convert 1 2 1 PW
step 0 17
submit 0 1 enqueue 3 1 3 CR a
step 0 17
submit 0 1 enqueue 4 1 4 PR a
step 0 17
submit 0 1 release 2 2 2
step 0 17
show 0
