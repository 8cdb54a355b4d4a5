# Any slot that the host has learned may be marked, not the last alone: the marking begins.
cluster 1 4
start 0
submit 0 1 purge 0 1 1
step 0 17
submit 0 1 release 1 11 4
step 0 17
submit 0 1 convert 0 12 3 EX
step 0 9
step 0 8
mark 0 1
