# A purge of a PW lock makes the value of its name invalid.
cluster 1 8
start 0
submit 0 1 enqueue 2 4 2 PW a
step 0 17
submit 0 1 convert 2 5 2 NL
step 0 15
start 6
submit 6 1 enqueue 1 7 1 EX b
step 6 80
submit 6 1 enqueue 0 8 4 PW a
step 6 17
submit 6 1 purge 2 17 6
step 6 17
show 6
