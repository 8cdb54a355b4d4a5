# A purge of an EX lock makes the value of its name invalid, for a lock of another host too.
cluster 1 4
start 15
start 0
start 3
submit 3 1 enqueue 2 10 5 EX a
step 3 15
submit 0 1 enqueue 0 23 3 NL a
step 0 32
submit 15 1 purge 1 32 3
step 15 80
show 15
