# A purge of an EX lock makes the value invalid and keeps its bytes.
cluster 1 4
start 8
start 9
submit 8 1 enqueue 1 8 1 EX a
step 8 15
submit 9 1 convert 1 26 1 EX value 02020202020202020202020202020202
step 9 34
submit 9 1 enqueue 2 42 2 CW a
step 9 17
submit 9 1 purge 2 45 8
step 9 17
show 9
