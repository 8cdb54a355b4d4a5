# A conversion and a release that are refused store nothing, though their lock holds EX.
cluster 1 8
start 0
submit 0 1 enqueue 1 1 1 EX a
step 0 17
submit 0 1 convert 2 1 1 NL value 01010101010101010101010101010101
step 0 17
submit 0 1 release 2 2 1 value 02020202020202020202020202020202
step 0 17
submit 0 1 status 1 2 1
step 0 17
show 0
