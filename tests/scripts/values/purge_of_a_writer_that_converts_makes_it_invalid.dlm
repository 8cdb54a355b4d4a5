# A lock that converts holds its old mode until then: a purge of a PW lock that waits for EX makes the value invalid.
cluster 1 8
start 7
submit 7 1 enqueue 131 64 28268 PW ax
step 7 7
step 7 10
start 4
submit 4 1 release 129 69 28269 value 01010101010101010101010101010101
step 4 4
step 4 30
submit 4 1 enqueue 131 77 28271 NL ax
step 4 17
submit 7 1 convert 131 79 28271 CR value 00000000000000000000000000000000
step 7 49
submit 4 1 convert 131 83 28268 EX
step 4 34
submit 4 1 purge 130 86 7
step 4 17
show 4
