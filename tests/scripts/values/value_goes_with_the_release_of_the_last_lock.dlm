# A name keeps its value as long as it has locks. What the release of the last one stores is gone with it.
cluster 1 8
start 0
submit 0 1 enqueue 1 1 1 EX a
step 0 17
submit 0 1 release 1 2 1 value 0123456789abcdef0123456789abcdef
step 0 17
submit 0 1 enqueue 1 3 2 EX a
step 0 17
show 0
