# A disk that is dropped within a marking is not counted, though its block may have the mark.
cluster 3 1
start 0
submit 0 1 enqueue 1 1 1 EX db
step 0 51
mark 0 0
step 0 8
fail 0 00
step 0 18
