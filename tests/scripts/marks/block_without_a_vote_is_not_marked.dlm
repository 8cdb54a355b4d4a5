# A disk on which the host has not voted is visited, not written and not counted: disk 0 failed in the attempt.
cluster 3 1
start 7
submit 7 1 enqueue 0 1 3 CR a
fail 7 a5
step 7 34
mark 7 0
step 7 21
