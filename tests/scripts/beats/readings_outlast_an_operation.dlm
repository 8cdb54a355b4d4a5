# An operation leaves the readings of the last beat alone.
cluster 1 4
start 0
start 1
beat 1
step 1 9
beat 0
step 0 9
submit 1 1 enqueue 1 1 1 EX db
step 1 17
beat 1
step 1 9
