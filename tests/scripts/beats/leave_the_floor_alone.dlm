# A beat leaves the floor alone: the ballot that an attempt took counts behind it.
cluster 1 2
start 0
start 1
recover 0 1
step 0 3
fail 0 00
beat 0
step 0 9
submit 1 1 enqueue 2 1 2 EX db
step 1 3
submit 0 1 enqueue 1 1 1 EX db
step 0 10
step 1 7
step 0 7
