# A write that fails may do what it was to do: the gate is open, and the vote stands.
cluster 1 2
start 0
submit 0 1 enqueue 1 1 1 EX db
step 0 14
fail 0 a5
recover 0 1
step 0 27
show 0
