# The last call of an attempt fails: two of three disks have the vote, and that is enough.
cluster 3 2
start 0
submit 0 1 enqueue 1 1 1 EX db
step 0 50
fail 0 00
