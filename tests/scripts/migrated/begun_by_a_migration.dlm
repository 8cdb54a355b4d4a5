# A host learns what was moved, and puts its own command into the next slot. All recoveries of a sweep hold what was moved.
cluster 1 2
log 0 enqueue 1 1 1 EX db
start 1
submit 1 1 release 1 2 1
step 1 20
