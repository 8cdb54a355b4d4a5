# A host stops within a write as an epoch begins, and within one for a command. Others find each command as it was given, or not at all.
cluster 3 6 epochs
submit 0 8 enqueue 1 1 1 EX db
step 0 600
submit 0 8 enqueue 2 1 2 CW db
step 0 600
submit 0 8 status 1 2 2
step 0 600
submit 0 8 status 1 3 2
step 0 600
submit 0 8 status 1 4 2
step 0 600
submit 0 8 status 1 5 2
step 0 600
submit 0 8 convert 1 6 1 NL
step 0 63
tear 0 ff
tear 0 a5
step 0 1
tear 0 00
stop 0
recover 1 8
step 1 2000
show 1
submit 0 8 convert 1 6 1 NL
step 0 280
tear 0 a5
step 0 1
tear 0 a5
step 0 1
tear 0 a5
stop 0
submit 1 8 status 2 2 2
step 1 2000
show 1
fail 1 00
mark 1 1
step 1 9
fail 1 ff
step 1 200
recover 2 8
step 2 2000
show 2
