# A migration leaves nothing unsynced: a crash of all disks at the start takes nothing.
cluster 3 4
log 0 enqueue 1 1 1 EX db
crash 0 ff
crash 1 a5
crash 2 00
start 1
recover 1 1
step 1 39
show 1
