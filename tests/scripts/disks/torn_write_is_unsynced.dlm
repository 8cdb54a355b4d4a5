# What a torn write leaves is unsynced: a crash may take the gate that it opened.
cluster 1 2
start 0
submit 0 1 enqueue 1 1 1 EX db
step 0 14
tear 0 a5
crash 0 00
start 0
recover 0 1
step 0 27
show 0
