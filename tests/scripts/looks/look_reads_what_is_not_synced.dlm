# A look syncs nothing. Host 1 finds a mark that host 0 has not synced, and what it tells was acknowledged. A crash takes the mark, and host 2 does not find it.
cluster 1 2
start 0
submit 0 1 enqueue 1 1 1 EX db
step 0 17
mark 0 0
step 0 8
start 1
look 1
step 1 4
crash 0 00
start 2
look 2
step 2 2
