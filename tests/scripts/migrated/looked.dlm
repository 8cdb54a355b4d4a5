# A look finds all that was moved, and writes nothing.
cluster 3 4
log 0 enqueue 1 1 1 EX db
log 5 enqueue 1 2 2 NL mail
start 3
look 3
step 3 8
show 3
