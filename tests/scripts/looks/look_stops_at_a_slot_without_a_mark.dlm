# A look stops at the first slot without a mark, though a later one has one. Once somebody has marked it the next look goes on.
cluster 1 4
start 0
submit 0 1 enqueue 1 1 1 EX db
step 0 17
mark 0 0
step 0 9
submit 0 1 enqueue 2 1 2 EX db
step 0 17
submit 0 1 release 1 2 1
step 0 17
mark 0 2
step 0 9
start 1
look 1
step 1 4
show 1
mark 0 1
step 0 9
look 1
step 1 6
show 1
