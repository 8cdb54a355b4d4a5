# A slot that is decided and has no mark ends a look: the command was acknowledged, and is not learned.
cluster 1 2
start 0
submit 0 1 enqueue 1 1 1 EX db
step 0 17
start 1
look 1
step 1 2
show 1
