# A host learns the command of slot 0, and puts its own into slot 1. The table answers a repeated request as before.
cluster 1 4
start 0
start 1
submit 0 1 enqueue 1 1 1 EX db
step 0 17
submit 1 1 enqueue 1 1 1 EX db
step 1 34
show 1
