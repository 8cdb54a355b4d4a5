# A host that submits learns what was moved first, and its command comes behind.
cluster 3 8
log 0 enqueue 1 1 1 EX db
start 1
submit 1 1 enqueue 2 1 2 PR db
step 1 60
show 1
