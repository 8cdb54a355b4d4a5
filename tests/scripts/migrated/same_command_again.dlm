# A host that submits what it finds in the log already, command and host alike, is acknowledged there.
cluster 1 3
log 0 enqueue 1 1 1 EX db
start 0
submit 0 1 enqueue 1 1 1 EX db
step 0 3
