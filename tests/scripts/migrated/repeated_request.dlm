# The reply to the last request of a client was moved too: the number used again gets it, from any host.
cluster 1 3
log 0 enqueue 1 7 1 EX db
start 4
submit 4 1 enqueue 1 7 1 EX db
step 4 20
