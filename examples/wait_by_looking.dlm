# A client waits for a lock. Its host looks, with four calls and no write, until the lock is granted.
cluster 3 8
start 0
start 1
submit 0 1 enqueue 1 1 1 EX db
step 0 51
mark 0 0
step 0 27
submit 1 1 enqueue 2 1 2 EX db
step 1 60
mark 1 1
step 1 27
look 1
step 1 4
submit 0 1 release 1 2 1
step 0 60
mark 0 2
step 0 27
look 1
step 1 6
show 1
