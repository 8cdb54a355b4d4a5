# With all slots learned a look has ended: with the second call, where the mark of the last slot was read, and before any call, where the host knew them.
cluster 1 1
start 0
submit 0 1 enqueue 1 1 1 EX db
step 0 17
look 0
mark 0 0
step 0 9
start 1
look 1
step 1 2
look 1
