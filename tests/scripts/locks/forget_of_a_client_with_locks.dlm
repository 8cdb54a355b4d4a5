# A client is not forgotten while it holds a lock or waits for one. The refusal is kept, and nobody else is asked.
cluster 1 12
start 0
submit 0 1 enqueue 1 1 1 EX a
step 0 17
submit 0 1 enqueue 2 1 2 EX a
step 0 17
submit 0 1 forget 3 1 1
step 0 17
submit 0 1 forget 3 2 2
step 0 17
submit 0 1 forget 2 2 2
step 0 17
submit 0 1 enqueue 1 1 5 EX b
step 0 17
submit 0 1 release 1 2 1
step 0 17
submit 0 1 forget 3 2 1
step 0 17
submit 0 1 forget 3 3 1
step 0 17
submit 0 1 enqueue 1 1 5 CR b
step 0 17
submit 0 1 status 2 2 9
step 0 17
submit 0 1 status 3 2 9
step 0 17
show 0
