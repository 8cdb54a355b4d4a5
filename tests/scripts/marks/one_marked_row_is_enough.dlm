# One marked row is enough, on whichever disk: host 2 reads disk 0 before it is marked, and finds the mark on disk 1.
cluster 2 1
start 2
submit 2 1 status 0 2 3
step 2 3
start 3
submit 3 1 enqueue 1 3 4 EX b
step 3 34
mark 3 0
step 3 17
step 2 3
