# Nothing is run where a line is bad: there is no host 16.
cluster 1 2
start 0
submit 0 1 enqueue 1 1 1 EX db
step 0 17
step 16 1
