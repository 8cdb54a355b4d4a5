# A line log gives no tries. The line is named and nothing is run.
cluster 2 4
log 0 1 enqueue 1 1 1 EX db
start 0
