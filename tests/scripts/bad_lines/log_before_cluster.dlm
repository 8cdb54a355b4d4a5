# The line cluster is the first. The line is named and nothing is run.
log 0 enqueue 1 1 1 EX db
cluster 2 4
start 0
