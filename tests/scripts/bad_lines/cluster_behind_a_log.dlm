# The line cluster appears once. The line is named and nothing is run.
cluster 2 4
log 0 enqueue 1 1 1 EX db
cluster 2 4
start 0
