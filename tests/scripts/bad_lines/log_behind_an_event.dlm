# The lines log come directly after the line cluster. The line is named and nothing is run.
cluster 2 4
start 0
log 0 enqueue 1 1 1 EX db
show 0
