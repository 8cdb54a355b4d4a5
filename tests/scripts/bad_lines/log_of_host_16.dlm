# Hosts of a log are 0 to 15. The line is named and nothing is run.
cluster 2 4
log 16 enqueue 1 1 1 EX db
start 0
