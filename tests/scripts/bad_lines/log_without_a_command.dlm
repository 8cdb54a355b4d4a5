# A line log has its command. The line is named and nothing is run.
cluster 1 2
log 0
start 0
