# Hosts are 0 to 15. The line is named and nothing is run.
cluster 1 2
log 0 purge 1 1 16
start 0
