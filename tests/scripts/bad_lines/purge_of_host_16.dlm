# The host of a purge is 0 to 15. The line is named and nothing is run.
cluster 2 4
start 0
submit 0 1 purge 1 1 16
show 0
