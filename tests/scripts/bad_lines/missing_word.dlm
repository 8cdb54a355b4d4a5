# A start names its host. The line is named and nothing is run.
cluster 2 4
start 0
start
show 0
