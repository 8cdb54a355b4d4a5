# A number has digits alone. The line is named and nothing is run.
cluster 2 4
start 0
start -1
show 0
