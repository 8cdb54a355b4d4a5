# A recovery has its tries. The line is named and nothing is run.
cluster 2 4
start 0
recover 0
show 0
