# Hosts are 0 to 15. The line is named and nothing is run.
cluster 2 4
start 0
start 16
show 0
